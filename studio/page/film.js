// Images and sounds of the places ahead, asked for in stretches so that playing never waits for one at a
// time.
import { decode } from "./connection.js";
import { Ended } from "./refusals.js";
import { parseSchedule } from "./tones.js";

const AHEAD = 2; // stretches that are asked for or stand ready

export class Film {
  constructor({ session, keeper, place, stretch, sound }) {
    Object.assign(this, { session, keeper, stretch, sound });
    this.images = new Map();
    this.next = place + 1; // the first place that wasn't asked for
    this.isStopped = false;
    this.onRefusal = () => {};
  }

  // Asks for more, where fewer places stand ahead of this one than there should.
  feed(place) {
    while (!this.isStopped && this.next <= this.session.count && this.next - place <= AHEAD * this.stretch) {
      const last = Math.min(this.next + this.stretch - 1, this.session.count);
      this.askFor(this.next, last);
      this.next = last + 1;
    }
  }

  askFor(first, last) {
    let place = first;
    const take = (image) => {
      if (!this.isStopped) this.images.set(place, image);
      place += 1;
    };
    this.keeper.keepNear(first - 1);
    if (this.sound) this.askForSound(first, last);
    this.session.connection.ask(`film ${first} ${last} 1`, { onPiece: take })
      .catch((refusal) => this.note(refusal));
  }

  // It plays on without the sound.
  askForSound(first, last) {
    const take = (text) => {
      if (!this.isStopped) this.sound.add(parseSchedule(decode(text)));
    };
    this.session.connection.ask(`tones ${first} ${last}`, { onPiece: take }).catch(() => {});
  }

  note(refusal) {
    if (this.isStopped || refusal instanceof Ended) return;
    this.stop();
    this.onRefusal(refusal);
  }

  take(place) {
    const image = this.images.get(place);
    this.images.delete(place);
    return image;
  }

  stop() {
    this.isStopped = true;
    this.images.clear();
  }
}
