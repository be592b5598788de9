// Records live from the place shown, at 60 frames a second: over the inputs that are there, or inserting.
import { EMPTY, FRAME_LIMIT } from "./input.js";
import { KEPT_EVERY } from "./keeper.js";
import { Refusal } from "./refusals.js";
import { parseSchedule } from "./tones.js";

const FRAME = 1000 / 60;
const BEHIND = 3; // frames whose pictures may be missing; a cart that is slower is recorded slower
const ROLLING = 8; // frames between places that are kept while recording, so that few are run again

export class Recorder extends EventTarget {
  constructor(session, player, controllers, sound) {
    super();
    this.session = session;
    this.player = player;
    this.controllers = controllers;
    this.sound = sound;
    this.isInserting = false;
    this.isRecording = false;
    this.rolling = null;
  }

  toggle() {
    if (this.isRecording) this.stop();
    else this.start();
  }

  start() {
    this.player.pause();
    this.player.follow(this.player.place);
    this.isRecording = true;
    this.place = this.player.place;
    this.pictures = 0;
    this.time = null;
    this.rolling = null;
    this.label = `recording from frame ${this.place}`;
    this.session.begin(this.label);
    this.controllers.begin();
    this.sound.begin(this.place + 1);
    this.dispatchEvent(new Event("change"));
    requestAnimationFrame((now) => this.tick(now));
  }

  stop() {
    if (!this.isRecording) return;
    this.isRecording = false;
    this.controllers.end();
    this.session.finish();
    this.player.unfollow();
    if (this.rolling !== null) this.drop(this.rolling);
    this.dispatchEvent(new Event("change"));
  }

  tick(now) {
    if (!this.isRecording) return;
    if (this.time === null) this.time = now;
    // A page that was away, or a cart that is slow, doesn't have to catch up.
    if (now - this.time > BEHIND * FRAME) this.time = now - FRAME;
    while (now - this.time >= FRAME - 0.5 && this.pictures < BEHIND && this.isRecording) {
      this.time += FRAME;
      this.recordFrame();
    }
    if (this.isRecording) requestAnimationFrame((next) => this.tick(next));
  }

  recordFrame() {
    const { session } = this;
    const at = this.place;
    if (!session.group) session.begin(this.label); // an edit by hand came between
    const isNew = this.isInserting || at >= session.count;
    if (isNew && session.count >= FRAME_LIMIT) {
      this.stop();
      return;
    }
    const old = at < session.count && !this.isInserting ? session.inputs[at] : EMPTY;
    session.change("", [{ kind: isNew ? "insert" : "set", at, input: this.controllers.read(old) }]);
    this.place = at + 1;
    this.player.follow(this.place);
    this.fetchPlace(this.place);
  }

  async fetchPlace(place) {
    this.pictures += 1;
    if (this.sound.isOn) this.fetchSound(place);
    try {
      const [image] = await this.session.askAt(`show ${place}`, place);
      this.player.showImage(place, image);
    } catch (refusal) {
      if (!(refusal instanceof Refusal)) throw refusal;
      this.session.tell("fault", { text: `there is no picture of place ${place}: ${refusal.message}` });
    } finally {
      this.pictures -= 1;
    }
    if (this.isRecording && place % ROLLING === 0) this.keep(place);
  }

  // A frame whose sound is refused is silent.
  async fetchSound(place) {
    const text = await this.session.connection.askText(`tones ${place} ${place}`).catch(() => null);
    if (text !== null) this.sound.add(parseSchedule(text));
  }

  keep(place) {
    if (this.session.kept.includes(place)) return;
    if (this.rolling !== null) this.drop(this.rolling);
    this.rolling = place % KEPT_EVERY ? place : null;
    this.session.keep(place).catch(() => { this.rolling = null; });
  }

  // Inserts before it may have moved it; then it stays kept, which costs nothing.
  drop(place) {
    this.session.connection.ask(`drop ${place}`).catch(() => {});
    this.rolling = null;
  }
}
