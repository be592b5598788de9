// Keeps a place in every sixty, and brings kept places up to date after edits, a little at a time while
// nothing else is done. A place is then never far from a kept one, and the roll shows which are known to be
// true.
import { delay } from "./refresher.js";
import { Ended, Refusal } from "./refusals.js";

export const KEPT_EVERY = 60;
const KEPT_MOST = 1024;
const REST = 100; // milliseconds between looks for work
const FAR = 600; // frames from a place that is known to one that is approached by strides
const QUICK = 50; // milliseconds of a stride that may be longer the next time
const SLOW = 200;
const REFUSED = 2000; // milliseconds after an order that was refused

export class Keeper {
  constructor(session) {
    this.session = session;
    this.lastEdit = 0;
    this.isPaused = () => false;
    this.dropped = new Set(); // places that the user doesn't want to be kept
    session.addEventListener("edited", () => { this.lastEdit = performance.now(); });
    this.run();
  }

  async run() {
    while (!this.session.connection.reason) {
      const isBusy = this.isPaused() || performance.now() - this.lastEdit < REST;
      const didWork = !isBusy && (await this.tryStep());
      if (!didWork) await delay(REST);
    }
  }

  // An order that is refused doesn't end the keeping.
  async tryStep() {
    try {
      return await this.step();
    } catch (refusal) {
      if (refusal instanceof Ended) return false;
      if (!(refusal instanceof Refusal)) reportError(refusal);
      await delay(REFUSED);
      return false;
    }
  }

  // One order of work, if there is any.
  async step() {
    const { session } = this;
    if (!session.connection.isOpen) return false;
    const doubtful = session.kept.find((place) => place > session.trusted);
    if (doubtful !== undefined) {
      await session.state(Math.min(doubtful, session.count)); // edits may have moved it
      return true;
    }
    const missing = this.missingPlace();
    if (missing === null) return false;
    await this.keep(missing);
    return true;
  }

  // Edits move kept places, so that they stand anywhere; there is none missing where gaps are short.
  missingPlace() {
    const { kept, count } = this.session;
    if (kept.length >= KEPT_MOST) return null;
    for (let at = 0; at < kept.length; at += 1) {
      const place = kept[at] + KEPT_EVERY;
      const next = at + 1 < kept.length ? kept[at + 1] : count + 1;
      if (place < next && !this.dropped.has(place)) return place;
    }
    return null;
  }

  // One that is kept already, or where there is no room, is refused.
  async keep(place) {
    await this.session.keep(place).catch(() => {});
    await this.session.state(Math.min(place, this.session.count));
  }

  // Keeps a place unless one is kept a little before it: what is asked of places behind it then begins there.
  keepNear(place) {
    const isNear = this.session.kept.some((kept) => kept <= place && kept > place - KEPT_EVERY);
    if (!isNear) this.session.keep(place).catch(() => {});
  }

  isFar(place) {
    return place - this.session.trusted > FAR;
  }

  // Goes towards a place by strides of frames, each an order, so that nobody waits for long who doesn't want
  // to go there any more.
  async approach(place, isWanted) {
    let stride = FAR;
    while (this.isFar(place) && isWanted()) {
      const start = performance.now();
      await this.stride(Math.min(this.session.trusted + stride, place));
      const took = performance.now() - start;
      if (took < QUICK) stride *= 2;
      else if (took > SLOW) stride = Math.max(KEPT_EVERY, Math.floor(stride / 2));
    }
  }

  // To the last kept place that isn't past the end of the stride; where there is none, its end is kept.
  async stride(end) {
    const { session } = this;
    const kept = session.kept.findLast((place) => place <= end && place > session.trusted);
    if (kept === undefined) await session.keep(end).catch(() => session.state(end));
    else await session.state(kept);
  }

  // Keeps a place by hand, or keeps it no longer; what was done.
  async toggle(place) {
    const { session } = this;
    await session.state(place); // so that the kept places are those after the last edit
    if (place && session.kept.includes(place)) {
      this.dropped.add(place);
      await session.connection.ask(`drop ${place}`);
      await session.state(place);
      return `place ${place} is kept no longer`;
    }
    this.dropped.delete(place);
    await this.keep(place);
    return `place ${place} is kept`;
  }
}
