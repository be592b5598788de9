// Work that is asked for often, and done once at a time: what comes while it runs is done once more behind
// it. Work that is refused is told, and tried again a few times, or as soon as it is asked for.
import { Ended, Refusal } from "./refusals.js";

const PATIENCE = [1000, 2000, 4000, 8000, 16000]; // milliseconds from a refusal to the next try

export function delay(milliseconds) {
  return new Promise((resolve) => setTimeout(resolve, milliseconds));
}

export class Refresher {
  // `pause` is the least time from one end of the work to its next beginning, a number or a function of
  // none; `tell` gets what refused the work, or null where it was done.
  constructor(work, { pause = 0, tell = () => {} } = {}) {
    this.work = work;
    this.pause = typeof pause === "function" ? pause : () => pause;
    this.tell = tell;
    this.isWanted = false;
    this.isRunning = false;
    this.refusals = 0; // since it was asked for
    this.timer = null;
  }

  ask() {
    this.refusals = 0;
    this.goOn();
  }

  // Does it once more, as a part of what was asked for.
  goOn() {
    clearTimeout(this.timer);
    this.isWanted = true;
    if (!this.isRunning) this.run();
  }

  async run() {
    this.isRunning = true;
    while (this.isWanted) {
      this.isWanted = false;
      await this.tryOnce();
      const pause = this.pause();
      if (pause) await delay(pause);
    }
    this.isRunning = false;
  }

  async tryOnce() {
    try {
      await this.work();
      this.tell(null);
    } catch (refusal) {
      if (refusal instanceof Ended) return;
      if (!(refusal instanceof Refusal)) reportError(refusal);
      this.tell(refusal);
      this.tryLater();
    }
  }

  tryLater() {
    if (this.refusals === PATIENCE.length) return;
    this.timer = setTimeout(() => this.goOn(), PATIENCE[this.refusals]);
    this.refusals += 1;
  }
}
