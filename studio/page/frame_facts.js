// What is known of frames beside their inputs, for the roll: units, and the sounds of the four channels. It
// is asked for in stretches, for the rows that are seen, and only where kept places are known to be true,
// so that it is cheap.
import { Refresher } from "./refresher.js";
import { Refusal } from "./refusals.js";
import { RefusalLine } from "./refusal_line.js";
import { decode } from "./connection.js";
import { parseSchedule } from "./tones.js";

const STRETCH = 60;

function unitsOf(line) {
  const words = line.trim().split(" ");
  const numberOrWord = (word) => (/^\d+$/.test(word) ? Number(word) : word);
  return { units: numberOrWord(words[2]), start: words[3] === "start" ? numberOrWord(words[4]) : null };
}

export class FrameFacts extends EventTarget {
  constructor(session, budget) {
    super();
    this.session = session;
    this.budget = budget;
    this.facts = [];
    this.knowsUnits = true;
    this.seen = [0, 0];
    this.refused = []; // of frames that are to be asked for again
    const line = new RefusalLine(document.getElementById("units-pane"));
    this.work = new Refresher(() => this.fetchSeen(), { pause: 20, tell: (refusal) => line.show(refusal) });
    this.isPaused = () => false;
    session.addEventListener("edited", (event) => this.forget(event.detail.from));
    session.addEventListener("kept", () => this.work.ask());
  }

  of(frame) {
    return this.facts[frame] || null;
  }

  // Whether a frame took more than nine tenths of its budget, or didn't end.
  isHeavy(frame) {
    const facts = this.of(frame);
    return Boolean(facts) && (this.isNearBudget(facts.units) || this.isNearBudget(facts.start));
  }

  // Units as the program wrote them: a number, `spent`, `trap` or `halted`; null where they aren't known.
  isNearBudget(units) {
    if (typeof units === "number") return 10 * units > 9 * this.budget;
    return units === "spent" || units === "trap";
  }

  forget(from) {
    if (this.facts.length > from) this.facts.length = from;
    this.refused = this.refused.filter((stretch) => stretch.end <= from);
    this.work.ask();
  }

  // The rows that are seen.
  see(first, last) {
    this.seen = [first, last];
    this.work.ask();
  }

  missing() {
    const [first, last] = this.seen;
    const end = Math.min(last + 1, this.session.count, this.session.trusted + STRETCH);
    for (let frame = first; frame < end; frame += 1) {
      if (!this.facts[frame]) return [frame, Math.min(frame + STRETCH, end)];
    }
    return null;
  }

  async fetchSeen() {
    if (this.isPaused()) return;
    const stretch = this.missing();
    if (stretch) await this.fetchStretch(stretch);
    else if (this.refused.length) this.forgetRefused();
  }

  // What was refused leaves the rest as it is, and is asked for again once all else is there.
  async fetchStretch([from, end]) {
    const facts = [];
    for (let frame = from; frame < end; frame += 1) facts.push({ units: null, start: null, schedule: null });
    const claim = this.session.claim(end);
    const fetches = [this.fetchTones(from, end, facts), this.fetchUnits(from, end, facts)];
    const failed = (await Promise.allSettled(fetches)).filter(({ status }) => status === "rejected");
    const isTrue = this.session.release(claim);
    for (const { reason } of failed) if (!(reason instanceof Refusal)) throw reason;
    if (isTrue) {
      facts.forEach((fact, at) => { this.facts[from + at] = fact; });
      for (const { reason } of failed) this.refused.push({ from, end, reason });
      this.dispatchEvent(new Event("change"));
    }
    this.work.goOn();
  }

  forgetRefused() {
    const [{ from, end, reason }] = this.refused;
    for (const { from: first, end: last } of this.refused) this.facts.fill(undefined, first, last);
    this.refused = [];
    throw new Refusal(`frames ${from} to ${end - 1}: ${reason.message}`);
  }

  async fetchTones(from, end, facts) {
    const onPiece = (piece) => {
      const schedule = parseSchedule(decode(piece));
      facts[schedule.place - 1 - from].schedule = schedule;
    };
    await this.session.connection.ask(`tones ${from + 1} ${end}`, { onPiece });
  }

  async fetchOne(frame) {
    const facts = [{ units: null, start: null, schedule: null }];
    await this.fetchUnits(frame, frame + 1, facts);
    return facts[0];
  }

  async fetchUnits(from, end, facts) {
    if (!this.knowsUnits) return;
    try {
      const lines = (await this.session.connection.askText(`units ${from} ${end}`)).trim().split("\n");
      lines.forEach((line, at) => Object.assign(facts[at], unitsOf(line)));
    } catch (refusal) {
      if (!(refusal instanceof Refusal) || !refusal.message.endsWith("no order")) throw refusal;
      this.knowsUnits = false;
    }
  }
}
