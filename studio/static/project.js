// A cart, a font and a recording with its branches and watches, as the page holds them. What changes is kept by
// the browser at once, where it can be; where it can't, that is told.
import { factsOf } from "./recording_bytes.js";
import { Refusal } from "../page/refusals.js";
import { whyNot } from "./store.js";

const NAME = /^[\p{L}\p{N}_][\p{L}\p{N}_ .,+-]{0,79}$/u;
const EDIT = /^\s*(set|insert|delete)\s/;

function areSame(bytes, other) {
  return bytes.length === other.length && bytes.every((byte, at) => byte === other[at]);
}

function two(number) {
  return String(number).padStart(2, "0");
}

// A day and a time as a branch can be called.
function timeName(date) {
  const day = [date.getFullYear(), two(date.getMonth() + 1), two(date.getDate())].join("-");
  return `${day} ${[date.getHours(), date.getMinutes(), date.getSeconds()].map(two).join(".")}`;
}

export class Project {
  // The project that a store keeps under this row.
  static async of(store, row) {
    const [recording, edits, branches, watches] = await Promise.all([
      store.recording(row.id), store.edits(row.id), store.branches(row.id), store.watches(row.id),
    ]);
    return new Project({ ...row, recording, edits, branches, watches }, store);
  }

  // `row` has what the store keeps of it, and its recording; `store` is null where nothing can be kept.
  constructor(row, store) {
    const { recording, edits = [], branches = [], watches = "[]", ...facts } = row;
    this.facts = facts; // { id, cartName, recordingName, cart, font, link }
    this.store = store;
    this.recording = recording; // as it was saved last
    this.edits = edits; // those since, { number, lines } of each
    this.number = edits.length ? edits.at(-1).number : 0;
    this.branches = new Map(branches.map(({ name, bytes, time }) => [name, { bytes, time }]));
    this.watches = watches;
    this.hasLost = false; // whether something couldn't be kept
    this.complain = () => {};
  }

  get isKept() {
    return this.store !== null && !this.hasLost;
  }

  // Keeps a change; whether it could be. A sentence tells the first that couldn't.
  async keep(work) {
    if (!this.store) return false;
    try {
      await work(this.store, this.facts.id);
      this.hasLost = false;
      return true;
    } catch (fault) {
      if (!this.hasLost) {
        this.complain(`what you change isn't kept any more: ${whyNot(fault)}. Save a copy of the recording (Shift+S) `
          + "before you close this page");
      }
      this.hasLost = true;
      return false;
    }
  }

  // ---- the recording

  // Notes the orders of one moment; those that change the recording are kept before they are carried out.
  note(lines) {
    const edits = lines.filter((line) => EDIT.test(line));
    if (!edits.length) return;
    this.number += 1;
    const { number } = this;
    this.edits.push({ number, lines: edits });
    this.keep((store, id) => store.append(id, number, edits));
  }

  // All orders since the recording was saved.
  get orders() {
    return this.edits.flatMap(({ lines }) => lines);
  }

  // Does the work of a save; whether what it saves is kept.
  async save(work) {
    const { number } = this;
    this.recording = await work();
    this.edits = this.edits.filter((edit) => edit.number > number);
    const { recording } = this;
    return this.keep((store, id) => store.save(id, recording, number));
  }

  // ---- branches

  branchList() {
    const rows = [...this.branches].map(([name, { bytes, time }]) => ({ name, frames: factsOf(bytes).frames, time }));
    return rows.sort((one, other) => other.time - one.time);
  }

  branch(name) {
    if (!this.branches.has(name)) throw new Refusal(`there is no branch ${name}`);
    return this.branches.get(name).bytes;
  }

  checkName(name) {
    if (!NAME.test(name)) throw new Refusal("a name has letters, digits, spaces and . , + - _, at most 80");
    if (this.branches.has(name)) throw new Refusal(`there is a branch ${name} already`);
  }

  async addBranch(name, bytes) {
    this.checkName(name);
    const branch = { bytes, time: Date.now() / 1000 };
    this.branches.set(name, branch);
    await this.keep((store, id) => store.putBranch(id, name, branch));
  }

  async removeBranch(name) {
    this.branches.delete(name);
    await this.keep((store, id) => store.removeBranch(id, name));
  }

  // Makes a branch of what is opened, unless one has its bytes.
  async keepWhatWasOpened() {
    const isThere = [...this.branches.values()].some(({ bytes }) => areSame(bytes, this.recording));
    const name = `opened ${timeName(new Date())}`;
    if (!isThere && !this.branches.has(name)) await this.addBranch(name, this.recording);
  }

  // ---- watches

  async storeWatches(text) {
    this.watches = text;
    await this.keep((store, id) => store.storeWatches(id, text));
  }
}
