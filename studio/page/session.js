// The recording as the session has it: the page's copy of the inputs, edits with a history of any length,
// and which kept places are known to be true. Each edit is an order, so the copy and the program's
// recording stay the same.
import { decode } from "./connection.js";
import { inputText, isSame, parseInputs } from "./input.js";
import { Refresher } from "./refresher.js";
import { Ended } from "./refusals.js";

function orderOf(change) {
  const { kind, at, input } = change;
  return kind === "delete" ? `delete ${at}` : `${kind} ${at} ${inputText(input)}`;
}

// The changes that make new inputs of old ones: what both begin and end with stays.
export function changesBetween(old, wanted) {
  const shorter = Math.min(old.length, wanted.length);
  let front = 0;
  while (front < shorter && isSame(old[front], wanted[front])) front += 1;
  const fromEnd = (inputs, count) => inputs[inputs.length - 1 - count];
  let back = 0;
  while (back < shorter - front && isSame(fromEnd(old, back), fromEnd(wanted, back))) back += 1;
  const changes = [];
  for (let at = front; at < shorter - back; at += 1) {
    if (!isSame(old[at], wanted[at])) changes.push({ kind: "set", at, input: wanted[at] });
  }
  const middle = shorter - back;
  for (let at = middle; at < wanted.length - back; at += 1) {
    changes.push({ kind: "insert", at, input: wanted[at] });
  }
  for (let at = middle; at < old.length - back; at += 1) changes.push({ kind: "delete", at: middle });
  return changes;
}

export class Session extends EventTarget {
  constructor(connection) {
    super();
    this.connection = connection;
    this.inputs = [];
    this.kept = [0];
    this.trusted = 0; // kept places up to here are known to be true of the inputs
    this.claims = new Set(); // on answers that haven't come
    this.done = [];
    this.undone = [];
    this.group = null;
    this.edits = 0; // how many were made, and how many of these what was saved has
    this.savedEdits = 0;
    this.saving = new Refresher(() => this.saveOnce()); // one after another
  }

  get count() {
    return this.inputs.length;
  }

  get isDirty() {
    return this.edits !== this.savedEdits;
  }

  async load() {
    this.replaceInputs(await this.readInputs((line) => this.connection.askText(line)));
  }

  // The inputs that the program has.
  async readInputs(ask) {
    const state = await ask("state 0");
    this.noteState(state);
    return parseInputs(await ask(`inputs 0 ${state.split(" ")[3]}`));
  }

  // The copy is made anew; the history was one of the inputs before.
  replaceInputs(inputs) {
    Object.assign(this, { inputs, done: [], undone: [], group: null });
    this.doubtAbove(0);
    this.tell("history", {});
    this.tell("edited", { from: 0 });
  }

  // ---- the connection was lost, and is there again

  // The copy is what counts: the program's inputs become it.
  bringUp(inputs) {
    const changes = changesBetween(inputs, this.inputs);
    if (changes.length) {
      this.edits += 1;
      this.doubtAbove(changes[0].at);
      this.tell("kept", {});
      this.tell("unsaved", {});
    }
    this.connection.goOn(changes.map(orderOf), (refusal) => this.refused(refusal));
  }

  // What the program has is what counts.
  giveIn(inputs) {
    this.savedEdits = this.edits;
    this.replaceInputs(inputs);
    this.connection.goOn([]);
  }

  tell(name, detail) {
    this.dispatchEvent(new CustomEvent(name, { detail }));
  }

  // ---- answers at a place

  // What is asked of a place comes of the inputs before it. A claim follows how much of that edits leave.
  claim(place) {
    const claim = { place, upTo: place };
    this.claims.add(claim);
    return claim;
  }

  // Whether no edit touched it.
  release(claim) {
    this.claims.delete(claim);
    return claim.upTo === claim.place;
  }

  // An order that brings the kept places up to a place up to date.
  async askAt(line, place, options) {
    const claim = this.claim(place);
    try {
      const pieces = await this.connection.ask(line, options);
      this.trust(claim.upTo);
      return pieces;
    } finally {
      this.release(claim);
    }
  }

  async askTextAt(line, place, options) {
    return (await this.askAt(line, place, options)).map(decode).join("");
  }

  trust(place) {
    if (place <= this.trusted) return;
    this.trusted = place;
    this.tell("kept", {});
  }

  doubtAbove(place) {
    this.trusted = Math.min(this.trusted, place);
    for (const claim of this.claims) claim.upTo = Math.min(claim.upTo, place);
  }

  // A state line names the kept places.
  noteState(text) {
    const kept = text.slice(text.lastIndexOf("kept ") + 5).trim().split(" ").map(Number);
    if (kept.length === this.kept.length && kept.every((place, at) => place === this.kept[at])) return;
    this.kept = kept;
    this.tell("kept", {});
  }

  async state(place) {
    const text = await this.askTextAt(`state ${place}`, place);
    this.noteState(text);
    return text;
  }

  async keep(place) {
    await this.askAt(`keep ${place}`, place);
    if (this.kept.includes(place)) return;
    this.kept = [...this.kept, place].sort((one, other) => one - other);
    this.tell("kept", {});
  }

  // ---- edits

  // What is changed until `finish` is one step of the history.
  begin(label) {
    this.finish();
    this.group = { label, forward: [], backward: [] };
  }

  finish() {
    if (this.group && this.group.forward.length) {
      this.done.push(this.group);
      this.tell("history", {});
    }
    this.group = null;
  }

  change(label, changes) {
    if (!changes.length) return;
    const isAlone = !this.group;
    if (isAlone) this.begin(label);
    this.undone = [];
    for (const change of changes) this.group.forward.push(change);
    for (const inverse of this.apply(changes)) this.group.backward.push(inverse);
    if (isAlone) this.finish();
  }

  // Makes the changes; their inverses, in the same order.
  apply(changes) {
    const inverses = changes.map((change) => this.applyOne(change));
    const from = Math.min(...changes.map((change) => change.at));
    this.edits += 1;
    this.tell("edited", { from });
    return inverses;
  }

  applyOne(change) {
    const { kind, at, input } = change;
    this.connection.ask(orderOf(change), { isEdit: true }).catch((refusal) => this.refused(refusal));
    this.doubtAbove(at);
    if (kind === "insert") {
      this.inputs.splice(at, 0, input);
      return { kind: "delete", at };
    }
    const old = this.inputs[at];
    if (kind === "delete") this.inputs.splice(at, 1);
    else this.inputs[at] = input;
    return { kind: kind === "set" ? "set" : "insert", at, input: old };
  }

  // The page never sends an edit that is refused; should one be, its copy is made anew.
  async refused(refusal) {
    if (refusal instanceof Ended) return;
    const text = `an edit was refused (${refusal.message}); the inputs were read again`;
    this.tell("fault", { text });
    await this.load();
  }

  undo() {
    return this.step(this.done, this.undone, (group) => [...group.backward].reverse());
  }

  redo() {
    return this.step(this.undone, this.done, (group) => group.forward);
  }

  // Takes a step of the history back or on; the label of what was done, null where there was none.
  step(source, target, changesOf) {
    this.finish();
    const group = source.pop();
    if (!group) return null;
    this.apply(changesOf(group));
    target.push(group);
    this.tell("history", {});
    return group.label;
  }

  // ---- saving

  // Waits until all edits are made, by an empty order that is answered in turn: what is asked of the server by
  // other connections could overtake them.
  async settled() {
    if (!this.connection.reason) await this.connection.ask("");
  }

  // Saves; where that is being done already, once more behind it.
  save() {
    this.saving.ask();
  }

  // What is edited after the order isn't saved by it.
  async saveOnce() {
    const { edits } = this;
    try {
      await this.connection.ask("save");
    } catch (refusal) {
      if (refusal instanceof Ended) throw refusal;
      this.tell("unsaved", { isRefused: true });
      this.tell("fault", { text: `not saved: ${refusal.message}; it is tried again in a while` });
      return;
    }
    this.savedEdits = edits;
    this.tell("saved", {});
  }
}
