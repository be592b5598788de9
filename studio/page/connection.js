// The connection to `w4 serve`, whoever runs it: orders go out as lines, and each has exactly one answer, in
// turn. Where the connection is lost it is made anew, and what wasn't answered is asked once more.
import { Ended, Refusal } from "./refusals.js";
import { delay } from "./refresher.js";

const IN_USE = "this session is in use by another page";
const REFUSED = "refused ";
const SHORT = 1000; // bytes that a refusal has at most, which may name a file; images and pages have more
const SECOND = 1000; // milliseconds
const OPEN = 1; // the state of a socket that takes orders
const QUICK_TRIES = 5; // each a second after the one before; then slower
const SLOWEST = 10; // seconds between tries
const UNANSWERED_MOST = 3; // tries in a row that nobody answers, after which the server is gone

function refusalOf(pieces) {
  if (pieces.length !== 1 || pieces[0].length > SHORT) return null;
  const text = decode(pieces[0]);
  return text.startsWith(REFUSED) && text.endsWith("\n") ? text.slice(REFUSED.length).trim() : null;
}

export function decode(bytes) {
  return new TextDecoder("latin1").decode(bytes);
}

function randomName() {
  const bytes = crypto.getRandomValues(new Uint8Array(16));
  return Array.from(bytes, (byte) => byte.toString(16).padStart(2, "0")).join("");
}

// An order, and who waits for its answer. `isEdit`: the page's copy of the inputs has what it does.
// `isOnce`: done twice it would do something else. `isFirst`: it is asked before the connection is used
// again. What a disk holds may read like a refusal, so an order may say that it `cannotBeRefused`.
class Asked {
  constructor(line, options) {
    const usual = { onPiece: null, cannotBeRefused: false, isEdit: false, isOnce: false, isFirst: false };
    Object.assign(this, usual, options, { line });
    this.pieces = [];
    this.passed = 0; // pieces that `onPiece` got, also before the connection was lost
    this.answer = new Promise((resolve, reject) => { Object.assign(this, { resolve, reject }); });
  }

  refuse(cause) {
    this.reject(new Refusal(`${this.line.split(" ")[0]}: ${cause}`));
  }

  takePiece(piece) {
    this.pieces.push(this.onPiece && piece.length > SHORT ? new Uint8Array(0) : piece);
    if (!this.onPiece || this.pieces.length <= this.passed || refusalOf([piece]) !== null) return;
    this.passed += 1;
    this.onPiece(piece);
  }

  takeEnd() {
    const cause = this.cannotBeRefused ? null : refusalOf(this.pieces);
    if (cause === null) this.resolve(this.pieces);
    else this.refuse(cause);
  }

  // The connection was lost before the end; whether it is to be asked anew.
  isAskedAnew() {
    this.pieces = [];
    if (this.isEdit) this.resolve([]);
    else if (this.isOnce || this.isFirst) this.refuse("the connection was lost before its answer came");
    else return true;
    return false;
  }
}

export class Connection extends EventTarget {
  // The host runs the program: it opens a socket, or what is like one, and says whether it is still there.
  constructor(host) {
    super();
    this.host = host;
    this.page = randomName(); // tells the host which page comes back
    this.waiting = []; // orders that were sent
    this.unsent = [];
    this.isOpen = false;
    this.isHeld = false; // whether orders wait until the page's copy and the program's are the same
    this.hasGreeted = false;
    this.hasCopy = false; // whether somebody compares copies where the connection is there again
    this.tries = 0; // since the connection was lost
    this.unanswered = 0; // tries in a row
    this.open();
  }

  open() {
    this.cause = this.host.lost;
    this.socket = this.host.open(this.page);
    this.socket.addEventListener("message", (event) => this.receive(event.data));
    this.socket.addEventListener("close", () => this.lose());
  }

  // Asks for an order's answer: a promise of its pieces. `onPiece` gets each as it comes.
  ask(line, options = {}) {
    const asked = new Asked(line, options);
    if (this.reason) asked.reject(new Ended(this.reason));
    else if (asked.isEdit && !this.isReady) asked.resolve([]); // the copies are compared later
    else this.put(asked);
    return asked.answer;
  }

  async askText(line, options) {
    return (await this.ask(line, options)).map(decode).join("");
  }

  put(asked) {
    this.unsent.push(asked);
    if (this.unsent.length === 1) queueMicrotask(() => this.flush());
  }

  get isReady() {
    return this.isOpen && !this.isHeld;
  }

  // Orders of one moment go as one message.
  flush() {
    if (this.isReady) this.send(this.unsent.splice(0));
  }

  send(orders) {
    if (!orders.length) return;
    this.waiting.push(...orders);
    const isThere = this.socket.readyState === OPEN; // else it is asked again once it is lost
    if (isThere) this.socket.send(orders.map(({ line }) => line).join("\n"));
  }

  // The text of an answer that is waited for before the connection is used again.
  async askFirst(line) {
    const asked = new Asked(line, { isFirst: true });
    this.send([asked]);
    return (await asked.answer).map(decode).join("");
  }

  // Copy and program are the same once these edits are made. Then what waits is asked.
  goOn(edits, onRefusal) {
    const made = edits.map((line) => new Asked(line, { isEdit: true }));
    for (const { answer } of made) answer.catch(onRefusal);
    this.isHeld = false;
    this.unsent.unshift(...made);
    this.flush();
    this.dispatchEvent(new CustomEvent("found"));
  }

  receive(data) {
    if (this.reason) return;
    if (typeof data !== "string") this.waiting[0].takePiece(new Uint8Array(data));
    else if (data === "end") this.waiting.shift().takeEnd();
    else if (data === "in use") this.noteUse();
    else if (data.startsWith("note ")) this.dispatchEvent(new CustomEvent("note", { detail: data.slice(5) }));
    else if (data.startsWith("ended ")) this.end(`the program has ended: ${data.slice(6)}. Reload to go on`);
    else if (data.startsWith("hello ")) this.greet(JSON.parse(data.slice(6)));
  }

  noteUse() {
    this.cause = IN_USE;
    if (!this.hasGreeted) this.end(`${IN_USE}; close that one and reload`);
  }

  greet(greeting) {
    const isFirst = !this.hasGreeted;
    this.isHeld = this.hasCopy;
    Object.assign(this, { isOpen: true, hasGreeted: true, tries: 0, unanswered: 0 });
    if (isFirst) this.dispatchEvent(new CustomEvent("hello", { detail: greeting }));
    else if (this.hasCopy) this.dispatchEvent(new CustomEvent("again", { detail: greeting }));
    else this.goOn([]);
  }

  // The socket has closed.
  lose() {
    if (this.reason) return;
    if (!this.hasGreeted) {
      this.end(this.host.gone);
      return;
    }
    this.isOpen = false;
    this.tries += 1;
    this.unsent.unshift(...this.waiting.splice(0).filter((asked) => asked.isAskedAnew()));
    const pause = Math.min(SLOWEST, Math.max(1, this.tries - QUICK_TRIES));
    const what = this.cause === IN_USE ? "close that one; this page tries again" : "it is made anew";
    const when = pause === 1 ? "in a second" : `in ${pause} seconds`;
    this.dispatchEvent(new CustomEvent("lost", { detail: `${this.cause}; ${what} ${when}` }));
    this.reopen(pause);
  }

  async reopen(pause) {
    await delay(pause * SECOND);
    const isThere = await this.host.isThere();
    this.unanswered = isThere ? 0 : this.unanswered + 1;
    if (this.unanswered === UNANSWERED_MOST) this.end(this.host.gone);
    else if (isThere) this.open();
    else this.reopen(1);
  }

  // Nothing more will come. The first reason is the one that counts.
  end(why) {
    if (this.reason) return;
    this.reason = why;
    this.isOpen = false;
    for (const { reject } of [...this.waiting.splice(0), ...this.unsent.splice(0)]) reject(new Ended(why));
    this.dispatchEvent(new CustomEvent("ended", { detail: why }));
  }
}
