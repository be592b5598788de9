// What a page has in place of a socket to the server: a session of w4 in this browser, which gives and takes the
// messages that the server does.

const CONNECTING = 0;
export const OPEN = 1;
const CLOSED = 3;
const NOT_WRITTEN = new TextEncoder().encode("refused cannot write\n");

export class ProgramLine extends EventTarget {
  // `begin(line)` opens a session, and greets the page; `note(lines)` gets orders before they are carried out;
  // `keep(save)` gets the work of an order `save`, and tells whether what it saves is kept.
  constructor({ begin, note = () => {}, keep = async (save) => Boolean(await save()) }) {
    super();
    Object.assign(this, { note, keep });
    this.readyState = CONNECTING;
    this.session = null;
    this.isSaving = false;
    this.later = []; // orders that wait until a save is done
    this.answers = 0;
    begin(this).catch((fault) => this.close(`ended ${fault.message}`));
  }

  // The session answers orders from now on.
  greet(session, greeting) {
    this.session = session;
    this.readyState = OPEN;
    session.ended.then(() => this.close());
    this.tell(`hello ${JSON.stringify(greeting)}`);
  }

  // ---- from the page

  send(text) {
    if (this.readyState !== OPEN) return;
    this.later.push(...text.split("\n"));
    this.goOn();
  }

  // Gives orders up to the next `save`; what follows waits until that is kept.
  goOn() {
    if (this.isSaving) return;
    const at = this.later.findIndex((line) => line.trim() === "save");
    const lines = this.later.splice(0, at < 0 ? this.later.length : at);
    this.note(lines);
    for (const line of lines) this.order(line);
    if (at >= 0) this.save();
  }

  order(line) {
    const options = { onPiece: (piece) => this.tell(piece), cannotBeRefused: true };
    this.session.order(line, () => this.tellEnd(), options).catch(() => {}); // its end is told once
  }

  async save() {
    this.later.shift();
    this.isSaving = true;
    const isKept = await this.keep(() => this.session.save()).catch(() => false);
    this.isSaving = false;
    if (!isKept) this.tell(NOT_WRITTEN);
    this.tellEnd();
    this.goOn();
  }

  // Ends it, with a last message where one is named. What was at work is given up.
  close(last = null) {
    if (this.readyState === CLOSED) return;
    if (last !== null) this.tell(last);
    this.readyState = CLOSED;
    if (this.session) this.session.close().catch(() => {});
    this.dispatchEvent(new Event("close"));
  }

  // ---- to the page

  tell(data) {
    if (this.readyState !== CLOSED) this.dispatchEvent(new MessageEvent("message", { data }));
  }

  tellEnd() {
    this.answers += 1;
    this.tell("end");
  }
}
