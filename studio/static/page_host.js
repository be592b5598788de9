// Who answers the studio's page where there is no server: w4 in this browser, over a project that the browser
// keeps. It has what server_host.js has.
import { PageServices } from "./page_services.js";
import { OPEN, ProgramLine } from "./program_line.js";
import { factsOf } from "./recording_bytes.js";

const CRASHES_MOST = 3; // in a row, without an answer between them

export class PageHost {
  // `lock` resolves to whether this page has the project for itself; `notes` are told at first.
  constructor({ project, program, lock, notes }) {
    Object.assign(this, { project, program, lock, notes });
    this.name = "the studio in this page";
    this.gone = "w4 doesn't run in this page any more; reload it";
    this.lost = "w4 ended in this page without a word";
    this.lastPage = null;
    this.crashes = 0;
    this.services = new PageServices({ project, session: this, runs: program });
    project.complain = (sentence) => this.tell(sentence);
  }

  open(page) {
    this.line = new ProgramLine({
      begin: (line) => this.begin(line, page),
      note: (lines) => this.project.note(lines),
      keep: (save) => this.project.save(save),
    });
    this.line.addEventListener("close", () => this.noteCrash());
    return this.line;
  }

  async begin(line, page) {
    if (!(await this.lock)) {
      line.close("in use");
      return;
    }
    if (this.crashes >= CRASHES_MOST) throw new Error("it ended again and again at the same order");
    const { project } = this;
    const session = await this.program.session({ ...project.facts, recording: project.recording });
    await Promise.all(project.orders.map((order) => session.ask(order)));
    line.greet(session, this.greeting());
    for (const note of this.notes.splice(0)) line.tell(`note ${note}`);
    this.lastPage = page;
  }

  greeting() {
    const { project } = this;
    const { cartName, recordingName } = project.facts;
    return {
      cart: cartName, recording: recordingName, budget: factsOf(project.recording).budget, last_page: this.lastPage,
      keeps: project.store !== null,
    };
  }

  // Saves the recording as it is.
  save() {
    return this.project.save(() => this.line.session.save());
  }

  // The images of places, one piece each.
  async images(first, last) {
    return (await this.line.session.ask(`film ${first} ${last} 1`)).pieces;
  }

  // Tells the user something that needn't be acted on.
  tell(sentence) {
    if (this.line.readyState === OPEN) this.line.tell(`note ${sentence}`);
    else this.notes.push(sentence);
  }

  noteCrash() {
    this.crashes = this.line.answers ? 1 : this.crashes + 1;
  }

  async isThere() {
    return true;
  }

  request(name, query, options) {
    return this.services.answer(name, query, options);
  }
}
