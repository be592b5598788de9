// w4 in this browser: sessions and commands, each in a worker, or in the page's thread where no worker can be
// had, as a browser may refuse it to a page that is a file.
import { run } from "../../js/commands.js";
import { open } from "../../js/engine.js";
import { Broken } from "../../js/threads.js";

export class Program {
  // `module`: as the engine takes it; `worker`: true, or what makes a worker.
  constructor({ module, worker = true } = {}) {
    this.module = module;
    this.worker = worker;
  }

  // Does work by a worker; where that can't be had, once more and from then on in this thread.
  async attempt(work) {
    const { worker } = this;
    try {
      return await work(worker);
    } catch (fault) {
      const mayBeHere = worker && !this.hasWorked && (fault instanceof Broken || fault.name === "SecurityError");
      if (!mayBeHere) throw fault;
      this.worker = false;
      return work(false);
    }
  }

  // A session that has begun; where one is refused, the failure has the program's line.
  async session({ cart, recording, font }) {
    const module = await this.module;
    const session = await this.attempt((worker) => open({ cart, recording, font, module, worker }));
    this.hasWorked = true;
    return session;
  }

  // Runs a command over files: its status, its output and its line of errors.
  async run(words, files) {
    const module = await this.module;
    return this.attempt((worker) => run(words, files, { module, worker }));
  }
}
