// Who answers the page of a run: w4 in this browser, over the recording that the file holds.
import { Program } from "../static/program.js";
import { ProgramLine } from "../static/program_line.js";

export class RunHost {
  constructor(files, module, workerScript) {
    this.gone = "the run can't be shown any more: open the file again";
    this.lost = "the program ended without a word";
    const { cart, recording, font } = files;
    this.files = { cart: cart.bytes, recording: recording.bytes, font: font.bytes };
    const script = URL.createObjectURL(new Blob([workerScript], { type: "text/javascript" }));
    this.program = new Program({ module: WebAssembly.compile(module), worker: () => new Worker(script) });
  }

  open() {
    return new ProgramLine({
      begin: async (line) => line.greet(await this.program.session(this.files), {}),
    });
  }

  async isThere() {
    return true;
  }
}
