// What the page gets beside the orders of its session, as the server's services.py makes it: branches, watches,
// comparisons, sound, films, and the run in one file. What shows a run is made by w4 in a worker of its own.
import { Refusal } from "../page/refusals.js";
import { filmOf } from "./film.js";
import { shortened } from "./recording_bytes.js";
import { runFile } from "./run_file.js";
import { waveStretch } from "./wave_stretch.js";

const STRETCH = 60; // places of a film that are asked for at once
const FILES = { cart: "CART", recording: "REC", other: "REC2", font: "FONT" };

function json(value) {
  return { type: "application/json", body: JSON.stringify(value) };
}

function plain(body) {
  return { type: "text/plain; charset=utf-8", body };
}

// First and last place of a stretch that the page asked for.
function stretchOf(query) {
  const [first, last] = [Number(query.from), Number(query.to)];
  if (!(first >= 0 && first <= last)) throw new Refusal("the stretch ends before it begins");
  return [first, last];
}

export class PageServices {
  // `session` saves and shows places; `runs` runs commands over files.
  constructor({ project, session, runs }) {
    Object.assign(this, { project, session, runs });
    this.table = {
      "GET branches": () => json(project.branchList()),
      "POST branches": ({ name }) => this.makeBranch(name),
      "DELETE branches": ({ name }) => this.removeBranch(name),
      "GET branch": ({ name }) => this.branchText(name),
      "GET recording": () => this.recording(),
      "POST compare": ({ name }, body) => this.compare(name, body),
      "GET watches": () => ({ type: "application/json", body: project.watches }),
      "POST watches": (query, body) => this.storeWatches(body),
      "GET wave": (query) => this.wave(query),
      "GET film": (query) => this.film(query),
      "GET run": () => this.run(),
    };
  }

  // The response to a request; one that isn't answered says why.
  async answer(name, query, { method = "GET", body = null }) {
    try {
      const { type, body: made } = await this.table[`${method} ${name}`](query, body);
      return new Response(made, { headers: { "Content-Type": type } });
    } catch (fault) {
      if (!(fault instanceof Refusal)) reportError(fault);
      return new Response(fault.message, { status: 409 });
    }
  }

  // The recording, saved as it is.
  async saved() {
    await this.session.save();
    return this.project.recording;
  }

  async recording() {
    return { type: "application/octet-stream", body: await this.saved() };
  }

  // ---- branches

  async makeBranch(name) {
    this.project.checkName(name);
    await this.project.addBranch(name, await this.saved());
    return json(this.project.branchList());
  }

  async removeBranch(name) {
    await this.project.removeBranch(name);
    return json(this.project.branchList());
  }

  async branchText(name) {
    const { output } = await this.command(["inputs", FILES.recording], { recording: this.project.branch(name) });
    return plain(output);
  }

  // The first places at which the recording differs from a branch, or from one that was brought.
  async compare(name, body) {
    const recording = await this.saved();
    const other = name ? this.project.branch(name) : new Uint8Array(await new Response(body).arrayBuffer());
    const { cart, recording: rec, other: rec2, font } = FILES;
    const { output } = await this.command(["compare", cart, rec, cart, rec2, font], { recording, other });
    return plain(output);
  }

  // ---- watches

  async storeWatches(body) {
    await this.project.storeWatches(body);
    return { type: "application/json", body };
  }

  // ---- sound and films

  async wave(query) {
    const [first, last] = stretchOf(query);
    return { type: "audio/wav", body: await this.sound(await this.saved(), first, last) };
  }

  // Of the recording without what comes behind, since that isn't heard.
  async sound(recording, first, last) {
    const { cart, recording: rec, font } = FILES;
    const { output } = await this.command(["wave", cart, rec, font], { recording: shortened(recording, last) });
    return waveStretch(output, first, last);
  }

  async film(query) {
    const [first, last] = stretchOf(query);
    const recording = await this.saved();
    const { session } = this;
    const { type, bytes } = await filmOf({
      async* images() {
        for (let from = first; from <= last; from += STRETCH) {
          yield* await session.images(from, Math.min(from + STRETCH - 1, last));
        }
      },
      wave: () => this.sound(recording, first, last),
    });
    return { type, body: bytes };
  }

  // The whole run as a page in one file.
  async run() {
    const recording = await this.saved();
    const { facts } = this.project;
    return { type: "text/html", body: await runFile({ ...facts, recording }) };
  }

  // Runs a command over the project's cart and font and other files; a refusal has the program's line.
  async command(words, files) {
    const { cart, font } = this.project.facts;
    const named = Object.entries({ cart, font, ...files }).map(([kind, bytes]) => [FILES[kind], bytes]);
    const result = await this.runs.run(words, Object.fromEntries(named));
    if (result.status > 1) throw new Refusal(result.error.trim() || `w4 ended with status ${result.status}`);
    return result;
  }
}
