// Which project the page opens, and how one is made of files.
import { linked } from "../page/link.js";
import { Refusal } from "../page/refusals.js";
import { readFiles } from "./file_kinds.js";
import { Project } from "./project.js";
import { factsOf } from "./recording_bytes.js";

const BUDGET = 1_000_000; // units of a frame of a new recording, as studio/run gives it
const TOP = new URL("../../", import.meta.url);
const FONT = "examples/first/font.bin";
const EXAMPLE = { cart: "examples/garden/cart.wasm", recording: "examples/garden/game.w4rec", font: FONT };

async function fetched(address) {
  const response = await fetch(address).catch(() => null);
  const name = decodeURIComponent(address.pathname.split("/").pop());
  if (!response || !response.ok) throw new Refusal(`${name} isn't beside this page, or can't be loaded now`);
  return new File([await response.arrayBuffer()], name);
}

// A file that a link names: beside the page, or in a folder there.
function besidePage(name) {
  const address = new URL(name, TOP);
  if (!address.href.startsWith(TOP.href)) throw new Refusal(`the link names ${name}, which isn't beside this page`);
  return address;
}

export class Projects {
  // `store` is null where nothing can be kept.
  constructor(store, program) {
    this.store = store;
    this.program = program;
  }

  // ---- making one

  async failure(words, files) {
    const { status, error, output } = await this.program.run(words, files);
    return { why: status ? error.trim().replace(/^w4: \w+: /, "") : null, output };
  }

  // A recording without frames; a refusal says why the cart isn't one.
  async blankOf(cart) {
    const { why, output } = await this.failure(["blank", "CART", String(BUDGET)], { CART: cart.bytes });
    if (why) throw new Refusal(`${cart.name} is no cart that can be run (w4 says: ${why})`);
    return output;
  }

  async checkRecording(recording) {
    const { why } = await this.failure(["inputs", "REC"], { REC: recording.bytes });
    if (why) throw new Refusal(`${recording.name} is no whole recording (w4 says: ${why})`);
  }

  // The project of files { kind, name, bytes }, of which some may be absent; `old` has what is open now.
  async make(files, old = null) {
    const font = files.font ? files.font.bytes : await this.fontOf(old);
    if (files.recording) await this.checkRecording(files.recording);
    const cart = files.cart || await this.cartFor(files.recording, old);
    const blank = await this.blankOf(cart);
    const recording = files.recording || (files.cart ? this.newRecording(cart, blank) : this.recordingOf(old));
    if (factsOf(recording.bytes).digest !== factsOf(blank).digest) {
      throw new Refusal(`${recording.name} is a recording of another cart than ${cart.name}: bring its own cart with it`);
    }
    return {
      cartName: cart.name, recordingName: recording.name, cart: cart.bytes, font, recording: recording.bytes,
    };
  }

  async fontOf(old) {
    if (old) return old.facts.font;
    return new Uint8Array(await (await fetched(new URL(FONT, TOP))).arrayBuffer());
  }

  newRecording(cart, blank) {
    return { name: `${cart.name.replace(/\.wasm$/, "")}.w4rec`, bytes: blank };
  }

  recordingOf(old) {
    return { name: old.facts.recordingName, bytes: old.recording };
  }

  // The cart of a recording that was brought without it, among those that are known; that of what is open where
  // only a font was brought.
  async cartFor(recording, old) {
    if (!recording) return { name: old.facts.cartName, bytes: old.facts.cart };
    const { digest } = factsOf(recording.bytes);
    const rows = this.store ? await this.store.projects() : [];
    for (const { cart, cartName } of [...(old ? [old.facts] : []), ...rows]) {
      const known = { name: cartName, bytes: cart };
      if (factsOf(await this.blankOf(known)).digest === digest) return known;
    }
    throw new Refusal(`${recording.name} is a recording of a cart that isn't known here: bring that with it`);
  }

  // Keeps a project where that can be done.
  async add(made) {
    const { recording, ...facts } = made;
    if (!this.store) return new Project(made, null);
    const id = await this.store.add(facts, recording);
    return new Project({ ...made, id }, this.store);
  }

  // ---- choosing one

  // `tell` gets a sentence where what is asked for can't be opened, and something else is.
  async choose(tell) {
    const { brought } = history.state || {};
    if (brought) return new Project(brought, null);
    const rows = this.store ? await this.store.projects() : [];
    const last = rows.sort((one, other) => other.opened - one.opened)[0];
    try {
      if (linked("cart")) return await this.linked(rows);
    } catch (refusal) {
      if (!(refusal instanceof Refusal)) throw refusal;
      tell(refusal.message);
    }
    return last ? this.stored(last) : this.example();
  }

  async stored(row) {
    this.store.touch(row).catch(() => {}); // only the order of what is kept is lost
    return Project.of(this.store, row);
  }

  async example() {
    const [cart, recording, font] = await Promise.all(["cart", "recording", "font"].map(
      (kind) => fetched(new URL(EXAMPLE[kind], TOP))));
    return this.add(await this.make(await readFiles([cart, recording, font])));
  }

  // What a link names. Where it was opened before, and is the same, that goes on as it was left.
  async linked(rows) {
    const names = ["cart", "recording", "font"].map(linked).filter(Boolean);
    const files = await Promise.all(names.map((name) => fetched(besidePage(name))));
    const made = await this.make(await readFiles(files));
    const link = names.join("|");
    const sameBytes = (one, other) => one.length === other.length && one.every((byte, at) => byte === other[at]);
    const known = rows.find((row) => row.link === link && sameBytes(row.cart, made.cart)
      && sameBytes(row.origin, made.recording));
    return known ? this.stored(known) : this.add({ ...made, link, origin: made.recording });
  }
}
