// An edit by the program as a WebAssembly module, with each call of files disturbed in turn: it fails, or it reads or
// writes less than it was asked to. OUT has to be as it was or whole, nothing may be left beside it, and the status has
// to say what was done.
//
//   node ports/faults.mjs MODULE        the last line is 'N passed, M failed'
import fs from "node:fs";
import os from "node:os";
import path from "node:path";
import { Run } from "../js/program.js";
import { RealFiles } from "../js/real_files.js";

const TOP = path.resolve(path.dirname(process.argv[1]), "..");
const DONE = 0;
const CANT_READ = 7;
const CANT_WRITE = 8;
const OLD = "as it was\n";
const CALLS = ["read", "write", "open", "close", "stat", "fstat", "chmod", "sync", "readlink", "rename", "unlink"];
const SILENT = new Set(["close"]); // whose failure changes nothing

/** The system's files, with one call of them disturbed. */
class Disturbed extends RealFiles {
  #count = 0;
  #at;
  #how;

  /** @param {number[]} streams @param {number} at which call is disturbed, from 1 on @param {string} how */
  constructor(streams, at, how) {
    super({ streams });
    this.#at = at;
    this.#how = how;
    for (const name of CALLS) this[name] = (...words) => this.#call(name, words);
  }

  /** @param {string} name @param {any[]} words */
  #call(name, words) {
    this.#count += 1;
    const isNow = this.#count === this.#at;
    if (isNow) this.disturbed = name;
    if (isNow && this.#how === "short" && words[1] instanceof Uint8Array) words[1] = words[1].subarray(0, 1);
    if (isNow && this.#how !== "short") throw Object.assign(new Error(name), { code: this.#how });
    return RealFiles.prototype[name].apply(this, words);
  }
}

/** A room with the files of an edit. */
function furnish() {
  const room = fs.mkdtempSync(path.join(os.tmpdir(), "w4-faults-"));
  const first = path.join(TOP, "examples/first");
  for (const name of fs.readdirSync(first)) fs.copyFileSync(path.join(first, name), path.join(room, name));
  fs.writeFileSync(path.join(room, "script"), "set 1 7 0 0 0 1 2 0\nshow 1\n");
  fs.writeFileSync(path.join(room, "kept"), OLD);
  fs.symlinkSync("kept", path.join(room, "OUT"));
  process.chdir(room);
  return room;
}

/**
 * An edit whose call of this number is disturbed: its status, which call that was, and what it wrote.
 * @param {WebAssembly.Module} module
 * @param {number} at
 * @param {string} how
 */
async function edit(module, at, how) {
  fs.writeFileSync("kept", OLD);
  const streams = [fs.openSync("/dev/null", "r"), fs.openSync("out", "w"), fs.openSync("err", "w")];
  const files = new Disturbed(streams, at, how);
  const run = await Run.of(module, files);
  const status = run.start(["edit", "cart.wasm", "game.w4rec", "font.bin", "script", "OUT"]);
  streams.forEach((file) => fs.closeSync(file));
  const beside = fs.readdirSync(".").filter((name) => name.includes(".new"));
  beside.forEach((name) => fs.unlinkSync(name));
  return { status, call: files.disturbed, out: fs.readFileSync("out", "latin1"), left: fs.readFileSync("OUT", "latin1"), beside };
}

/** What is wrong with an edit that was disturbed, beside what the whole one gives. */
function fault(one, whole, how) {
  const isWhole = one.status === DONE && one.out === whole.out && one.left === whole.left;
  if (one.beside.length) return "a file is left beside OUT";
  if (how === "short" || how === "EINTR" && ["read", "write"].includes(one.call)) return isWhole ? "" : "not as the whole edit";
  if (SILENT.has(one.call) && isWhole) return "";
  if (one.left !== OLD && one.left !== whole.left) return "OUT is neither old nor new";
  if (one.status === DONE) return isWhole ? "" : "status 0 without all that was to be done";
  return [CANT_READ, CANT_WRITE].includes(one.status) ? "" : `status ${one.status}`;
}

const module = new WebAssembly.Module(fs.readFileSync(process.argv[2]));
const room = furnish();
const whole = await edit(module, 0, "none");
const counts = { passed: 0, failed: whole.status === DONE && whole.left !== OLD && whole.out ? 0 : 1 };
const failures = new Set();
for (const how of ["EIO", "ENOSPC", "EACCES", "EINTR", "short"]) {
  for (let at = 1; ; at += 1) {
    const one = await edit(module, at, how);
    if (!one.call) break;
    if (one.status !== DONE) failures.add(one.call);
    const why = fault(one, whole, how);
    counts[why ? "failed" : "passed"] += 1;
    if (why) console.log(`FAILED: call ${at}, ${one.call}, ${how}: ${why}`);
  }
}
// Those that an edit can't do without have made it fail.
for (const name of ["read", "write", "open", "chmod", "sync", "rename"]) {
  counts[failures.has(name) ? "passed" : "failed"] += 1;
  if (!failures.has(name)) console.log(`FAILED: no ${name} that fails made the edit fail`);
}
process.chdir("/");
fs.rmSync(room, { recursive: true });
console.log(`${counts.passed} passed, ${counts.failed} failed`);
process.exitCode = counts.failed ? 1 : 0;
