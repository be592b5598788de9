// A command over the system's files and streams, by node.
import fs from "node:fs";
import tty from "node:tty";
import { moduleOf } from "./module.js";
import { Run } from "./program.js";
import { RealFiles } from "./real_files.js";

const USAGE = 2;
const NO_MODULE = 1;
const FAULT = 139; // as a shell says that a program ended by a fault of memory

const ERROR = 2; // the file that is standard error

// Not process.stderr: node would take pipes and terminals out of blocking mode, and writes that wait would fail.
/** @param {string} text */
function say(text) {
  fs.writeSync(ERROR, text);
}

/** The commands, where they lie beside this file. */
function commands() {
  try {
    return fs.readFileSync(new URL("./commands.txt", import.meta.url), "utf8");
  } catch {
    return "README.md has the commands\n";
  }
}

/**
 * The exit status of a command.
 * @param {WebAssembly.Module} module
 * @param {string[]} words
 */
async function statusOf(module, words) {
  const run = await Run.of(module, new RealFiles());
  try {
    // It never stands still: reading waits.
    return /** @type {number} */ (run.start(words));
  } catch (error) {
    say(`w4: it has stopped: ${error}\n`);
    return FAULT;
  }
}

/**
 * Runs a command, and sets the status with which node will end.
 * @param {string[]} words
 */
export async function main(words) {
  let module;
  try {
    module = await moduleOf(process.env.W4_WASM && new URL(process.env.W4_WASM, `file://${process.cwd()}/`));
  } catch (/** @type {any} */ error) {
    say(`w4: ${error.message}\n`);
    process.exitCode = NO_MODULE;
    return;
  }
  process.exitCode = await statusOf(module, words);
  // Where a person reads it, and no program that compares bytes.
  if (process.exitCode === USAGE && tty.isatty(ERROR)) say(commands());
}
