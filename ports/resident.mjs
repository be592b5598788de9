// Runs the program as a WebAssembly module, over the files of the system.
//
//   node ports/resident.mjs MODULE -- WORDS..    one run, over this process's own streams, which ends with its status
//   node ports/resident.mjs MODULE               a run for each line of standard input, for cases/run: JSON that has
//                                                its words, its folder, and the names of the files that are its streams.
//                                                A line with status and processor time answers
import fs from "node:fs";
import { createInterface } from "node:readline";
import { Run } from "../js/program.js";
import { RealFiles } from "../js/real_files.js";

const TRAPPED = 128 + 4; // as a shell tells that a program ended by SIGILL

/**
 * Runs the program with these words. Its status, also where it trapped.
 * @param {WebAssembly.Module} module
 * @param {string[]} words
 * @param {number[]} streams
 */
async function run(module, words, streams) {
  const one = await Run.of(module, new RealFiles({ streams }));
  try {
    return one.start(words);
  } catch (error) {
    if (error instanceof WebAssembly.RuntimeError || error instanceof RangeError) return TRAPPED;
    throw error;
  }
}

/**
 * Runs what a line asks for, and answers it.
 * @param {WebAssembly.Module} module
 * @param {string} line
 */
async function answer(module, line) {
  const { words, folder, streams } = JSON.parse(line);
  process.chdir(folder);
  const files = streams.map((name, at) => fs.openSync(name, at === 0 ? "r" : "w"));
  const before = process.cpuUsage();
  const status = await run(module, words, files);
  const { user, system } = process.cpuUsage(before);
  files.forEach((file) => fs.closeSync(file));
  fs.writeSync(1, `${JSON.stringify({ status, seconds: (user + system) / 1e6 })}\n`);
}

const [name, mark, ...words] = process.argv.slice(2);
const module = new WebAssembly.Module(fs.readFileSync(name));
if (mark === "--") {
  process.exitCode = await run(module, words, [0, 1, 2]);
} else {
  for await (const line of createInterface({ input: process.stdin })) await answer(module, line);
}
