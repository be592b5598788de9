#!/usr/bin/env node
// Tries the package: each command and each order has to answer what the program for this machine answers, and the
// examples of README.md have to run. The last line is 'N passed, M failed'.
//
//     js/test.mjs [WORD ..]      those whose names have one of the words
//
// W4 in the environment names the program to compare with; it is ./w4 where none is named.
import assert from "node:assert/strict";
import { spawnSync } from "node:child_process";
import fs from "node:fs";
import os from "node:os";
import path from "node:path";
import { fileURLToPath } from "node:url";
import { Failure, Refused, commands, open, textOf } from "./index.js";

const HERE = path.dirname(fileURLToPath(import.meta.url));
const TOP = path.dirname(HERE);
const PROGRAM = process.env.W4 ?? path.join(TOP, "w4");
const GARDEN = path.join(TOP, "examples/garden");
const CART = path.join(GARDEN, "cart.wasm");
const REC = path.join(GARDEN, "game.w4rec");
const FONT = path.join(TOP, "examples/first/font.bin");
const read = (name) => new Uint8Array(fs.readFileSync(name));
const given = { cart: read(CART), recording: read(REC), font: read(FONT) };
const room = fs.mkdtempSync(path.join(os.tmpdir(), "w4-js-"));

/** Writes a file for the program; its name. */
function put(name, bytes) {
  fs.writeFileSync(path.join(room, name), bytes);
  return path.join(room, name);
}

/** What the program does with these words: status, output, standard error. */
function native(words, input = "") {
  const { status, stdout, stderr } = spawnSync(PROGRAM, words.map(String), { input, maxBuffer: 1 << 30 });
  return { status, output: new Uint8Array(stdout), error: stderr.toString() };
}

function same(bytes, words, status = 0) {
  const wanted = native(words);
  assert.equal(wanted.status, status, wanted.error);
  assert.deepEqual(Buffer.from(bytes), Buffer.from(wanted.output));
}

const SCRIPT = "set 60 32 0 0 0 32767 32767 0\nshow 70\nstate 70\n";
const tests = {
  async "commands answer as the program does"() {
    const edited = await commands.edit({ ...given, script: SCRIPT });
    const out = path.join(room, "out.w4rec");
    same(edited.answers, ["edit", CART, REC, FONT, put("script", SCRIPT), out]);
    assert.deepEqual(Buffer.from(edited.recording), fs.readFileSync(out));
    const other = put("other.w4rec", edited.recording);
    const run = [CART, REC, FONT];
    same(await commands.check(given), ["check", CART]);
    same(await commands.blank({ cart: given.cart, budget: 77 }), ["blank", CART, 77]);
    const disk = new Uint8Array([1, 2, 3]);
    same(await commands.blank({ cart: given.cart, budget: 77, disk }), ["blank", CART, 77, put("disk", disk)]);
    same(await commands.frames({ ...given, from: 60, to: 70 }), ["frames", ...run, 60, 70]);
    for (const name of ["tones", "trace", "units", "wave"]) same(await commands[name](given), [name, ...run]);
    same(await commands.disk({ ...given, place: 200 }), ["disk", ...run, 200]);
    same(await commands.compare({ ...given, cart2: given.cart, recording2: edited.recording }),
      ["compare", CART, REC, CART, other, FONT], 1);
    same(await commands.rebind(given), ["rebind", CART, REC]);
    same(await commands.inputs(given), ["inputs", REC]);
    const query = "watch 100 2 0 9\n";
    same(await commands.ram({ ...given, query }), ["ram", ...run, put("query", query)]);
    fs.writeFileSync(path.join(room, "list"), `${REC}\n${other}\n`);
    const recordings = { [REC]: given.recording, [other]: edited.recording };
    same(await commands.batch({ ...given, recordings }), ["batch", CART, FONT, path.join(room, "list"), 1]);
    const log = "local 1\nshow 1\n";
    const net = native(["net", CART, FONT, 1000000, put("log", log)]);
    const ran = await commands.net({ ...given, budget: 1000000, log }).catch((failure) => failure);
    if (net.status === 0) assert.deepEqual(Buffer.from(ran), Buffer.from(net.output));
    else assert.equal(ran.status, net.status);
    same(await commands.make({ number: 3 }), ["make", 3]);
  },

  async "a command may run in this thread"() {
    same(await commands.frames({ ...given, from: 0, to: 3 }, { worker: false }), ["frames", CART, REC, FONT, 0, 3]);
  },

  async "a refusal has the program's status and line"() {
    const wrong = { ...given, font: new Uint8Array(3) };
    const { status, error } = native(["tones", CART, REC, put("short", wrong.font)]);
    const failure = await commands.tones(wrong).catch((refusal) => refusal);
    assert.ok(failure instanceof Failure);
    assert.deepEqual([failure.status, `${failure.message.trim()}`.endsWith("not 1792 bytes")], [status, true], error);
    await assert.rejects(open({ ...given, cart: given.font }), (refusal) => refusal.status === 3);
  },

  async "a command that takes long can be given up"() {
    const controller = new AbortController();
    const long = commands.frames({ ...given, from: 0, to: 240 }, { signal: controller.signal });
    controller.abort(new Error("given up"));
    await assert.rejects(long, /given up/);
  },

  async "a session's orders answer as the program's"() {
    for (const worker of [true, false]) await trySession(worker);
  },

  async "a session can be given up"() {
    const controller = new AbortController();
    const session = await open({ ...given, signal: controller.signal });
    const answer = session.film(0, 240);
    controller.abort(new Error("given up"));
    await assert.rejects(answer, /given up/);
  },

  async "the command line has the bytes and statuses of the program"() {
    const rows = [["check", CART], ["frames", CART, REC, FONT, 3, 5], ["units", CART, REC, FONT], [],
      ["tones", CART, path.join(room, "gone"), FONT], ["check", FONT], ["disk", CART, REC, FONT, 999999]];
    for (const words of rows) {
      const wanted = native(words);
      const ran = spawnSync(process.execPath, [path.join(HERE, "w4.mjs"), ...words.map(String)], { maxBuffer: 1 << 30 });
      assert.equal(ran.status, wanted.status, words.join(" "));
      assert.deepEqual(ran.stdout, Buffer.from(wanted.output));
      // The launcher adds a line of its own where the words match no command.
      assert.ok(wanted.error.startsWith(ran.stderr.toString()), ran.stderr.toString());
    }
  },

  async "the command line edits a file in its place"() {
    const rec = put("edited.w4rec", given.recording);
    const words = ["edit", CART, rec, FONT, put("script", SCRIPT), rec];
    const ran = spawnSync(process.execPath, [path.join(HERE, "w4.mjs"), ...words], { maxBuffer: 1 << 30 });
    const native_rec = put("native.w4rec", given.recording);
    const wanted = native(["edit", CART, native_rec, FONT, put("script", SCRIPT), native_rec]);
    assert.deepEqual([ran.status, wanted.status], [0, 0], ran.stderr.toString());
    assert.deepEqual(ran.stdout, Buffer.from(wanted.output));
    assert.deepEqual(fs.readFileSync(rec), fs.readFileSync(native_rec));
  },

  async "the examples of README.md run"() {
    const text = fs.readFileSync(path.join(HERE, "README.md"), "utf8");
    const blocks = [...text.matchAll(/```js\n(.*?)```/gs)].map(([, code]) => code);
    assert.ok(blocks.length >= 2);
    for (const [number, code] of blocks.entries()) {
      const name = put(`example-${number}.mjs`, code.replaceAll('"w4-headless"', JSON.stringify(`${HERE}/index.js`)));
      for (const [file, from] of [["cart.wasm", CART], ["game.w4rec", REC], ["font.bin", FONT]]) {
        fs.copyFileSync(from, path.join(room, file));
      }
      const ran = spawnSync(process.execPath, [name], { cwd: room });
      assert.equal(ran.status, 0, ran.stderr.toString());
    }
  },
};

/** The orders of a session, each with the bytes that `serve` answers. */
async function trySession(worker) {
  const lines = ["state 70", "show 70", "set 60 32 0 0 0 32767 32767 0", "show 70", "keep 60", "keep-every 50",
    "insert 3 1 2 3 4 5 6 7 reset", "delete 3", "undo", "redo", "film 60 62 1", "tones 60 62", "traces 0 5", "disk 200",
    "page 70", "globals 70", "inputs 0 5", "units 0 5", "watch 100 2 0 9", "drop 60", "settle 2", "state 999999", "nonsense"];
  const wanted = native(["serve", CART, REC, FONT, path.join(room, "served.w4rec")], `${lines.join("\n")}\n`);
  const session = await open({ ...given, worker });
  const parts = [];
  for (const line of lines) {
    const answer = await session.ask(line, { cannotBeRefused: true });
    for (const piece of answer.pieces) parts.push(Buffer.from(`${piece.length}\n`), Buffer.from(piece));
    parts.push(Buffer.from("0\n"));
  }
  assert.deepEqual(Buffer.concat(parts), Buffer.from(wanted.output));
  await assert.rejects(session.show(999999), (refusal) => refusal instanceof Refused && refusal.why === "no frame");
  assert.deepEqual((await session.state(70)).halt, "running");
  assert.deepEqual(await session.inputs(60, 61),
    [{ pads: [32, 0, 0, 0], x: 32767, y: 32767, mouse: 0, reset: false }]);
  assert.match(textOf(await session.show(0)).slice(0, 15), /^P6\n160 160\n255\n/);
  const saved = await session.save();
  assert.deepEqual(Buffer.from(await session.close()), Buffer.from(saved));
  assert.deepEqual(Buffer.from(saved), fs.readFileSync(path.join(room, "served.w4rec")));
}

let [passed, failed] = [0, 0];
const words = process.argv.slice(2);
for (const [name, test] of Object.entries(tests)) {
  if (words.length && !words.some((word) => name.includes(word))) continue;
  try {
    await test();
    console.log(`passed: ${name}`);
    passed += 1;
  } catch (error) {
    console.log(`FAILED: ${name}: ${error.stack ?? error}`.slice(0, 1500));
    failed += 1;
  }
}
fs.rmSync(room, { recursive: true });
console.log(`${passed} passed, ${failed} failed`);
process.exitCode = failed ? 1 : 0;
