// A run in one file: unpacks what the file holds, runs it, and joins the parts of its page.
import { Connection } from "../page/connection.js";
import { Keeper } from "../page/keeper.js";
import { Keys } from "../page/keys.js";
import { followLink } from "../page/link.js";
import { Player } from "../page/player.js";
import { Screen } from "../page/screen.js";
import { Session } from "../page/session.js";
import { Sound } from "../page/sound.js";
import { RunActs } from "./acts.js";
import { content, lacking, text } from "./contents.js";
import { RunHost } from "./run_host.js";
import { Traces } from "./traces.js";
import { View } from "./view.js";

function element(name) {
  return document.getElementById(name);
}

function fault(sentence) {
  const line = element("message");
  line.textContent = sentence;
  line.className = "fault";
  line.hidden = false;
}

async function filesOf(names) {
  const [cart, recording, font] = await Promise.all(["cart", "recording", "font"].map(content));
  return {
    cart: { bytes: cart, name: names.cart },
    recording: { bytes: recording, name: names.recording },
    font: { bytes: font, name: "font.bin" },
  };
}

// Facts of a recording's bytes.
function factsOf(bytes) {
  const view = new DataView(bytes.buffer, bytes.byteOffset);
  const hexadecimal = (byte) => byte.toString(16).padStart(2, "0");
  return {
    digest: Array.from(bytes.subarray(5, 37), hexadecimal).join(""),
    budget: view.getUint32(37, true),
    disk: view.getUint16(41, true),
  };
}

function tellFacts(files, names, count) {
  const { digest, budget, disk } = factsOf(files.recording.bytes);
  const number = (value) => value.toLocaleString("en");
  const rows = {
    recording: `${names.recording}, ${number(files.recording.bytes.length)} bytes`,
    cart: `${names.cart}, ${number(files.cart.bytes.length)} bytes`,
    "SHA-256 of the cart": digest,
    budget: `${number(budget)} units a frame`,
    "disk at the reset": `${number(disk)} bytes`,
    program: names.program,
  };
  element("facts").textContent = `${number(count)} frames, ${(count / 60).toFixed(1)} seconds`;
  element("details").replaceChildren(...Object.entries(rows).flatMap(([name, value]) => {
    const [term, description] = [document.createElement("dt"), document.createElement("dd")];
    term.textContent = name;
    description.textContent = value;
    return [term, description];
  }));
}

// A sound that can't be had is no fault: it is turned on by the first press of Play.
function beginWithSound(player, sound) {
  const turnOn = () => {
    player.removeEventListener("playing", turnOn);
    if (!sound.isOn && player.isPlaying) sound.turn(true);
  };
  player.addEventListener("playing", turnOn);
}

function join(session, files) {
  const sound = new Sound();
  const keeper = new Keeper(session);
  const screen = element("screen");
  const player = new Player(session, keeper, new Screen(screen), sound);
  const say = (sentence) => { element("spoken").textContent = sentence; };
  keeper.isPaused = () => player.isPlaying;
  const view = new View({ session, player, sound });
  const redraw = () => view.timeline.draw();
  const acts = new RunActs({ session, player, sound, files, screen, say, redraw });
  const keys = new Keys(acts.all());
  const traces = new Traces({ session, goTo: (place) => player.goTo(place) });
  beginWithSound(player, sound);
  return { session, player, sound, keeper, view, acts, keys, traces, files };
}

async function show(connection, files, names) {
  const session = new Session(connection);
  session.addEventListener("fault", (event) => fault(event.detail.text));
  await session.load();
  element("message").hidden = true;
  element("whole").hidden = false;
  const parts = join(session, files);
  window.run = parts; // for who looks in from the browser's console, and for tests
  tellFacts(files, names, session.count);
  followLink(parts.player);
  parts.player.picture.ask();
  element("play-button").focus({ preventScroll: true });
}

async function begin() {
  const names = JSON.parse(await text("names"));
  element("recording-name").textContent = names.title;
  element("cart-name").textContent = names.cart;
  document.title = names.title;
  const files = await filesOf(names);
  const connection = new Connection(new RunHost(files, await content("module"), await text("worker")));
  connection.addEventListener("hello", () => {
    show(connection, files, names).catch((error) => fault(error.message));
  });
  for (const name of ["ended", "lost"]) connection.addEventListener(name, (event) => fault(event.detail));
}

const missing = lacking();
if (missing) fault(missing);
else begin().catch((error) => fault(`This file can't be opened: ${error.message}. It may be incomplete.`));
