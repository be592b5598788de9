// The studio's page: makes its parts and joins them.
import { Acts } from "./acts.js";
import { Branches } from "./branches.js";
import { Connection } from "./connection.js";
import { Controllers } from "./controllers.js";
import { Controls } from "./controls.js";
import { FrameFacts } from "./frame_facts.js";
import { HexadecimalView } from "./hexadecimal_view.js";
import { Keeper } from "./keeper.js";
import { Keys } from "./keys.js";
import { followLink } from "./link.js";
import { MemoryPages } from "./memory_page.js";
import { PlaceTexts } from "./place_texts.js";
import { Player } from "./player.js";
import { Recorder } from "./recorder.js";
import { Ended } from "./refusals.js";
import { Return } from "./return.js";
import { Roll } from "./roll.js";
import { RollPointer } from "./roll_pointer.js";
import { RowActs } from "./row_acts.js";
import { Saver } from "./saver.js";
import { Screen } from "./screen.js";
import { Search } from "./search.js";
import { Selection } from "./selection.js";
import { answerBy } from "./services.js";
import { Session } from "./session.js";
import { Sound } from "./sound.js";
import { storedWatches } from "./watch_store.js";
import { Watches } from "./watches.js";

function element(name) {
  return document.getElementById(name);
}

function say(text) {
  element("spoken").textContent = text;
}

function fault(text) {
  element("fault-text").textContent = text;
  element("fault").hidden = false;
}

function closeFault() {
  element("fault").hidden = true;
}

// What should be read and needn't be acted on: it stays until it is closed.
function note(text) {
  const line = document.createElement("li");
  line.textContent = text;
  element("note-list").append(line);
  element("note").hidden = false;
}

function closeNote() {
  element("note-list").replaceChildren();
  element("note").hidden = true;
}

const TWICE = 200; // milliseconds; Chromium makes two events of one Ctrl+Shift+V

function listenToClipboard(rowActs) {
  let isOver = false;
  let isHeld = false; // whether the key that went down last is
  let pasted = null; // when it pasted
  const hasText = () => !document.getSelection().isCollapsed;
  const isElsewhere = (event) => event.target.matches("input, textarea") || hasText();
  document.addEventListener("keydown", (event) => {
    isOver = event.shiftKey;
    isHeld = true;
    pasted = null;
  }, true);
  const letGo = () => { isHeld = false; };
  document.addEventListener("keyup", letGo, true);
  window.addEventListener("blur", letGo);
  for (const name of ["copy", "cut"]) {
    document.addEventListener(name, (event) => {
      if (isElsewhere(event)) return;
      event.preventDefault();
      event.clipboardData.setData("text/plain", rowActs.copyText());
      if (name === "cut") rowActs.delete("cut");
    });
  }
  document.addEventListener("paste", (event) => {
    if (event.target.matches("input, textarea")) return;
    event.preventDefault();
    if (pasted !== null && (isHeld || event.timeStamp - pasted < TWICE)) return;
    pasted = event.timeStamp;
    rowActs.paste(event.clipboardData.getData("text/plain"), isOver);
  });
}

function listenToTheme({ roll, watches }) {
  const root = document.documentElement;
  const stored = localStorage.getItem("theme");
  if (stored) root.dataset.theme = stored;
  element("theme-button").addEventListener("click", () => {
    const isDark = getComputedStyle(root).colorScheme === "dark"
      || (!root.dataset.theme && matchMedia("(prefers-color-scheme: dark)").matches);
    root.dataset.theme = isDark ? "light" : "dark";
    localStorage.setItem("theme", root.dataset.theme);
    roll.draw();
    watches.work.ask();
  });
}

async function joinParts(session, greeting) {
  const sound = new Sound();
  const keeper = new Keeper(session);
  const player = new Player(session, keeper, new Screen(element("screen")), sound);
  const controllers = new Controllers(element("screen"));
  const recorder = new Recorder(session, player, controllers, sound);
  const facts = new FrameFacts(session, greeting.budget);
  const selection = new Selection(session, player);
  const roll = new Roll({ session, player, selection, facts });
  const rowActs = new RowActs({ session, player, selection, roll, say });
  const pages = new MemoryPages(session);
  const watches = new Watches({ session, player, pages, list: await storedWatches(note), say });
  const parts = {
    session, player, selection, roll, rowActs, recorder, controllers, sound, keeper, facts, pages, watches,
    say, note, fault, closeFault,
    recordingName: greeting.recording.split("/").pop().replace(/\.w4rec$/, ""),
  };
  new Return(parts);
  new RollPointer(roll);
  new Search(parts);
  new HexadecimalView(parts);
  new PlaceTexts(parts);
  new Branches(parts);
  if (greeting.keeps === false) element("saved").textContent = "kept nowhere: save a copy (Shift+S)";
  else parts.saver = new Saver(session, player, recorder, element("saved"));
  new Controls(parts);
  parts.acts = new Keys(new Acts(parts).all());
  keeper.isPaused = () => player.isPlaying || recorder.isRecording;
  facts.isPaused = () => player.isPlaying || recorder.isRecording;
  player.addEventListener("playing", () => facts.work.ask());
  recorder.addEventListener("change", () => facts.work.ask());
  listenToClipboard(rowActs);
  listenToTheme(parts);
  followLink(player);
  player.picture.ask();
  return parts;
}

async function begin(connection, greeting) {
  element("names").textContent = `${greeting.cart} · ${greeting.recording}`;
  document.title = `${greeting.cart} · w4 studio`;
  const session = new Session(connection);
  session.addEventListener("fault", (event) => fault(event.detail.text));
  session.addEventListener("saved", closeFault);
  listenToConnection(connection);
  await session.load();
  const parts = await joinParts(session, greeting);
  window.studio = parts; // for who looks in from the browser's console, and for tests
  for (const [name, act] of [["undo-button", "undo"], ["redo-button", "redo"]]) {
    element(name).addEventListener("click", () => parts.acts.byName.get(act).run());
  }
  element("help-button").addEventListener("click", () => element("help").showModal());
  element("roll-scroll").focus();
  if (!session.count) say("there are no frames yet: press R (Record), and play with the arrows, X and Z");
}

function listenToConnection(connection) {
  connection.addEventListener("lost", (event) => fault(event.detail));
  connection.addEventListener("found", closeFault);
}

// Opens the page on what a host runs.
export function open(host) {
  element("fault-button").addEventListener("click", closeFault);
  element("note-button").addEventListener("click", closeNote);
  answerBy(host);
  const connection = new Connection(host);
  connection.addEventListener("hello", (event) => {
    begin(connection, event.detail).catch((error) => fault(error.message));
  });
  connection.addEventListener("ended", (event) => fault(event.detail));
  connection.addEventListener("note", (event) => note(event.detail));
  window.addEventListener("unhandledrejection", (event) => {
    if (event.reason instanceof Ended) event.preventDefault(); // that is told already
    else fault(event.reason.message);
  });
}
