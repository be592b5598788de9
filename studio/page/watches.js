// Memory watches: an address, a width and a name, with the value at the place shown and a plot of the last
// places. A value that isn't known yet at that place is never the one of another place.
import { Refresher } from "./refresher.js";
import { Refusal } from "./refusals.js";
import { RefusalLine } from "./refusal_line.js";
import { hexadecimal, parseAddress, valueAt } from "./memory_page.js";
import { storeWatches } from "./watch_store.js";

const PLOTTED = 120; // places
const HEIGHT = 24;
const UNKNOWN = "…";
const PAUSE = 60; // milliseconds
const SAMPLE = 100; // milliseconds between values while recording, which they mustn't hold up

function addressName(address) {
  return `0x${hexadecimal(address, 4)}`;
}

// The first place from one to another whose value isn't known; null where all are.
function firstUnknown(values, from, to) {
  let place = from;
  while (place <= to && values.has(place)) place += 1;
  return place <= to ? place : null;
}

export class Watches {
  constructor({ session, player, pages, list, say }) {
    Object.assign(this, { session, player, pages, say });
    this.pane = document.getElementById("watch-pane");
    this.form = document.getElementById("watch-form");
    this.body = document.querySelector("#watch-table tbody");
    const line = new RefusalLine(this.pane);
    const pause = () => (player.isFollowing ? SAMPLE : PAUSE);
    this.sampled = 0; // the last place whose value was asked for while recording
    this.work = new Refresher(() => this.update(), { pause, tell: (refusal) => line.show(refusal) });
    const tell = (refusal) => { if (refusal) say(refusal.message); };
    this.storing = new Refresher(() => storeWatches(this.list), { tell }); // so that the last one stays
    this.list = list.map((watch) => ({ ...watch, values: new Map() }));
    this.rows = [];
    this.listen();
    this.build();
  }

  listen() {
    this.form.addEventListener("submit", (event) => this.submit(event));
    this.pane.addEventListener("toggle", () => this.work.ask());
    for (const name of ["place", "shown", "playing"]) this.player.addEventListener(name, () => this.refresh());
    this.session.addEventListener("edited", (event) => this.forgetAbove(event.detail.from));
  }

  refresh() {
    this.show();
    this.work.ask();
  }

  submit(event) {
    event.preventDefault();
    const { address, width, name } = this.form.elements;
    const number = parseAddress(address.value);
    if (number === null || number + Number(width.value) > 65536) {
      this.say("an address is a number up to 65535, or 0x and hexadecimal digits");
      return;
    }
    this.add(number, Number(width.value), name.value.trim());
    this.form.reset();
  }

  add(address, width, name) {
    this.list.push({ address, width, name: name || addressName(address), values: new Map() });
    this.pane.open = true;
    this.store();
  }

  store() {
    this.build();
    this.storing.ask();
  }

  forgetAbove(place) {
    for (const { values } of this.list) {
      for (const known of values.keys()) if (known > place) values.delete(known);
    }
    this.refresh();
  }

  build() {
    this.rows = this.list.map((watch) => this.buildRow(watch));
    this.body.replaceChildren(...this.rows.map(({ row }) => row));
    this.refresh();
  }

  buildRow(watch) {
    const row = document.createElement("tr");
    const [name, address, value, plot, remove] = Array.from({ length: 5 }, () => row.insertCell());
    name.append(this.nameField(watch));
    address.textContent = `${watch.address} (${watch.width})`;
    value.className = "number";
    const canvas = document.createElement("canvas");
    canvas.width = PLOTTED;
    canvas.height = HEIGHT;
    plot.append(canvas);
    const button = document.createElement("button");
    button.textContent = "Remove";
    button.setAttribute("aria-label", `Remove the watch ${watch.name}`);
    button.addEventListener("click", () => {
      this.list = this.list.filter((other) => other !== watch);
      this.store();
    });
    remove.append(button);
    return { row, watch, value, canvas };
  }

  // The name can be typed anew, as that of a watch that a search found.
  nameField(watch) {
    const field = document.createElement("input");
    field.value = watch.name;
    field.setAttribute("aria-label", `Name of the watch of address ${watch.address}`);
    field.addEventListener("change", () => {
      watch.name = field.value.trim() || addressName(watch.address);
      this.store();
    });
    return field;
  }

  // The values at the place shown, as far as they are known.
  show() {
    const { place } = this.player;
    for (const { watch, value } of this.rows) {
      const isKnown = watch.values.has(place);
      const text = isKnown ? String(watch.values.get(place)) : this.unknownText(watch);
      if (value.textContent !== text) value.textContent = text;
      value.title = isKnown ? "" : `not known yet at place ${place}`;
    }
  }

  // While recording, a number of a place before is told with that place.
  unknownText({ values }) {
    const isTold = this.player.isFollowing && values.has(this.sampled);
    return isTold ? `${UNKNOWN} ${values.get(this.sampled)} at ${this.sampled}` : UNKNOWN;
  }

  // Each watch is asked for alone: one that is refused leaves the others theirs.
  async update() {
    const { place } = this.player;
    if (!this.pane.open || place > this.session.count) return;
    const refusals = await Promise.all(this.rows.map((row) => this.updateRow(row, place)));
    const refusal = refusals.find(Boolean);
    if (refusal) throw refusal;
  }

  // What refused it, or null.
  async updateRow(row, place) {
    try {
      await this.fetch(row.watch, place);
      return null;
    } catch (refusal) {
      if (refusal instanceof Refusal) return refusal;
      throw refusal;
    } finally {
      this.show();
      this.plot(row, place);
    }
  }

  // While playing, values come ahead of the places, as pictures do. While the place stands still, it waits
  // until the picture is there, and what is missing of the plots comes after the value.
  async fetch(watch, place) {
    const { player } = this;
    if (player.isPlaying) await this.fetchAhead(watch, place);
    else if (player.isFollowing) await this.fetchSample(watch, player.shown);
    else if (player.shown === place) {
      await this.fetchValue(watch, place);
      await this.fetchFrom(watch, Math.max(0, place - PLOTTED + 1), place);
    }
  }

  // Up to two of the player's stretches ahead, where less than one is known.
  async fetchAhead(watch, place) {
    const { stretch } = this.player;
    const last = Math.min(place + 2 * stretch, this.session.count);
    const first = firstUnknown(watch.values, place, last);
    if (first !== null && first - place <= stretch) await this.fetchFrom(watch, first, last);
  }

  // Of the picture's place, which is a little behind the recorder's.
  async fetchSample(watch, place) {
    if (place < 0 || place > this.session.count) return;
    await this.fetchValue(watch, place);
    this.sampled = place;
  }

  // Memory as a whole serves all watches, and other panes.
  async fetchValue({ address, width, values }, place) {
    if (values.has(place)) return;
    const claim = this.session.claim(place);
    try {
      const page = await this.pages.at(place);
      if (claim.upTo === place) values.set(place, valueAt(page, address, width));
    } finally {
      this.session.release(claim);
    }
    this.show();
  }

  // What isn't known of a stretch.
  async fetchFrom({ address, width, values }, from, to) {
    const first = firstUnknown(values, from, to);
    if (first === null) return;
    let last = to;
    while (values.has(last)) last -= 1;
    const claim = this.session.claim(last);
    try {
      const text = await this.session.connection.askText(`watch ${address} ${width} ${first} ${last}`);
      const numbers = text.trim().split(" ").slice(2).map(Number);
      const untouched = Math.max(0, claim.upTo - first + 1); // an edit may have come meanwhile
      numbers.slice(0, untouched).forEach((number, at) => values.set(first + at, number));
    } finally {
      this.session.release(claim);
    }
  }

  // From the least to the greatest of the values that are known.
  plot({ watch, canvas }, place) {
    const context = canvas.getContext("2d");
    context.clearRect(0, 0, PLOTTED, HEIGHT);
    const known = [];
    for (let x = 0; x < PLOTTED; x += 1) {
      const value = watch.values.get(place - PLOTTED + 1 + x);
      if (value !== undefined) known.push([x, value]);
    }
    const values = known.map(([, value]) => value);
    const least = Math.min(...values);
    const span = Math.max(...values) - least || 1;
    context.fillStyle = getComputedStyle(canvas).color;
    for (const [x, value] of known) {
      context.fillRect(x, HEIGHT - 3 - ((HEIGHT - 4) * (value - least)) / span, 1.5, 2);
    }
  }
}
