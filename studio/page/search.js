// The search of memory: it begins with all addresses, and keeps those whose values changed as is said.
import { Refresher } from "./refresher.js";
import { Ended, Refusal } from "./refusals.js";
import { RefusalLine } from "./refusal_line.js";
import { valueAt } from "./memory_page.js";

const SHOWN = 200; // rows of the list
const SCREEN = [160, 6560]; // the picture's bytes, which change with all that moves
const UNKNOWN = "…";

export class Search {
  constructor({ session, player, pages, watches, say }) {
    Object.assign(this, { session, player, pages, watches, say });
    this.pane = document.getElementById("search-pane");
    this.width = document.getElementById("search-width");
    this.text = document.getElementById("search-text");
    this.body = document.querySelector("#search-table tbody");
    this.value = document.getElementById("is-value");
    this.withScreen = document.getElementById("search-screen");
    this.found = null;
    this.line = new RefusalLine(this.pane);
    this.valuesAt = null; // the place whose values are shown
    const tell = (refusal) => this.note(refusal);
    this.values = new Refresher(() => this.updateValues(), { pause: 60, tell });
    this.listen();
  }

  listen() {
    for (const button of this.pane.querySelectorAll("[data-search]")) {
      button.addEventListener("click", () => this.tryToNarrow(button.dataset.search));
    }
    document.getElementById("is-form").addEventListener("submit", (event) => {
      event.preventDefault();
      this.tryToNarrow("is");
    });
    this.withScreen.addEventListener("change", () => { if (this.all) this.show(); });
    this.player.addEventListener("place", () => this.hideOldValues());
    this.player.addEventListener("shown", () => this.values.ask());
    this.session.addEventListener("edited", ({ detail }) => this.noteEdit(detail.from));
    this.pane.addEventListener("toggle", () => this.values.ask());
  }

  orderOf(kind) {
    const { place } = this.player;
    if (kind === "start") return `start ${this.width.value} ${place}`;
    return kind === "is" ? `is ${place} ${Number(this.value.value)}` : `${kind} ${place}`;
  }

  async tryToNarrow(kind) {
    try {
      await this.narrow(kind);
    } catch (refusal) {
      if (refusal instanceof Ended) return;
      if (!(refusal instanceof Refusal)) throw refusal;
      this.text.textContent = `the search didn't go on (${refusal.message}); start it again`;
    }
  }

  async narrow(kind) {
    if (kind === "is" && !/^\d{1,10}$/.test(this.value.value.trim())) {
      this.say("a value is a number in decimal");
      return;
    }
    if (kind !== "start" && this.found === null) {
      this.say("start a search first");
      return;
    }
    const { place } = this.player;
    const width = Number(this.width.value);
    // Asked twice it would compare a place with itself.
    await this.session.askAt(this.orderOf(kind), place, { isOnce: kind !== "start" });
    if (kind === "start") this.searchedWidth = width;
    await this.list(kind, place);
  }

  async list(kind, place) {
    const [, ...addresses] = (await this.session.connection.askText("list")).trim().split("\n");
    this.all = addresses.map(Number);
    this.said = kind === "is" ? `is ${Number(this.value.value)}` : kind;
    if (kind === "start") this.said = "begun";
    this.searchedAt = place;
    this.show();
  }

  show() {
    const [first, end] = SCREEN;
    const isOfScreen = (address) => address >= first && address < end;
    this.found = this.withScreen.checked ? this.all : this.all.filter((address) => !isOfScreen(address));
    const left = this.all.length - this.found.length;
    const hidden = left ? `, and ${left} in the screen` : "";
    const more = this.found.length > SHOWN ? `; the first ${SHOWN} are shown` : "";
    const step = `${this.said} at place ${this.searchedAt}`;
    this.text.textContent = `${this.found.length} found${hidden} (${step})${more}`;
    this.buildRows();
  }

  buildRows() {
    this.cells = this.found.slice(0, SHOWN).map((address) => ({ address, value: null }));
    this.body.replaceChildren(...this.cells.map((cell) => this.buildRow(cell)));
    this.valuesAt = null;
    this.values.ask();
  }

  buildRow(cell) {
    const row = document.createElement("tr");
    row.insertCell().textContent = cell.address;
    cell.value = row.insertCell();
    cell.value.className = "number";
    cell.value.textContent = UNKNOWN;
    const button = document.createElement("button");
    button.textContent = "Watch";
    button.setAttribute("aria-label", `Watch address ${cell.address}`);
    button.addEventListener("click", () => this.watches.add(cell.address, this.searchedWidth, ""));
    row.insertCell().append(button);
    return row;
  }

  async updateValues() {
    const place = this.player.shown;
    if (!this.pane.open || !this.cells || !this.cells.length || place > this.session.count) return;
    const page = await this.pages.at(place);
    for (const { address, value } of this.cells) {
      value.textContent = valueAt(page, address, this.searchedWidth);
    }
    this.valuesAt = place;
    this.hideOldValues();
  }

  // While playing and recording they are those of a moment ago.
  hideOldValues() {
    const { isPlaying, isFollowing, place } = this.player;
    if (!isPlaying && !isFollowing && this.valuesAt !== place) this.hideValues();
  }

  hideValues() {
    if (this.valuesAt === null) return;
    this.valuesAt = null;
    for (const { value } of this.cells) value.textContent = UNKNOWN;
  }

  noteEdit(from) {
    if (this.valuesAt > from) this.hideValues();
  }

  note(refusal) {
    if (refusal) this.hideValues();
    this.line.show(refusal);
  }
}
