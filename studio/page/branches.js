// Branches: named copies of the recording that one can go back to, and comparison with another recording.
import { changesBetween } from "./session.js";
import { parseInputs } from "./input.js";
import { request } from "./services.js";

export class Branches {
  constructor({ session, player, say }) {
    Object.assign(this, { session, player, say });
    this.pane = document.getElementById("branches-pane");
    this.form = document.getElementById("branch-form");
    this.body = document.querySelector("#branch-table tbody");
    this.compared = document.getElementById("compared");
    this.listed = Promise.resolve();
    this.pane.addEventListener("toggle", () => this.act(() => this.refresh()));
    this.form.addEventListener("submit", (event) => {
      event.preventDefault();
      this.act(() => this.make(this.form.elements.name.value.trim()));
    });
    const file = document.getElementById("compare-file");
    file.addEventListener("change", () => this.act(() => this.compareFile(file)));
  }

  async act(work) {
    try {
      await work();
    } catch (refusal) {
      this.compared.textContent = refusal.message;
    }
  }

  // Shows the branches, after what is done to them. One request goes after another, so that no list is shown
  // over a newer one.
  list(query, options) {
    const ask = async () => this.show(JSON.parse(await request("branches", query, options)));
    this.listed = this.listed.catch(() => {}).then(ask);
    return this.listed;
  }

  async refresh() {
    if (this.pane.open) await this.list();
  }

  async make(name) {
    await this.session.settled();
    await this.list({ name }, { method: "POST" });
    this.form.reset();
    this.compared.textContent = "";
    this.say(`branch ${name} is made`);
  }

  show(rows) {
    this.body.replaceChildren(...rows.map((row) => this.row(row)));
  }

  row({ name, frames }) {
    const row = document.createElement("tr");
    row.insertCell().textContent = name;
    row.insertCell().textContent = frames;
    const cell = row.insertCell();
    this.addButton(cell, "Go to", name, () => this.goTo(name));
    this.addButton(cell, "Compare", name, () => this.compare(`branch ${name}`, { name }));
    this.addButton(cell, "Remove", name, () => this.remove(name));
    return row;
  }

  addButton(cell, text, name, work) {
    const button = document.createElement("button");
    button.textContent = text;
    button.setAttribute("aria-label", `${text} branch ${name}`);
    button.addEventListener("click", () => this.act(work));
    cell.append(button, " ");
  }

  // The recording becomes the branch, as one step that can be undone.
  async goTo(name) {
    const inputs = parseInputs(await request("branch", { name }));
    this.player.pause();
    this.session.change(`go to branch ${name}`, changesBetween(this.session.inputs, inputs));
    this.say(`the recording is that of branch ${name}`);
  }

  async remove(name) {
    if (!window.confirm(`Remove branch ${name}? Its file goes too.`)) return;
    await this.list({ name }, { method: "DELETE" });
    this.say(`branch ${name} is removed`);
  }

  async compareFile(file) {
    const [chosen] = file.files;
    if (chosen) await this.compare(chosen.name, {}, chosen);
    file.value = "";
  }

  async compare(title, query, body = null) {
    this.compared.textContent = "comparing";
    await this.session.settled();
    const lines = await request("compare", query, { method: "POST", body });
    this.compared.replaceChildren(this.table(title, lines.trim().split("\n").map((line) => line.split(" "))));
  }

  // A row for each thing that may differ; a button leads to the place.
  table(title, rows) {
    const table = document.createElement("table");
    table.createCaption().textContent = `this recording and ${title}`;
    for (const [name, first, second] of rows) {
      const row = table.insertRow();
      row.insertCell().textContent = name;
      if (name === "places") row.insertCell().textContent = `${first} and ${second}`;
      else if (first === "same") row.insertCell().textContent = "the same";
      else row.insertCell().append(this.placeButton(Number(first)));
    }
    return table;
  }

  placeButton(place) {
    const button = document.createElement("button");
    button.textContent = `differs first at place ${place}`;
    button.addEventListener("click", () => this.player.goTo(place));
    return button;
  }
}
