// Opens other files: those that are chosen or dropped, and those that the browser keeps. The page then starts anew
// with them.
import { Refusal } from "../page/refusals.js";
import { droppedFiles, readFiles } from "./file_kinds.js";

function element(name) {
  return document.getElementById(name);
}

function hasFiles(event) {
  return [...event.dataTransfer.types].includes("Files");
}

export class Opening {
  // `project` is null where none could be opened.
  constructor({ projects, project }) {
    Object.assign(this, { projects, project });
    this.dialog = element("open-dialog");
    this.refusal = element("open-refusal");
    this.body = document.querySelector("#kept-table tbody");
    this.addButton();
    this.listen();
  }

  addButton() {
    const button = document.createElement("button");
    button.id = "open-button";
    button.textContent = "Open";
    button.addEventListener("click", () => this.show());
    element("undo-button").before(button);
  }

  listen() {
    const input = element("open-files");
    input.addEventListener("change", () => this.act(() => this.take([...input.files])));
    const here = element("drop-here");
    document.addEventListener("dragover", (event) => {
      if (!hasFiles(event)) return;
      event.preventDefault();
      here.hidden = false;
    });
    document.addEventListener("dragleave", (event) => { if (!event.relatedTarget) here.hidden = true; });
    document.addEventListener("drop", (event) => {
      if (!hasFiles(event)) return;
      event.preventDefault();
      here.hidden = true;
      this.act(() => this.take(droppedFiles(event.dataTransfer)));
    });
  }

  // What can't be opened is told in the dialog, and what is open stays.
  async act(work) {
    this.refusal.textContent = "";
    try {
      await work();
    } catch (fault) {
      this.refusal.textContent = fault.message;
      element("open-files").value = "";
      if (!this.dialog.open) await this.show();
      if (!(fault instanceof Refusal)) throw fault;
    }
  }

  async take(files) {
    const made = await this.projects.make(await readFiles(files), this.project);
    const { store } = await this.projects.add(made);
    this.startAnew(store ? null : { brought: made });
  }

  // The address loses what a link named.
  startAnew(state) {
    history.replaceState(state, "", location.pathname + location.search);
    location.reload();
  }

  async show() {
    this.dialog.showModal();
    const { store } = this.projects;
    const rows = store ? await store.projects() : [];
    rows.sort((one, other) => other.opened - one.opened);
    this.body.replaceChildren(...rows.map((row) => this.row(row)));
    element("kept-table").hidden = !rows.length;
  }

  row(project) {
    const row = document.createElement("tr");
    for (const text of [project.recordingName, project.cartName, new Date(project.opened).toLocaleString()]) {
      row.insertCell().textContent = text;
    }
    const cell = row.insertCell();
    const isOpen = this.project && this.project.facts.id === project.id;
    if (isOpen) cell.textContent = "is open";
    else {
      this.addAct(cell, "Open", project, () => this.open(project));
      this.addAct(cell, "Remove", project, () => this.remove(project));
    }
    return row;
  }

  addAct(cell, text, project, work) {
    const button = document.createElement("button");
    button.textContent = text;
    button.setAttribute("aria-label", `${text} ${project.recordingName}`);
    button.addEventListener("click", () => this.act(work));
    cell.append(button, " ");
  }

  async open(project) {
    await this.projects.store.touch(project);
    this.startAnew(null);
  }

  async remove(project) {
    const { recordingName } = project;
    const sentence = `Remove ${recordingName} from this browser, with its branches and watches? No file stays.`;
    if (!window.confirm(sentence)) return;
    await this.projects.store.remove(project.id);
    this.dialog.close();
    await this.show();
  }
}
