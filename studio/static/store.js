// What the browser keeps of the studio's recordings, in IndexedDB. A recording is kept as the bytes that were
// last saved and the orders that changed it since, each edit in a transaction of its own, so that a tab that
// is closed or crashes loses nothing.
import { Refusal } from "../page/refusals.js";

const NAME = "w4 studio";
export const FORMAT = 1; // of all that is kept; a later version of the page changes what it finds
const TABLES = ["projects", "recordings", "orders", "branches", "watches"];
const SPARE = 4_000_000; // bytes that should be free at the start

function answer(request) {
  return new Promise((resolve, reject) => {
    request.addEventListener("success", () => resolve(request.result));
    request.addEventListener("error", () => reject(request.error));
  });
}

function upgrade(database) {
  database.createObjectStore("projects", { keyPath: "id", autoIncrement: true });
  database.createObjectStore("recordings", { keyPath: "project" });
  database.createObjectStore("orders", { keyPath: ["project", "number"] });
  database.createObjectStore("branches", { keyPath: ["project", "name"] });
  database.createObjectStore("watches", { keyPath: "project" });
}

// Why nothing can be kept, in words that say what to do.
export function whyNot(fault) {
  if (fault.name === "QuotaExceededError") {
    return "the browser's storage is full: close other pages, or free space on the disk";
  }
  if (fault.name === "VersionError") return "a newer version of this page has kept recordings here: reload to have it";
  return `the browser refuses to keep anything for this page (${fault.name}): a private window or a setting may`;
}

function open() {
  return new Promise((resolve, reject) => {
    const request = indexedDB.open(NAME, FORMAT);
    request.addEventListener("upgradeneeded", () => upgrade(request.result));
    request.addEventListener("success", () => resolve(request.result));
    request.addEventListener("error", () => reject(request.error));
    request.addEventListener("blocked", () => reject(new DOMException("", "VersionError")));
  });
}

// All rows that belong to a project.
function rowsOf(project) {
  return IDBKeyRange.bound([project], [project, []]);
}

export class Store {
  // The store of this page; a refusal says why there is none.
  static async open() {
    try {
      return new Store(await open());
    } catch (fault) {
      throw new Refusal(whyNot(fault));
    }
  }

  constructor(database) {
    this.database = database;
    database.addEventListener("versionchange", () => database.close()); // another tab has a newer page
  }

  // Runs work over tables in one transaction, and waits until that is kept.
  async run(tables, mode, work) {
    const transaction = this.database.transaction(tables, mode);
    const done = new Promise((resolve, reject) => {
      transaction.addEventListener("complete", resolve);
      transaction.addEventListener("abort", () => reject(transaction.error || new DOMException("", "AbortError")));
    });
    const result = work(...tables.map((name) => transaction.objectStore(name)));
    const [value] = await Promise.all([result, done]);
    return value;
  }

  read(table, work) {
    return this.run([table], "readonly", (rows) => answer(work(rows)));
  }

  write(table, work) {
    return this.run([table], "readwrite", (rows) => answer(work(rows)));
  }

  // ---- projects: a cart, a font and a recording with their names

  projects() {
    return this.read("projects", (rows) => rows.getAll());
  }

  // Keeps a project with its first recording; its number.
  add(project, recording) {
    return this.run(["projects", "recordings"], "readwrite", async (projects, recordings) => {
      const id = await answer(projects.add({ ...project, format: FORMAT, opened: Date.now() }));
      recordings.put({ project: id, bytes: recording });
      return id;
    });
  }

  touch(project) {
    return this.write("projects", (rows) => rows.put({ ...project, opened: Date.now() }));
  }

  remove(id) {
    return this.run(TABLES, "readwrite", (projects, recordings, orders, branches, watches) => {
      for (const table of [projects, recordings, watches]) table.delete(id);
      for (const table of [orders, branches]) table.delete(rowsOf(id));
    });
  }

  // ---- the recording: what was saved, and the orders since

  async recording(id) {
    return (await this.read("recordings", (rows) => rows.get(id))).bytes;
  }

  edits(id) {
    return this.read("orders", (rows) => rows.getAll(rowsOf(id)));
  }

  append(id, number, lines) {
    return this.write("orders", (rows) => rows.add({ project: id, number, lines }));
  }

  // What was saved holds the orders up to a number.
  save(id, bytes, number) {
    return this.run(["recordings", "orders"], "readwrite", (recordings, orders) => {
      recordings.put({ project: id, bytes });
      orders.delete(IDBKeyRange.bound([id, 0], [id, number]));
    });
  }

  // ---- branches and watches

  branches(id) {
    return this.read("branches", (rows) => rows.getAll(rowsOf(id)));
  }

  putBranch(id, name, branch) {
    return this.write("branches", (rows) => rows.put({ project: id, name, ...branch }));
  }

  removeBranch(id, name) {
    return this.write("branches", (rows) => rows.delete([id, name]));
  }

  async watches(id) {
    const row = await this.read("watches", (rows) => rows.get(id));
    return row ? row.text : "[]";
  }

  storeWatches(id, text) {
    return this.write("watches", (rows) => rows.put({ project: id, text }));
  }
}

// A sentence where little is free, else null.
export async function scarcity() {
  if (!navigator.storage || !navigator.storage.estimate) return null;
  const { quota, usage } = await navigator.storage.estimate();
  if (quota - usage >= SPARE) return null;
  return "the browser has hardly any storage left for this page: edits may soon not be kept any more. Free space, "
    + "or save a copy (Shift+S) from time to time";
}
