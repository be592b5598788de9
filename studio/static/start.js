// The studio as a static page: opens what the browser keeps, what a link names, or the example, over w4 in this
// browser.
import { open } from "../page/main.js";
import { Refusal } from "../page/refusals.js";
import { Opening } from "./opening.js";
import { PageHost } from "./page_host.js";
import { Program } from "./program.js";
import { Projects } from "./projects.js";
import { Store, scarcity } from "./store.js";
import { keepPage, takeNewVersion } from "./versions.js";

const LEAVING = 2000; // milliseconds that a page which is reloaded has for going
const NEW_VERSION = "a new version of this page is there; it is taken when the page is opened the next time";

// The store, or null and a sentence where the browser keeps nothing.
async function openStore(tell) {
  try {
    const store = await Store.open();
    const sentence = await scarcity();
    if (sentence) tell(sentence);
    return store;
  } catch (refusal) {
    if (!(refusal instanceof Refusal)) throw refusal;
    tell(`${refusal.message}. What you do here is lost when this page is closed: save copies (Shift+S)`);
    return null;
  }
}

// Whether this page has a project for itself, as long as it is there.
function lockOf(project) {
  if (!project.store || !navigator.locks) return Promise.resolve(true);
  return new Promise((resolve) => {
    const forever = () => {
      resolve(true);
      return new Promise(() => {});
    };
    const name = `w4 studio ${project.facts.id}`;
    navigator.locks.request(name, { signal: AbortSignal.timeout(LEAVING) }, forever).catch(() => resolve(false));
  });
}

// Asks before a page goes whose edits are nowhere else.
function guard(project) {
  window.addEventListener("beforeunload", (event) => {
    const parts = window.studio;
    if (parts && parts.session.isDirty && !project.isKept) event.preventDefault();
  });
}

async function begin() {
  const notes = [];
  const tell = (sentence) => notes.push(sentence);
  const program = new Program();
  const projects = new Projects(await openStore(tell), program);
  const project = await projects.choose(tell);
  const lock = lockOf(project);
  if (await lock) await project.keepWhatWasOpened();
  const host = new PageHost({ project, program, lock, notes });
  open(host);
  guard(project);
  const opening = new Opening({ projects, project });
  window.published = { host, opening }; // for who looks in from the browser's console, and for tests
  await keepPage(() => host.tell(NEW_VERSION));
}

if (await takeNewVersion()) location.reload();
else await begin();
