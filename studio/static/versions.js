// Versions of this page. A service worker keeps the page in the browser; a new version is fetched beside it, told,
// and taken when the page starts: never while it runs.

const WORKER = new URL("../../service_worker.js", import.meta.url);
const PATIENCE = 3000; // milliseconds for a version that waits to take over

function within(milliseconds, promise) {
  return Promise.race([promise, new Promise((resolve) => setTimeout(resolve, milliseconds, false))]);
}

function takeOver(worker) {
  const taken = new Promise((resolve) => {
    worker.addEventListener("statechange", () => { if (worker.state === "activated") resolve(true); });
  });
  worker.postMessage("take");
  return within(PATIENCE, taken);
}

// At the start: whether a version that waited was taken, so that the page has to load it. It isn't where another
// page of the old one is open.
export async function takeNewVersion() {
  if (!navigator.serviceWorker) return false;
  const registration = await navigator.serviceWorker.getRegistration(WORKER);
  return Boolean(registration && registration.waiting) && takeOver(registration.waiting);
}

function tellOf(worker, tell) {
  worker.addEventListener("statechange", () => {
    if (worker.state === "installed" && navigator.serviceWorker.controller) tell();
  });
}

// Has the page kept from now on; `tell` is called when a new version is there.
export async function keepPage(tell) {
  if (!navigator.serviceWorker) return;
  const registration = await navigator.serviceWorker.register(WORKER, { updateViaCache: "none" });
  if (registration.waiting) tell();
  if (registration.installing) tellOf(registration.installing, tell);
  registration.addEventListener("updatefound", () => tellOf(registration.installing, tell));
}
