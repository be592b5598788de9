// Keeps the studio's page in the browser, so that it opens without a network. A new version is fetched whole
// beside the old one, each file checked, and waits until a page starts that is alone.
const VERSION = "@VERSION@";
const FILES = JSON.parse(`@FILES@`); // each file's address beside this one, and its SHA-256 in base64
const PREFIX = "w4 studio ";
const CACHE = PREFIX + VERSION;

function base64(bytes) {
  return btoa(String.fromCharCode(...new Uint8Array(bytes)));
}

async function fetchFile(name) {
  const response = await fetch(name || "./", { cache: "no-cache" });
  if (!response.ok) throw new Error(`${name}: ${response.status}`);
  const digest = await crypto.subtle.digest("SHA-256", await response.clone().arrayBuffer());
  if (base64(digest) !== FILES[name]) throw new Error(`${name} is of another version`);
  return response;
}

// All files, or none: what isn't whole is fetched again at the next start.
async function fill() {
  const names = Object.keys(FILES);
  const responses = await Promise.all(names.map(fetchFile));
  const cache = await caches.open(CACHE);
  await Promise.all(names.map((name, at) => cache.put(name || "./", responses[at])));
}

async function dropOthers() {
  const names = await caches.keys();
  await Promise.all(names.filter((name) => name.startsWith(PREFIX) && name !== CACHE)
    .map((name) => caches.delete(name)));
}

// A page that starts asks for the version that waits; it gets it where no other page is open.
async function take(page) {
  const pages = await self.clients.matchAll({ includeUncontrolled: true, type: "window" });
  if (pages.every(({ id }) => id === page.id)) await self.skipWaiting();
}

// The name of a file of this version, null for any other address.
function nameOf(address) {
  const { origin, pathname } = new URL(address);
  const here = new URL("./", self.location.href);
  if (origin !== here.origin || !pathname.startsWith(here.pathname)) return null;
  const name = decodeURIComponent(pathname.slice(here.pathname.length)).replace(/^index\.html$/, "");
  return Object.hasOwn(FILES, name) ? name : null;
}

async function answer(request, name) {
  const kept = await (await caches.open(CACHE)).match(name || "./");
  return kept || fetch(request);
}

self.addEventListener("install", (event) => event.waitUntil(fill()));
self.addEventListener("activate", (event) => event.waitUntil(dropOthers()));
self.addEventListener("message", (event) => {
  if (event.data === "take") event.waitUntil(take(event.source));
});
self.addEventListener("fetch", (event) => {
  const name = event.request.method === "GET" ? nameOf(event.request.url) : null;
  if (name !== null) event.respondWith(answer(event.request, name));
});
