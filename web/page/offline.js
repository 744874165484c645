// Keeps the page in the browser, so that it works without a network. All of one build is kept together, and no file of another is mixed in: a newer build is
// kept beside it, and comes into use once no window shows the older one. files.js, which web/build writes, has the files and a name of the build.
/* global BUILD, FILES */
importScripts('files.js');

const OURS = `spcwave ${self.registration.scope} `; // other copies of the page may have this host too
const KEPT = OURS + BUILD;

/** All of this build, past what the browser keeps by itself. */
async function keep() {
  const cache = await caches.open(KEPT);
  await cache.addAll(FILES.map((name) => new Request(name, { cache: 'reload' })));
}

/** Drops what older builds left. */
async function dropOthers() {
  const names = await caches.keys();
  await Promise.all(names.filter((name) => name.startsWith(OURS) && name !== KEPT).map((name) => caches.delete(name)));
  await self.clients.claim();
}

async function answer(request) {
  const cache = await caches.open(KEPT);
  return (await cache.match(request, { ignoreSearch: request.mode === 'navigate' })) ?? fetch(request);
}

self.addEventListener('install', (event) => event.waitUntil(keep()));
self.addEventListener('activate', (event) => event.waitUntil(dropOthers()));
self.addEventListener('fetch', (event) => event.respondWith(answer(event.request)));
