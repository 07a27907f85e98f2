// Keeps the page for use without a network: all its files, of one version.
//
// web/build puts the sum of each file in. A version is kept once each of its files came as it was made, and counts once no tab has
// the one before: so no page ever has files of two.
// @ts-check
/** @type {Record<string, string>} */
const SUMS = { /* the files */ };
const KEPT = 'stmflash-/* the sum */';
const self_ = /** @type {any} */ (self);

/** @param {Cache} cache @param {string} name @param {string} sum */
async function keep(cache, name, sum) {
  const answer = await fetch(name, { cache: 'no-store' }), bytes = await answer.clone().arrayBuffer();
  const digest = new Uint8Array(await crypto.subtle.digest('SHA-256', bytes));
  if (!answer.ok || Array.from(digest, (it) => it.toString(16).padStart(2, '0')).join('') !== sum) throw new Error(`${name} is of another version`);
  await cache.put(name === 'index.html' ? './' : name, answer);
}

self_.addEventListener('install', (/** @type {any} */ event) => event.waitUntil(caches.open(KEPT).then((cache) =>
  Promise.all(Object.entries(SUMS).map(([name, sum]) => keep(cache, name, sum))))));
self_.addEventListener('activate', (/** @type {any} */ event) => event.waitUntil(caches.keys().then((names) =>
  Promise.all(names.filter((it) => it.startsWith('stmflash-') && it !== KEPT).map((it) => caches.delete(it))))));
self_.addEventListener('fetch', (/** @type {any} */ event) => {
  if (event.request.method === 'GET') event.respondWith(caches.open(KEPT).then((cache) => cache.match(event.request.url.replace(/index\.html(?=$|[?#])/, ''), { ignoreSearch: true }))
    .then((kept) => kept ?? fetch(event.request)));
});
