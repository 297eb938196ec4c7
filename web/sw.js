// Keeps the page's own files, so that a page that was opened once works offline, too.
//
// What the server has is newer, so it is asked first; only where it can't be reached the kept files answer.

const KEPT = "symdemangle";
const FILES = [
    "./", "style.css", "page.js", "address.js", "cards.js", "job.js", "library.js", "pieces.js", "show.js", "words.js", "worker.js",
    "symdemangle.wasm", "module.json", "manifest.webmanifest", "icon.svg",
];

async function keepAll() {
    const kept = await caches.open(KEPT);
    await kept.addAll(FILES);
    await self.skipWaiting();
}

async function answer(request) {
    const kept = await caches.open(KEPT);
    try {
        const response = await fetch(request);
        if (response.ok) await kept.put(request, response.clone());
        return response;
    } catch {
        return (await kept.match(request)) ?? Response.error();
    }
}

self.addEventListener("install", (event) => event.waitUntil(keepAll()));
self.addEventListener("activate", (event) => event.waitUntil(self.clients.claim()));
self.addEventListener("fetch", (event) => {
    const isOwn = event.request.method === "GET" && new URL(event.request.url).origin === self.location.origin;
    if (isOwn) event.respondWith(answer(event.request));
});
