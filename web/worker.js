// All work of the page that may take long. It answers by `id` what it is asked, and gives up what a newer question replaces.
import { FLAG, LONGEST_WORD, Library, STATUS } from "./library.js";
import { listed, piecesOf, stretchesOf, textOf } from "./pieces.js";
import { PieceFilter, flagsOf, namesOf } from "./words.js";

const encoder = new TextEncoder();
const decoder = new TextDecoder();
const SLICE = 30; // ms of work between two looks at what was asked since
const KEPT = 20_000; // names whose answers are kept
const MOST_PARTS = 500; // of a text that are told apart
const IN_MEMORY = 1 << 24; // bytes of a filtered file, before they are put into a blob, which the browser may keep on disk

let library;
let newest = 0;
let cancelled = 0;
let known = new Map();
let knownFor = "";

const pause = () => new Promise((resolve) => {
    const { port1, port2 } = new MessageChannel();
    port1.onmessage = () => { port1.close(); resolve(); };
    port2.postMessage(0);
});

/** How many UTF-16 units come before a byte of a text's UTF-8. */
function unitAt(text, offset) {
    let units = 0;
    for (let bytes = 0; bytes < offset && units < text.length; ) {
        const code = text.codePointAt(units);
        bytes += code < 0x80 ? 1 : code < 0x800 ? 2 : code < 0x10000 ? 3 : 4;
        if (bytes > offset) break;
        units += code < 0x10000 ? 1 : 2;
    }
    return units;
}

/** Whether a name is a legacy name of Rust: it has the hash of one, and its answer isn't the one as a name of C++. */
function isLegacyRust(bytes, word, options, answer) {
    if (!options.legacy || !/17h[0-9a-f]{16}E/.test(word)) return false;
    const { status, bytes: text } = library.text(bytes, options.limit, flagsOf({ ...options, legacy: false }));
    return status !== answer.status || (status === STATUS.OK && decoder.decode(text) !== decoder.decode(answer.bytes));
}

function read(word, options) {
    const bytes = encoder.encode(word);
    const about = { word, length: bytes.length, isRust: /^__?R/.test(word) };
    if (bytes.length > LONGEST_WORD) return { ...about, status: STATUS.SIZE };
    const answer = library.text(bytes, options.limit, flagsOf(options));
    const { status, offset } = answer;
    about.isRust ||= isLegacyRust(bytes, word, options, answer);
    if (status === STATUS.OK) return { ...about, status, text: decoder.decode(answer.bytes) };
    const found = { ...about, status, message: library.message(status) };
    if (status >= STATUS.MALFORMED && status <= STATUS.BAD_VALUE) {
        found.offset = offset;
        found.unit = unitAt(word, offset);
    }
    return found;
}

/** The names of a text, and the text as strings and numbers of names in turn. */
async function view({ id, text, options }) {
    const began = performance.now();
    const key = JSON.stringify(options);
    if (key !== knownFor || known.size > KEPT) {
        known = new Map();
        knownFor = key;
    }
    const answer = (word) => {
        if (!known.has(word)) known.set(word, read(word, options));
        return known.get(word);
    };
    const parts = [];
    const names = [];
    const numbers = new Map();
    let seen = 0;
    let slice = began;
    for (const { word, index } of namesOf(text, (word) => answer(word).status === STATUS.OK)) {
        let number = numbers.get(word);
        if (number === undefined) {
            number = names.push({ ...answer(word), times: 0 }) - 1;
            numbers.set(word, number);
        }
        names[number].times += 1;
        if (index > seen) parts.push(text.slice(seen, index));
        parts.push(number);
        seen = index + word.length;
        if (performance.now() - slice > SLICE) {
            await pause();
            if (newest !== id) return;
            slice = performance.now();
        }
    }
    if (seen < text.length) parts.push(text.slice(seen));
    postMessage({ id, kind: "view", parts, names, options, took: performance.now() - began });
}

/** The counts of a name and its pressed spelling, by the grammar of its text. */
function details({ id, word, options }) {
    const bytes = encoder.encode(word);
    const counts = library.count(bytes, flagsOf(options));
    const pressed = library.press(bytes, flagsOf(options));
    const isRead = pressed.status === STATUS.OK;
    postMessage({
        id, kind: "details", counts, length: bytes.length - /^__/.test(word),
        pressed: isRead ? decoder.decode(pressed.bytes) : null,
        why: isRead ? "" : library.message(pressed.status),
    });
}

/** What a name is, and its parts, with its text and its symbol in pieces, where its text has parts: a short one has none. */
function piecesFor(word, options) {
    const name = encoder.encode(word);
    const { status, bytes, kind, parts } = library.parts(name, options.limit, flagsOf(options));
    if (status !== STATUS.OK || parts.length > MOST_PARTS) return null;
    const pieces = piecesOf(bytes, parts);
    const stretches = stretchesOf(name, parts);
    // each piece is whole characters
    const areWhole = textOf(pieces) === decoder.decode(bytes) && stretches.map((it) => it.text).join("") === word;
    return areWhole ? { kind, pieces, stretches, parts: listed(bytes, name, parts) } : null;
}

/** The pieces of the texts of names. */
function parts({ id, words, options }) {
    postMessage({ id, kind: "parts", found: words.map((word) => piecesFor(word, options)) });
}

async function file({ id, blob, options }) {
    const began = performance.now();
    const filter = new PieceFilter(library, options.limit, flagsOf(options));
    const reader = blob.stream().getReader();
    let out = new Blob([]);
    let parts = [];
    let pending = 0;
    let read = 0;
    let told = began;
    const keep = (more) => {
        parts.push(...more);
        pending += more.reduce((sum, it) => sum + it.length, 0);
        if (pending < IN_MEMORY) return;
        out = new Blob([out, ...parts]);
        parts = [];
        pending = 0;
    };
    for (;;) {
        const { done, value } = await reader.read();
        if (done) break;
        keep(filter.push(value));
        read += value.length;
        if (performance.now() - told < 50) continue;
        await pause();
        if (cancelled >= id) return reader.cancel();
        told = performance.now();
        postMessage({ id, kind: "progress", read, took: told - began });
    }
    keep(filter.end());
    out = new Blob([out, ...parts], { type: "text/plain" });
    postMessage({ id, kind: "file", out, read, tally: filter.tally, took: performance.now() - began });
}

function start({ module }) {
    library = new Library(module);
    postMessage({ kind: "started", version: library.version, hasLegacy: library.knows(FLAG.LEGACY) });
}

onmessage = async ({ data }) => {
    try {
        if (data.kind === "start") start(data);
        else if (data.kind === "view") { newest = data.id; await view(data); }
        else if (data.kind === "details") details(data);
        else if (data.kind === "parts") parts(data);
        else if (data.kind === "file") await file(data);
        else if (data.kind === "cancel") cancelled = data.id;
    } catch (error) {
        postMessage({ id: data.id, kind: "failed", message: String(error) });
    }
};
