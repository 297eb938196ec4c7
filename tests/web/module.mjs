// node module.mjs PAGE_FOLDER ROWS DEMANGLE SYMBOLS: compares the page's module with the rows of check_rows, and with the program
//
// The module has to answer each row: the text at a limit of its cost, and that the text is too long at a limit of one less; each refusal
// with its offset; each pressed spelling; for each row `parts` what the name is, its text and the text's parts. Then the symbols of a file
// are filtered in pieces of several sizes in each detail, and have to give the program's bytes. The page's words have to be the library's,
// and a text that is filtered in pieces has to come out as the whole text does.
import { execFileSync } from "node:child_process";
import fs from "node:fs";
import path from "node:path";
import { pathToFileURL } from "node:url";

const [folder, rows, program, symbols] = process.argv.slice(2);
const from = (name) => import(pathToFileURL(path.resolve(folder, name)));
const { FLAG, GREATEST_LIMIT, LONGEST_WORD, Library, MOST, STATUS } = await from("library.js");
const { piecesOf, stretchesOf, textOf: joined } = await from("pieces.js");
const { PieceFilter, flagsOf, namesOf } = await from("words.js");
const code = new WebAssembly.Module(fs.readFileSync(path.join(folder, "symdemangle.wasm")));
if (WebAssembly.Module.imports(code).length) throw new Error("the module imports something");
const library = new Library(code);

const DETAILS = { full: 0, brief: FLAG.BRIEF, "no-params": FLAG.NO_PARAMETERS, "brief-no-params": FLAG.BRIEF | FLAG.NO_PARAMETERS };
// legacy Rust names have their texts with each grammar of C++
const GRAMMARS = { "": [0], wide: [FLAG.WIDE], legacy: [FLAG.LEGACY, FLAG.LEGACY | FLAG.WIDE] };
const REASONS = { "malformed at": STATUS.MALFORMED, "bad reference at": STATUS.BAD_REFERENCE, "bad value at": STATUS.BAD_VALUE, "too long": STATUS.TOO_LONG, "no spelling yet": STATUS.NO_SPELLING };
const ESCAPES = { "\\\\": "\\", "\\t": "\t", "\\n": "\n", "\\f": "\xff" };
const plain = (field) => field.replace(/\\[\\tnf]/g, (it) => ESCAPES[it]);
const bytesOf = (text) => Buffer.from(text, "latin1");
const isName = (word) => /^_[ZR]/.test(word);
const tried = {};

function holds(kind, test, ...what) {
    tried[kind] = (tried[kind] ?? 0) + 1;
    if (!test) throw new Error(`${kind}: ${what.join(" ")}`);
}

function hasText(kind, name, cost, flags, wanted) {
    const { status, bytes } = library.text(name, cost, flags);
    holds(kind, status === STATUS.OK && wanted(Buffer.from(bytes)), name.toString("latin1").slice(0, 200), status);
    holds(kind, library.text(name, cost - 1, flags).status === STATUS.TOO_LONG, "at one below its cost:", name.toString("latin1").slice(0, 200));
}

function isRefused(kind, name, reason, flags) {
    const [, words, offset] = /^(.*?) ?(\d*)$/.exec(reason);
    const { status, offset: got = 0 } = library.text(name, 1_000_000, flags);
    holds(kind, status === REASONS[words] && got === Number(offset), name.toString("latin1"), status, got);
}

function counts(name, flags) {
    const { status, ...all } = library.count(name, flags);
    if (status !== STATUS.OK) return;
    holds("counts", all.rows <= all.steps && Object.keys(MOST).every((it) => all[it] > 0 && all[it] <= MOST[it](name.length)), name.toString("latin1"), JSON.stringify(all));
}

const known = {
    text(flags, [detail, cost, symbol, text], kind) {
        const name = bytesOf(symbol);
        hasText(kind, name, Number(cost), flags | DETAILS[detail], (it) => it.equals(bytesOf(plain(text))));
        counts(name, flags);
    },
    long(flags, [detail, cost, symbol, length], kind) {
        hasText(kind, bytesOf(symbol), Number(cost), flags | DETAILS[detail], (it) => it.length === Number(length));
    },
    repeated(flags, [detail, cost, front, count, part, end, length], kind) {
        const name = bytesOf(front + part.repeat(Number(count)) + end);
        // the page reads no longer names
        if (name.length <= LONGEST_WORD) hasText(kind, name, Number(cost), flags | DETAILS[detail], (it) => it.length === Number(length));
    },
    refused(flags, [symbol, reason], kind) {
        if (isName(symbol)) isRefused(kind, bytesOf(symbol), reason, flags);
    },
    press(flags, [word, spelling], kind) {
        const { status, bytes = [], offset = 0 } = library.press(bytesOf(word), flags);
        const [, words, wanted] = /^(.*?) ?(\d*)$/.exec(spelling);
        if (isName(word.replace(/^__/, "_")) && words in REASONS) holds(kind, status === REASONS[words] && offset === Number(wanted), word, status, offset);
        else holds(kind, status === STATUS.OK && bytesOf(spelling).equals(Buffer.from(bytes)), word);
    },
    parts(flags, [symbol, what, text, parts], kind) {
        const found = library.parts(bytesOf(symbol), 1_000_000, flags | FLAG.WIDE | FLAG.LEGACY);
        const spelled = found.parts?.map(({ role, start, length, from, to }) => `${role}:${start}+${length}@${from}-${to}`).join(" ");
        holds(kind, found.status === STATUS.OK && found.kind === what && bytesOf(plain(text)).equals(Buffer.from(found.bytes)) && spelled === parts, symbol, found.kind, spelled);
        const pieces = piecesOf(found.bytes, found.parts);
        holds("pieces", joined(pieces) === new TextDecoder().decode(found.bytes), symbol);
        const stretches = stretchesOf(bytesOf(symbol), found.parts);
        holds("pieces", stretches.every(({ from, to }, i) => from === (i ? stretches[i - 1].to : 0) && from < to) && stretches.at(-1).to === symbol.length, symbol);
        const areSpelled = found.parts.every(({ from, to }) => from === to || (stretches.some((it) => it.from === from) && stretches.some((it) => it.to === to)));
        holds("pieces", areSpelled && found.parts.every(({ from, to }, i) => from === to || stretches.some(({ part }) => found.parts[part]?.from >= from && found.parts[part]?.to <= to)), symbol);
    },
    nameless(flags, [word], kind) {
        holds(kind, library.text(bytesOf(word), 100, flags).status === STATUS.NO_SYMBOL, word);
    },
};

for (const line of fs.readFileSync(rows, "latin1").split("\n")) {
    const [kind, ...fields] = line.split("\t");
    const [, by = "", name] = /^(?:(wide|legacy) )?(\S*)$/.exec(kind) ?? [];
    for (const flags of GRAMMARS[by]) known[name]?.(FLAG.UNDERSCORE | flags, fields, kind);
}
for (const kind of ["text", "refused", "wide text", "wide refused", "legacy text", "legacy refused", "press", "parts", "counts"]) holds("kinds", tried[kind] > 50, `too few rows ${kind}:`, tried[kind]);
console.log(`rows: ${Object.entries(tried).map(([kind, count]) => `${kind} ${count}`).join(", ")}`);

const all = fs.readFileSync(symbols);
const OF_CPP = Buffer.from(all.toString("latin1").replace(/^(?!_Z).*\n/gm, ""), "latin1");
const CHOICES = [
    [all, { legacy: true }, []], [all, { legacy: true, brief: true }, ["--brief"]], [all, { legacy: true, noParameters: true }, ["--no-params"]],
    [all, { legacy: true, brief: true, noParameters: true }, ["--brief", "--no-params"]],
    [OF_CPP, {}, ["--format", "gnu-v3"]],
];
for (const [log, options, words] of CHOICES) {
    const wanted = execFileSync(program, words, { input: log, maxBuffer: 1 << 30 });
    const [before, after] = [log, wanted].map((it) => it.toString("latin1").split("\n"));
    const replaced = before.filter((line, i) => line !== after[i]).length;
    for (const size of [4093, 1 << 16, 1 << 20]) {
        const began = performance.now();
        const filter = new PieceFilter(library, 1_000_000, flagsOf(options));
        const parts = [];
        for (let at = 0; at < log.length; at += size) parts.push(...filter.push(log.subarray(at, at + size)));
        parts.push(...filter.end());
        const speed = (log.length / (performance.now() - began) / 1000).toFixed(1);
        if (!Buffer.concat(parts).equals(wanted)) throw new Error(`not the program's text: ${words.join(" ")}, in pieces of ${size}`);
        const { tally } = filter;
        holds("tally", tally.words === before.length - 1 && tally.replaced === replaced && tally.refused === tally.words - replaced, JSON.stringify(tally), replaced);
        console.log(`${words.join(" ") || "in full"}, in pieces of ${size}: the program's text, ${speed} MB/s, ${tally.replaced} replaced, ${tally.refused} refused`);
    }
}

// The words that the page finds are those of the library, whatever a text consists of.
const NUMBERS = (() => {
    let state = 1;
    return (below) => {
        state = (Math.imul(state, 1103515245) + 12345) >>> 0;
        return (state >>> 8) % below;
    };
})();
const PARTS = [
    "_Z1fv", "_RNvC3foo3bar", "__Z1fv", "_Z1fY", "_ZL5café", "_Z2üv", ".text.", "\n", " ", "\\n", "\\", "\\u001b[", "\x1b[31;1m", "\x1b", "\x1b[K", "[0", ";",
    ":", "\\x1b", "\\t", "\\u00e9", "a", "9", "_", "$", ".", "...", "‘", "’", "é", "__imp_", "_GLOBAL__sub_I_", "_GLOBAL__D_", "self.", "_Zoom", ".rodata$", "💡",
];
const LONG = ["a".repeat(65_536), "0".repeat(70_000), ".".repeat(70_000), "_".repeat(65_537), "é".repeat(40_000), ".a".repeat(33_000), `_Z1f${"i".repeat(65_530)}`];
const options = { legacy: true };
const flags = flagsOf(options);
const textOf = (word) => {
    const { status, bytes } = library.text(Buffer.from(word), 1_000_000, flags);
    return status === STATUS.OK ? Buffer.from(bytes).toString() : undefined;
};
function byPage(text) {
    let [seen, made] = [0, ""];
    for (const { word, index } of namesOf(text, (word) => textOf(word) !== undefined)) {
        made += text.slice(seen, index) + (textOf(word) ?? word);
        seen = index + word.length;
    }
    return made + text.slice(seen);
}
function inPieces(pieces) {
    const filter = new PieceFilter(library, 1_000_000, flags);
    return Buffer.concat([...pieces.flatMap((it) => filter.push(it)), ...filter.end()]);
}
for (let turn = 0; turn < 6000; turn += 1) {
    const isLong = turn % 40 === 0;
    const parts = Array.from({ length: NUMBERS(30) }, () => PARTS[NUMBERS(PARTS.length)]);
    if (isLong) parts.splice(NUMBERS(parts.length + 1), 0, LONG[NUMBERS(LONG.length)]);
    const text = parts.join("");
    const given = Buffer.from(text);
    const wanted = Buffer.from(library.filter(given, 1_000_000, flags).bytes);
    holds("words", Buffer.from(byPage(text)).equals(wanted), JSON.stringify(text.slice(0, 300)), wanted.toString().slice(0, 300));
    for (const size of isLong ? [4096, 65_536, 1 << 20] : [1, 2, 3, 7]) {
        const pieces = Array.from({ length: Math.ceil(given.length / size) }, (_, i) => given.subarray(i * size, (i + 1) * size));
        holds("pieces", inPieces(pieces).equals(wanted), size, JSON.stringify(text.slice(0, 300)));
    }
}
const ZEROS = "0".repeat(70_000);
for (const pieces of [[`${ZEROS}.`, "_Zoom"], [`.${ZEROS}$`, "_Z1fv"], [`${ZEROS}_`, "_Z1fv"], ["é".repeat(40_000), "_Z1fv"], ["x\\", "n_Z1fv"], ["x\x1b[31;", "1m_Z1fv"]]) {
    const wanted = library.filter(Buffer.from(pieces.join("")), 1_000_000, flags).bytes;
    holds("pieces", inPieces(pieces.map((it) => Buffer.from(it))).equals(Buffer.from(wanted)), pieces.map((it) => JSON.stringify(it.slice(-20))));
}
for (const [text, wanted] of [
    [".text._ZN1A1fEv", ".text.A::f()"], ["‘_Z1fv’", "‘f()’"], ["関数_Z1fvで", "関数f()で"], ["_Z7größei", "größe(int)"], ["__imp__Z1fv", "__imp_f()"],
    ["DW.ref._ZTI1A", "DW.ref.typeinfo for A"], ["self._Zoom", "self._Zoom"],
]) holds("words", byPage(text) === wanted, text, byPage(text));

// A run of any length goes out as it comes in.
const run = new PieceFilter(library, 1_000_000, flags);
let given = 0;
for (let turn = 0; turn < 64; turn += 1) for (const part of run.push(new Uint8Array(1 << 20).fill(97))) given += part.length;
holds("pieces", given >= 63 << 20, "a run of 64 MiB:", given);

// A text needs more memory than there is, and then a name is answered as usual.
const doubled = `_Z1f1AIiiE${[..."0123456789ABCDEFGHIJKLMN"].map((it) => `S_IS${it}_S${it}_E`).join("")}`;
holds("memory", library.text(bytesOf(doubled), GREATEST_LIMIT, 0).status === STATUS.MEMORY, "a text of 537 million bytes");
holds("memory", Buffer.from(library.text(bytesOf("_Z1fv"), 100, 0).bytes).toString() === "f()", "a name after it");
const filter = new PieceFilter(library, GREATEST_LIMIT, 0);
const around = [`a _Z1fv ${doubled} _Z1gv\n`, "_RNvC3foo3bar", "X".repeat(LONGEST_WORD), " _Z1fv."].map(bytesOf);
const parts = Buffer.concat([...around.flatMap((it) => filter.push(it)), ...filter.end()].map((it) => Buffer.from(it))).toString();
holds("memory", parts === `a f() ${doubled} g()\n_RNvC3foo3bar${"X".repeat(LONGEST_WORD)} f().`, "around it", parts.length);
console.log(`module.mjs: ok, ${library.version}, at most ${library.memoryBytes >> 20} MiB of memory`);
