// Words as the program demangle takes them, and texts that are filtered in pieces.
import { FLAG, LONGEST_WORD, STATUS } from "./library.js";

// The escapes whose letters belong to no run: of a colour, of a line's end, and of a character's number.
const ESCAPES = /(?:\x1b|\\e|\\033|\\x1[bB]|\\u001[bB])\[[0-9;:]*[A-Za-z]|\\[nrt]|\\u[0-9A-Fa-f]{4}|\\x[0-9A-Fa-f]{2}/y;
const RUN_OR_ESCAPE = new RegExp(`${ESCAPES.source}|[A-Za-z0-9_.$\\u0080-\\uffff]+`, "g");
// What compilers and linkers put before a name.
const FRONT = /__imp_|_GLOBAL__(?:sub_)?[ID]_/y;
const MARK = /__?[ZR]/y;
// How a name within source code continues.
const MARK_OF_MEMBER = /__?(?:Z[A-Z0-9]|R[IMNXY])/y;

/** Whether a word begins as a name does. */
export const isName = (word) => /^__?[ZR]/.test(word);

const isAscii = (letter) => letter < "\u0080";
const isDot = (letter) => letter === ".";
const isDivider = (letter) => letter === "." || letter === "$";

/** A word without the letters of a kind at its end. */
function without(word, isOf) {
    let end = word.length;
    while (end > 0 && isOf(word[end - 1])) end -= 1;
    return word.slice(0, end);
}

/** How long a pattern's match at a place of a text is, 0 where there is none. */
function matches(pattern, text, at) {
    pattern.lastIndex = at;
    return pattern.exec(text)?.[0].length ?? 0;
}

/** Where the word of a run begins; nothing where the run has none. */
function wordAt(run) {
    let stretch = 0; // where the part that is ASCII begins
    let first; // the first underscore with which a word may begin
    for (let at = 0; at < run.length; at += 1) {
        if (!isAscii(run[at])) stretch = at + 1;
        else if (run[at] === "_" && (at === stretch || isDivider(run[at - 1]))) {
            first ??= at;
            if (at === first && isTooLong(run.slice(at))) return undefined;
            const name = at + matches(FRONT, run, at);
            const isOpen = at === stretch || run[stretch] === ".";
            if (isOpen ? matches(MARK, run, name) : isDot(run[at - 1]) && matches(MARK_OF_MEMBER, run, name)) return name;
        }
    }
    return undefined;
}

/** Whether a word has more bytes than the filter reads. */
function isTooLong(run) {
    const word = without(run, isDot);
    return word.length > LONGEST_WORD || (3 * word.length > LONGEST_WORD && new TextEncoder().encode(word).length > LONGEST_WORD);
}

/** The names of a word, with their places in it: the word without the dots and the letters beyond ASCII at its end, if that is read;
 * otherwise the whole word, if it is read; otherwise its ASCII parts that are read; and if there are none, the word. */
function namesIn(word, isRead) {
    const front = without(word, (letter) => isDot(letter) || !isAscii(letter));
    if (isRead(front)) return [[front, 0]];
    if (front === word && [...word].every(isAscii)) return [[word, 0]];
    if (front !== word && isRead(word)) return [[word, 0]];
    const parts = [...word.matchAll(/[\0-\x7f]+/g)].map(({ 0: part, index }) => [without(part, isDot), index]);
    const read = parts.filter(([part]) => isName(part) && isRead(part));
    return read.length ? read : [[word, 0]];
}

/** The names of a text, each with its place. `isRead` says whether a name has a text. */
export function* namesOf(text, isRead) {
    for (const { 0: run, index } of text.matchAll(RUN_OR_ESCAPE)) {
        if (run[0] === "\\" || run[0] === "\x1b") continue;
        const begin = wordAt(run);
        if (begin === undefined) continue;
        for (const [word, at] of namesIn(without(run.slice(begin), isDot), isRead)) yield { word, index: index + begin + at };
    }
}

// What a byte is to a cut: of a run, the first of an escape, within the escape of a colour, or none of these.
const [RUN, ESCAPE, COLOUR, BREAK] = [0, 1, 2, 3];
const KINDS = Uint8Array.from({ length: 256 }, (_, byte) => {
    const letter = String.fromCharCode(byte);
    if (byte >= 0x80 || /[A-Za-z0-9_.$]/.test(letter)) return RUN;
    return "\\\x1b".includes(letter) ? ESCAPE : "[;:".includes(letter) ? COLOUR : BREAK;
});

/** Where the run at the end of a text begins: the text's end, where there is no such run. */
function beforeRun(bytes) {
    let end = bytes.length;
    while (end > 0 && KINDS[bytes[end - 1]] === RUN) end -= 1;
    return end;
}

/** The last place where no escape can be open: after a byte that is in no run and no escape, or before an escape; nothing where there is none. */
function lastCut(bytes) {
    for (let at = bytes.length; at > 0; at -= 1) {
        const kind = KINDS[bytes[at - 1]];
        if (kind === BREAK) return at;
        if (kind === ESCAPE) return at - 1;
    }
    return undefined;
}

/** The first underscore of a run with which a word may begin, or the run's end. */
function firstOpen(run) {
    for (let at = run.indexOf(95); at >= 0; at = run.indexOf(95, at + 1)) {
        if (at === 0 || run[at - 1] >= 0x80 || run[at - 1] === 46 || run[at - 1] === 36) return at;
    }
    return run.length;
}

/** A few bytes after which words begin as they do after a run in which none may begin. */
function short(run) {
    let begin = run.length;
    while (begin > 0 && run[begin - 1] < 0x80) begin -= 1;
    return begin < run.length ? Uint8Array.of(run[begin], 97, run.at(-1)) : run.slice(-1);
}

/** Filters a stream of bytes in pieces: the bytes are those of the whole filtered at once. It holds a piece, and a run of up to twice the
 * longest word. */
export class PieceFilter {
    tally = { words: 0, replaced: 0, refused: 0 };
    #library;
    #limit;
    #flags;
    #held = new Uint8Array();
    #written = 0; // how many bytes at the front of these were written before
    #passes = false; // whether the rest of a run goes out as it is

    constructor(library, limit, flags) {
        this.#library = library;
        this.#limit = limit;
        this.#flags = flags;
    }

    /** The filtered bytes, in parts, of what a piece completes. */
    push(piece) {
        const out = [];
        const front = this.#passes ? this.#pass(piece, out) : 0;
        const own = piece.subarray(front);
        const at = this.#held.length;
        const cut = lastCut(own);
        this.#held = joined([this.#held, own]);
        if (cut !== undefined) this.#take(at + cut, out);
        if (KINDS[this.#held[0]] !== ESCAPE) this.#take(beforeRun(this.#held), out);
        if (this.#held.length > LONGEST_WORD) this.#cutRun(out);
        return out;
    }

    /** The filtered bytes of what is left. */
    end() {
        const out = [];
        this.#take(this.#held.length, out);
        return out;
    }

    #take(length, out) {
        if (!length) return;
        const [first, ...others] = this.#filtered(this.#held.slice(0, length));
        out.push(first.subarray(this.#written), ...others);
        this.#held = this.#held.slice(length);
        this.#written = 0;
    }

    /** How much of a piece belongs to the run before it, which goes out as it is. */
    #pass(piece, out) {
        let end = 0;
        while (end < piece.length && KINDS[piece[end]] === RUN) end += 1;
        this.#passes = end === piece.length;
        out.push(piece.slice(0, end));
        return end;
    }

    /** Gives out what no word of a long run can need: up to where one may begin, or all where that would be too long. */
    #cutRun(out) {
        const front = new TextDecoder("latin1").decode(this.#held);
        this.#take(matches(ESCAPES, front, 0), out);
        this.#take(beforeRun(this.#held), out);
        const run = this.#held;
        if (run.length <= LONGEST_WORD) return;
        let open = firstOpen(run);
        let end = run.length;
        while (end > open && run[end - 1] === 46) end -= 1;
        this.#passes = end - open > LONGEST_WORD || run.length - open > 2 * LONGEST_WORD;
        if (this.#passes) open = run.length;
        out.push(run.slice(this.#written, open));
        const context = this.#passes || !open ? new Uint8Array() : short(run.subarray(0, open));
        this.#held = joined([context, run.subarray(open)]);
        this.#written = context.length;
    }

    #filtered(bytes) {
        const { status, bytes: text, tally } = this.#library.filter(bytes, this.#limit, this.#flags);
        if (status === STATUS.OK) {
            for (const name in tally) this.tally[name] += tally[name];
            return [text];
        }
        // Too much text at once: half of it, unless that is one word, which stays as it is.
        const cut = placeBetween(bytes);
        if (cut === 0) {
            this.tally.words += 1;
            this.tally.refused += 1;
            return [bytes];
        }
        return [...this.#filtered(bytes.slice(0, cut)), ...this.#filtered(bytes.slice(cut))];
    }
}

/** A place near the middle where no escape can be open; otherwise one between words; 0 where there is only one word. */
function placeBetween(bytes) {
    const middle = bytes.length >> 1;
    for (let cut = middle; cut < bytes.length; cut += 1) if (KINDS[bytes[cut]] === BREAK || KINDS[bytes[cut]] === ESCAPE) return cut;
    const before = lastCut(bytes.subarray(0, middle));
    return before || beforeRun(bytes.subarray(0, bytes.length - 1));
}

function joined(parts) {
    const all = new Uint8Array(parts.reduce((sum, it) => sum + it.length, 0));
    let at = 0;
    for (const it of parts) {
        all.set(it, at);
        at += it.length;
    }
    return all;
}

/** The flags of the page's options: always the wide grammar and demangle's words. */
export const flagsOf = (options) =>
    FLAG.UNDERSCORE | FLAG.WIDE | FLAG.WITHIN |
    (options.brief ? FLAG.BRIEF : 0) |
    (options.noParameters ? FLAG.NO_PARAMETERS : 0) |
    (options.short ? FLAG.SHORT : 0) |
    (options.legacy ? FLAG.LEGACY : 0);
