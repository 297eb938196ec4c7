// The calls of the package over those of library.js, for strings and bytes.
import { DEFAULT_LIMIT, FLAG, GREATEST_LIMIT, Library, STATUS } from "./library.js";

export { DEFAULT_LIMIT };

/** Why a name has no text: the library's status, and how many bytes are before the first bad one. */
export class Refused extends Error {
    constructor(status, offset) {
        const message = library.message(status);
        super(status <= STATUS.BAD_VALUE ? `${message} at ${offset}` : message);
        this.name = "Refused";
        this.status = status;
        this.offset = offset;
    }
}

const KEYS = {
    brief: [false, FLAG.BRIEF], noParameters: [false, FLAG.NO_PARAMETERS], wide: [true, FLAG.WIDE], legacy: [true, FLAG.LEGACY],
    short: [false, FLAG.SHORT], keepInline: [false, FLAG.KEEP_INLINE],
};
// Names in a text are found within ‘quotes’, too.
const WORDS = FLAG.WITHIN;
const encoder = new TextEncoder();
const decoder = new TextDecoder("utf-8", { ignoreBOM: true });
let library;

/** Makes the calls below those of a module. */
export function use(module) {
    library = new Library(module);
}

function bytesOf(name) {
    if (typeof name === "string") return encoder.encode(name);
    if (name instanceof Uint8Array) return name;
    throw new TypeError("a name is a string or a Uint8Array");
}

function flagsOf(options) {
    const unknown = Object.keys(options).find((key) => !(key in KEYS) && key !== "limit");
    if (unknown) throw new TypeError(`there is no option ${unknown}`);
    return Object.entries(KEYS).reduce((sum, [key, [usual, flag]]) => sum | ((options[key] ?? usual) ? flag : 0), FLAG.UNDERSCORE);
}

function limitOf({ limit = DEFAULT_LIMIT }) {
    if (Number.isInteger(limit) && limit >= 0 && limit <= GREATEST_LIMIT) return limit;
    throw new RangeError(`a limit is a number from 0 to ${GREATEST_LIMIT}`);
}

/** What a call answered, where its status is 0. */
function answered(answer) {
    if (answer.status === STATUS.OK) return answer;
    if (answer.status === STATUS.MEMORY) throw new RangeError("out of memory");
    throw new Refused(answer.status, answer.offset ?? 0);
}

/** The text of a name; Refused says why it has none. */
export function tryDemangle(name, options = {}) {
    return decoder.decode(answered(library.text(bytesOf(name), limitOf(options), flagsOf(options))).bytes);
}

/** The text of a name, or the name where it has none. */
export function demangle(name, options = {}) {
    try {
        return tryDemangle(name, options);
    } catch (error) {
        if (!(error instanceof Refused)) throw error;
        return typeof name === "string" ? name : decoder.decode(name);
    }
}

/** The texts of many names, or the names where they have none. */
export function demangleAll(names, options = {}) {
    return Array.from(names, (name) => demangle(name, options));
}

/** A text with each word that is a symbol replaced by its text, and how many words there were, replaced and refused ones. */
export function filterBytes(text, options = {}) {
    const { bytes, tally } = answered(library.filter(bytesOf(text), limitOf(options), flagsOf(options) | WORDS));
    return { bytes, tally };
}

/** Likewise for a string. */
export function filterText(text, options = {}) {
    return decoder.decode(filterBytes(text, options).bytes);
}

/** The text of a name, what the name is, and the parts of its text: how many bytes of the text are before each, how many it has, and which
 *  bytes of the name spell it. Refused says why there is none. */
export function parts(name, options = {}) {
    const { bytes, kind, parts } = answered(library.parts(bytesOf(name), limitOf(options), flagsOf(options)));
    return { text: decoder.decode(bytes), kind, parts };
}

/** The spelling of a name in which each part that repeats is a reference; Refused says why there is none. */
export function press(name, { wide = false } = {}) {
    return decoder.decode(answered(library.press(bytesOf(name), FLAG.UNDERSCORE | (wide ? FLAG.WIDE : 0))).bytes);
}

/** The work that reading a name takes; Refused says why it isn't read. */
export function counts(name, { wide = true } = {}) {
    const { rows, nodes, steps } = answered(library.count(bytesOf(name), flagsOf({ wide })));
    return { rows, nodes, steps };
}

/** The library's version. */
export function version() {
    return library.version;
}
