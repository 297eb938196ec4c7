/** What a text may cost by default: its bytes, and 1 for each item that it is put together from. */
export const DEFAULT_LIMIT: 1000000;

/** How names are read and shown. */
export interface Options {
    /** Leaves out template and generic arguments. */
    brief?: boolean;
    /** Leaves out what follows a C++ function's name, and its return type. */
    noParameters?: boolean;
    /** Reads newer and rarer C++ forms, too: true by default. */
    wide?: boolean;
    /** Shows Rust's older names as Rust paths: true by default. */
    legacy?: boolean;
    /** Shortens C++ names: std::vector<int>, std::string. Different names may have one short text. */
    short?: boolean;
    /** Keeps inline namespaces of std in short texts: different texts stay different. */
    keepInline?: boolean;
    /** What a text may cost, from 0 to 4,294,967,295. 25,000 is ample for names that someone else chose. */
    limit?: number;
}

/** Of a text's words that begin like symbols: how many there are, how many were replaced by a text, and how many weren't. */
export interface Tally {
    words: number;
    replaced: number;
    refused: number;
}

/** The work that a symbol of n bytes made: at most 4n + 4 rows, 4n + 8 nodes and 32n + 48 steps. */
export interface Counts {
    rows: number;
    nodes: number;
    steps: number;
}

/** What a part of a text is. Later versions may have more. */
export type Role =
    | "special" | "return_type" | "scope" | "base" | "abi_tag" | "generic_arguments" | "generic_argument" | "parameters" | "parameter"
    | "qualifiers" | "object" | "suffix" | "crate" | "impl" | "self_type" | "trait" | "hash" | "instantiating_crate";

/** A part of a text: what it is; where it starts in the text, and how many bytes it has; and where the bytes of the name that spell it start
 *  and end. An underscore that was dropped counts. A part that the text doesn't have, as the hash of an older Rust name, is at the text's end,
 *  with no bytes of it. */
export interface Part {
    role: Role;
    start: number;
    length: number;
    from: number;
    to: number;
}

/** A name's text, what the name is (as "function", "constructor" or "vtable"), and the parts of the text: each is within another or after it,
 *  and none starts before the one before it. */
export interface Parsed {
    text: string;
    kind: string;
    parts: Part[];
}

/** Why a name has no text. */
export class Refused extends Error {
    /** One of the numbers of symdemangle_status. */
    readonly status: number;
    /** How many bytes are before the first bad one. */
    readonly offset: number;
}

/** The text of a name, or the name where it has none. */
export function demangle(name: string | Uint8Array, options?: Options): string;
/** The text of a name; throws Refused where it has none. */
export function tryDemangle(name: string | Uint8Array, options?: Options): string;
/** The texts of many names, or the names where they have none. */
export function demangleAll(names: Iterable<string | Uint8Array>, options?: Options): string[];
/** A text with each word that is a symbol replaced by its text. */
export function filterText(text: string, options?: Options): string;
/** Likewise for bytes, with the tally of the text's words. */
export function filterBytes(text: string | Uint8Array, options?: Options): { bytes: Uint8Array; tally: Tally };
/** The text of a name with its parts; throws Refused where it has none. Short texts have no parts. */
export function parts(name: string | Uint8Array, options?: Options): Parsed;
/** The spelling of a name in which each part that repeats is a reference, so that different spellings of the same symbol become equal;
 *  throws Refused where there is none. With `wide` newer and rarer C++ forms are spelled, too, as far as they have a spelling. */
export function press(name: string | Uint8Array, options?: { wide?: boolean }): string;
/** The work that reading a name takes; throws Refused where it isn't read. */
export function counts(name: string | Uint8Array, options?: { wide?: boolean }): Counts;
/** The library's version, as "0.1.0". */
export function version(): string;
