// The calls of callers/c/symdemangle.h over the WebAssembly module. It runs in a worker, and in Node for the tests.
//
// What is lent to a call lies after the module's own data, and is laid out anew for each call: its result, its bytes, its buffer, its parts, and
// the block from which its lists come. A call gives back all memory by its end. Where the buffer or the block is too small, it is
// made larger and the call is repeated.

export const STATUS = {
    OK: 0, MALFORMED: 1, BAD_REFERENCE: 2, BAD_VALUE: 3, TOO_LONG: 4, MEMORY: 5, BUFFER: 6, SIZE: 7, FLAGS: 8, NO_SYMBOL: 11,
    NO_SPELLING: 12,
};
export const FLAG = { BRIEF: 1, NO_PARAMETERS: 2, WIDE: 4, LEGACY: 8, UNDERSCORE: 16, WITHIN: 64, SHORT: 256, KEEP_INLINE: 512 };
export const DEFAULT_LIMIT = 1_000_000;
export const GREATEST_LIMIT = 4_294_967_295;
/** What reading a name of n bytes makes at most. */
export const MOST = { rows: (n) => 4 * n + 4, nodes: (n) => 4 * n + 8, steps: (n) => 32 * n + 48 };
/** The filter leaves longer words as they are. */
export const LONGEST_WORD = 65_536;

const PAGE = 65_536; // the unit of a WebAssembly memory
const LEAST_BLOCK = 1 << 20;
const MOST_BLOCK = 1 << 28;
const MOST_BUFFER = 1 << 26;
const SIZE_OF_RESULT = 32; // a name's; a text's has 16
const SIZE_OF_FIGURES = 32; // a tally or counts
const SIZE_OF_PART = 20;
const MOST_PARTS = 1 << 20;
const up = (count, to) => Math.ceil(count / to) * to;

export class Library {
    #module;
    #calls;
    #base;
    #capacity = PAGE;
    #partCapacity = 256;
    #block = LEAST_BLOCK;

    /** @param {WebAssembly.Module} module */
    constructor(module) {
        this.#module = module;
        this.#start();
    }

    #start() {
        this.#calls = new WebAssembly.Instance(this.#module).exports;
        this.#base = up(Number(this.#calls.__heap_base.value), 16);
    }

    get memoryBytes() {
        return this.#calls.memory.buffer.byteLength;
    }

    #reaches(size) {
        const pages = Math.ceil((size - this.memoryBytes) / PAGE);
        try {
            if (pages > 0) this.#calls.memory.grow(pages);
            return true;
        } catch {
            return false;
        }
    }

    /** Lays out what a call is lent, `call`s with the places, and answers its status, offset, bytes and figures; for a call that finds a
     *  name's parts, also how many there are. */
    #run(given, call, hasParts = false) {
        for (;;) {
            const result = this.#base;
            const figures = result + SIZE_OF_RESULT;
            const bytes = figures + SIZE_OF_FIGURES;
            const buffer = up(bytes + given.length + 1, 16);
            const parts = buffer + up(this.#capacity, 16);
            const block = parts + up(this.#partCapacity * SIZE_OF_PART, 16);
            if (!this.#reaches(block + this.#block)) return { status: STATUS.MEMORY };
            const memory = this.#calls.memory.buffer;
            new Uint8Array(memory).fill(0, result, bytes).set(given, bytes);
            let status;
            try {
                this.#calls.symdemangle_arena_set(BigInt(block), BigInt(this.#block));
                status = call(this.#calls, {
                    result: BigInt(result), figures: BigInt(figures), bytes: BigInt(bytes), length: BigInt(given.length),
                    buffer: BigInt(buffer), capacity: BigInt(this.#capacity), parts: BigInt(parts), partCapacity: BigInt(this.#partCapacity),
                });
            } catch (error) {
                this.#start(); // a trap, which no proved call has: the memory may be half written
                throw error;
            }
            const view = new DataView(memory);
            const length = Number(view.getBigUint64(result, true));
            const count = hasParts ? Number(view.getBigUint64(result + 8, true)) : 0;
            if (status === STATUS.BUFFER && length <= MOST_BUFFER && count <= MOST_PARTS) {
                this.#capacity = Math.max(this.#capacity, up(length, PAGE));
                this.#partCapacity = Math.max(this.#partCapacity, count);
            } else if (status === STATUS.MEMORY && this.#block < MOST_BLOCK) this.#block *= 4;
            else return { status, length, count, offset: view.getUint32(result + 8, true), memory, view, result, buffer, parts, figures };
        }
    }

    #bytes({ status, offset, length, memory, buffer }) {
        return { status, offset, bytes: status === STATUS.OK ? new Uint8Array(memory.slice(buffer, buffer + length)) : undefined };
    }

    /** The text of a name. */
    text(name, limit, flags) {
        return this.#bytes(this.#run(name, (calls, at) =>
            calls.symdemangle_text(at.bytes, at.length, limit, flags, at.buffer, at.capacity, at.result)));
    }

    /** The text of a name, with what the name is and the parts of its text, each with its role, its bytes of the text, and the bytes of the name
     *  that spell it. */
    parts(name, limit, flags) {
        const answer = this.#run(name, (calls, at) => calls.symdemangle_parts(
            at.bytes, at.length, limit, flags, at.buffer, at.capacity, at.parts, at.partCapacity, at.result), true);
        const { status, count, view, result } = answer;
        if (status !== STATUS.OK) return { status, offset: view?.getUint32(result + 16, true) };
        const kind = this.#word("kind", view.getUint32(result + 24, true));
        const parts = Array.from({ length: count }, (_, number) => {
            const at = answer.parts + number * SIZE_OF_PART;
            const [role, start, length, from, to] = [0, 4, 8, 12, 16].map((i) => view.getUint32(at + i, true));
            return { role: this.#word("role", role), start, length, from, to };
        });
        return { ...this.#bytes(answer), kind, parts };
    }

    /** A text with each word that is a name replaced, and how many words, replaced and refused ones there were. */
    filter(text, limit, flags) {
        const answer = this.#run(text, (calls, at) =>
            calls.symdemangle_filter(at.bytes, at.length, limit, flags, at.buffer, at.capacity, at.figures, at.result));
        if (answer.status !== STATUS.OK) return { status: answer.status };
        const [words, replaced, refused] = [0, 8, 16].map((i) => Number(answer.view.getBigUint64(answer.figures + i, true)));
        return { ...this.#bytes(answer), tally: { words, replaced, refused } };
    }

    /** The rows, nodes and steps of reading a name. */
    count(name, flags) {
        const { status, offset, view, figures } = this.#run(name, (calls, at) =>
            calls.symdemangle_count(at.bytes, at.length, flags, at.figures, at.result));
        if (status !== STATUS.OK) return { status, offset };
        const [rows, nodes, steps] = [0, 4, 8].map((i) => view.getUint32(figures + i, true));
        return { status, rows, nodes, steps };
    }

    /** The pressed spelling of a name. */
    press(name, flags) {
        return this.#bytes(this.#run(name, (calls, at) =>
            calls.symdemangle_press(at.bytes, at.length, flags, at.buffer, at.capacity, at.result)));
    }

    /** What a status says, in the library's words. */
    message(status) {
        return this.#word("message", status);
    }

    /** The library's words for a number of a kind: a message, a role or a kind. */
    #word(of, number) {
        const from = Number(this.#calls[`symdemangle_${of}`](number));
        const memory = new Uint8Array(this.#calls.memory.buffer);
        return new TextDecoder().decode(memory.slice(from, memory.indexOf(0, from)));
    }

    get version() {
        const all = this.#calls.symdemangle_version();
        return [Math.floor(all / 1_000_000), Math.floor(all / 1000) % 1000, all % 1000].join(".");
    }

    /** Whether this library has a flag. */
    knows(flag) {
        return this.text(new TextEncoder().encode("_Z1fv"), DEFAULT_LIMIT, flag).status !== STATUS.FLAGS;
    }
}
