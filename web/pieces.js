// A text and its symbol in pieces, by the parts that the library gives.

const decoder = new TextDecoder();

/** The bytes of a text as strings and parts in turn. A part has its number, its role, and its own bytes likewise. */
export function piecesOf(bytes, parts) {
    const whole = { end: bytes.length, inside: [] };
    const open = [whole];
    let at = 0;
    const goesTo = (place) => {
        if (place > at) open.at(-1).inside.push(decoder.decode(bytes.subarray(at, place)));
        at = place;
    };
    const closes = (place) => {
        while (open.length > 1 && open.at(-1).end <= place) {
            goesTo(open.at(-1).end);
            open.pop();
        }
    };
    for (const [number, { role, start, length }] of parts.entries()) {
        if (!length) continue; // it isn't in the text
        closes(start);
        goesTo(start);
        const part = { number, role, end: start + length, inside: [] };
        open.at(-1).inside.push(part);
        open.push(part);
    }
    closes(bytes.length);
    goesTo(bytes.length);
    return whole.inside;
}

/** The text of pieces. */
export const textOf = (pieces) => pieces.map((it) => (typeof it === "string" ? it : textOf(it.inside))).join("");

/** The bytes of a symbol as stretches, at each end of what spells a part: where it is, its text, and the number of the part with the fewest
 *  bytes that it spells, if it spells one. */
export function stretchesOf(bytes, parts) {
    const places = [...new Set([0, bytes.length, ...parts.flatMap(({ from, to }) => [from, to])])].sort((a, b) => a - b);
    return places.slice(1).map((to, i) => {
        const from = places[i];
        let least;
        for (const [number, part] of parts.entries()) {
            const spells = part.from <= from && to <= part.to;
            if (spells && (least === undefined || part.to - part.from <= parts[least].to - parts[least].from)) least = number;
        }
        return { from, to, text: decoder.decode(bytes.subarray(from, to)), part: least };
    });
}

const LISTS = new Set(["parameters", "generic_arguments"]);
const LISTED = new Set(["parameter", "generic_argument"]);

/** Parts as they are listed: what each is, in words, with its number where it is one of a list; its text, and the bytes that spell it. */
export function listed(bytes, name, parts) {
    let count = 0;
    return parts.map(({ role, start, length, from, to }) => {
        if (LISTS.has(role)) count = 0;
        if (LISTED.has(role)) count += 1;
        const words = role.replaceAll("_", " ");
        return {
            role, from, to, called: LISTED.has(role) ? `${words} ${count}` : words,
            text: decoder.decode(bytes.subarray(start, start + length)), spelled: decoder.decode(name.subarray(from, to)),
        };
    });
}
