// A card for each name: its text, or why it is refused and where; on request what reading it took, and its pressed spelling.
import { addressOf } from "./address.js";
import { GREATEST_LIMIT, MOST, STATUS } from "./library.js";
import { textOf } from "./pieces.js";
import { $, copy, cut, element, many, n, visible } from "./show.js";

const NEAR = 600; // characters around a marked place that are shown
const SHOWN_SYMBOL = 2000;
const OPEN_AT_ONCE = 4096; // bytes of a name that stands alone

/** Why a name is refused: in a few words, and in a sentence. */
export function why({ status, offset, length, word, unit, message }, { limit }) {
    switch (status) {
        case STATUS.MALFORMED:
            if (offset >= length) return ["Incomplete", `The name breaks off after ${many(length, "byte")}: more has to follow.`];
            return [`Malformed at offset ${n(offset)}`, `No name goes on with “${visible([...word.slice(unit)][0])}” there.`];
        case STATUS.BAD_REFERENCE: return [`Bad reference at offset ${n(offset)}`, "It refers to a part that the name doesn’t have before it."];
        case STATUS.BAD_VALUE: return [`Bad number at offset ${n(offset)}`, "It is out of range."];
        case STATUS.TOO_LONG: return ["Too long", `The text would cost more than the limit of ${n(limit)}.`];
        case STATUS.BUFFER: return ["Too long", "The text is too large for this page."];
        case STATUS.MEMORY: return ["Out of memory", "The browser gave too little for this name."];
        case STATUS.SIZE: return ["Too long", "Words of more than 65,536 bytes aren’t read."];
        default: return ["Refused", message];
    }
}

/** The symbol with the place of a refusal marked. */
function marked({ word, unit, offset }) {
    const bad = [...word.slice(unit, unit + 2)][0] ?? "";
    const before = word.slice(0, unit);
    const after = word.slice(unit + bad.length);
    const mark = element("mark", bad ? "" : "end", visible(bad), element("span", "away", bad ? ` (offset ${offset})` : " (the end)"));
    return [
        before.length > NEAR ? `… ${visible(before.slice(-NEAR))}` : visible(before),
        mark,
        element("span", "rest", after.length > NEAR ? `${visible(after.slice(0, NEAR))} …` : visible(after)),
    ];
}

/** The card of a name; `asks` sends a question, `changes` sets an option. */
export function card(name, number, options, { asksDetails, changes }) {
    const made = $("card").content.cloneNode(true).firstElementChild;
    const part = (css) => made.querySelector(css);
    const isRead = name.status === STATUS.OK;
    made.id = `name-${number}`;
    made.classList.toggle("refused", !isRead);
    part(".said").hidden = !isRead;
    part(".why").hidden = isRead;
    if (isRead) part(".said").textContent = cut(name.text);
    else {
        const [short, sentence] = why(name, options);
        part(".why").append(element("strong", "", `${short}.`), ` ${sentence}`);
    }
    part(".symbol").append(...(name.offset === undefined ? [cut(name.word, SHOWN_SYMBOL)] : marked(name)));
    part(".language").textContent = name.isRust ? "Rust" : "C++";
    part(".facts").textContent = [
        many(name.length, "byte"),
        isRead && `${many(name.text.length, "character")} of text`,
        name.times > 1 && `${n(name.times)} times`,
    ].filter(Boolean).join(" · ");
    part(".copy").onclick = ({ target }) => copy(target, name.text ?? name.word);
    part(".copy").setAttribute("aria-label", isRead ? "Copy this text" : "Copy this name");
    part(".link").href = addressOf(name.word, options);
    part(".link").setAttribute("aria-label", "A link to this name, as it is shown here");
    part(".raise").hidden = name.status !== STATUS.TOO_LONG || options.limit >= 1e9;
    part(".raise").onclick = () => changes("limit", Math.min(GREATEST_LIMIT, Math.max(1000, options.limit * 10)));
    const details = part("details");
    details.hidden = !isRead && name.status !== STATUS.TOO_LONG;
    details.ontoggle = () => {
        if (!details.open || details.dataset.asked) return;
        details.dataset.asked = "yes";
        part(".inside").textContent = "…";
        asksDetails(part(".inside"), name.word);
    };
    return made;
}

/** Whether a name that stands alone shows its details at once. */
export const opensAtOnce = (name) => name.length < OPEN_AT_ONCE;

/** A part in a few words: what it is, its text, and which bytes of the symbol spell it. */
const inWords = ({ called, text, from, to }) => `${called}: ${text ? cut(text, NEAR) : "not in the text"}, bytes ${n(from)} to ${n(to)}`;

/** A part in a few words, to be shown next to the text, in which the part is lit. */
const beside = ({ called, text, from, to }) => `${called}: bytes ${n(from)} to ${n(to)}${text ? "" : ", not in the text"}`;

/** A piece of a text; `spans` gets the element of each part, by its number. */
function shownPiece(piece, spans) {
    if (typeof piece === "string") return visible(piece);
    const span = element("span", `part ${piece.role}`, ...piece.inside.map((it) => shownPiece(it, spans)));
    span.dataset.part = piece.number;
    spans[piece.number] = span;
    return span;
}

/** A stretch of a symbol, which spells a part or none. */
function shownStretch({ text, part }, parts) {
    if (part === undefined) return element("span", "stretch", visible(text));
    const span = element("span", `stretch ${parts[part].role}`, visible(text));
    span.dataset.part = part;
    return span;
}

/** An entry of the list of parts. */
function shownEntry(part, number) {
    const entry = element("li", "", element("span", "role", part.called), " ", element("code", "", part.text ? cut(part.text, NEAR) : "–"), " ");
    entry.append(element("span", "bytes", `${n(part.from)}–${n(part.to)} `, element("code", "", cut(part.spelled, NEAR))));
    entry.dataset.part = number;
    entry.tabIndex = number ? -1 : 0;
    entry.setAttribute("role", "option");
    entry.setAttribute("aria-label", inWords(part));
    return entry;
}

const STEPS = { ArrowDown: 1, ArrowRight: 1, ArrowUp: -1, ArrowLeft: -1, Home: -Infinity, End: Infinity };

/** Tells the parts of a card's text apart, with the stretches of its symbol that spell them, and lists them; where the text is a short one, the
 *  full text is below it, and has the parts. A part that is pointed at, chosen or has the focus in one of the three is lit in all. */
export function showParts(card, { kind, parts, pieces, stretches }) {
    const spans = [];
    const of = (css) => card.querySelector(css);
    const [said, symbol, place] = [of(".said"), of(".symbol"), of(".parts")];
    const isShort = said.textContent !== textOf(pieces);
    const words = isShort ? of(".full") : said;
    words.replaceChildren(...pieces.map((it) => shownPiece(it, spans)));
    words.hidden = false;
    const cells = stretches.map((it) => shownStretch(it, parts));
    symbol.replaceChildren(...cells);
    const entries = parts.map(shownEntry);
    const list = element("ul", "", ...entries);
    list.setAttribute("role", "listbox");
    list.setAttribute("aria-label", "Parts of the text");
    place.replaceChildren(element("p", "", "What it names: ", element("strong", "", kind.replaceAll("_", " "))), list);
    place.hidden = of(".told").hidden = false;

    let chosen; // the part that is lit where none is pointed at
    const lights = (number) => {
        const { from, to } = parts[number] ?? { from: 0, to: 0 };
        for (const it of [...spans, ...entries]) it?.classList.toggle("lit", Number(it.dataset.part) === number);
        for (const [i, it] of cells.entries()) it.classList.toggle("lit", from <= stretches[i].from && stretches[i].to <= to);
        of(".told").textContent = number === undefined ? "" : beside(parts[number]);
    };
    const chooses = (number) => {
        chosen = number;
        for (const [i, it] of entries.entries()) {
            it.tabIndex = i === (number ?? 0) ? 0 : -1;
            it.setAttribute("aria-selected", i === number);
        }
        lights(number);
    };
    const partAt = ({ target }) => {
        const it = target.closest("[data-part]");
        return it ? Number(it.dataset.part) : undefined;
    };
    for (const area of [words, symbol, list]) {
        area.addEventListener("pointerover", (event) => lights(partAt(event) ?? chosen));
        area.addEventListener("pointerleave", () => lights(chosen));
        area.addEventListener("click", (event) => {
            const number = partAt(event);
            chooses(area !== list && number === chosen ? undefined : number);
            if (area !== list) of(".spoken").textContent = chosen === undefined ? "" : inWords(parts[chosen]);
        });
    }
    list.addEventListener("focusin", (event) => chooses(partAt(event)));
    list.addEventListener("focusout", ({ relatedTarget }) => { if (!list.contains(relatedTarget)) chooses(); });
    list.addEventListener("keydown", (event) => {
        if (event.key === "Escape") return chooses();
        const step = STEPS[event.key];
        if (!step) return;
        event.preventDefault();
        entries[Math.min(entries.length - 1, Math.max(0, partAt(event) + step))].focus();
    });
    chooses();
}

/** Puts the counts and the pressed spelling in their place. */
export function showDetails(place, { counts, pressed, why: reason, length }, word) {
    const rows = [];
    const row = (title, hint, ...value) => rows.push(element("div", "", element("dt", "", title), element("dd", "", ...value, element("small", "", hint))));
    if (counts.status === STATUS.OK) {
        const bound = (what) => `at most ${n(MOST[what](length))} for ${many(length, "byte")}`;
        row("Steps of reading", bound("steps"), n(counts.steps));
        row("Rows of its tree", bound("rows"), n(counts.rows));
        row("Nodes of different parts", bound("nodes"), n(counts.nodes));
    } else row("Counts", "", "not counted");
    if (pressed === null) row("Pressed spelling", "", `none: ${reason}`);
    else {
        const isSame = pressed === word;
        row(isSame ? "Pressed spelling" : `Pressed spelling, ${many(pressed.length, "byte")}`,
            "every part that repeats is a reference, so names of one thing have the same bytes",
            isSame ? "the same as above" : element("code", "", cut(pressed, SHOWN_SYMBOL)));
        rows.at(-1).className = "wide";
    }
    place.replaceChildren(element("dl", "", ...rows));
}
