// The page: what is typed, pasted or dropped goes to the worker, and its answers are shown.
import { fromAddress } from "./address.js";
import { card, opensAtOnce, showDetails, showParts, why } from "./cards.js";
import { endJob, failJob, finishJob, isCurrent, showProgress, startJob } from "./job.js";
import { DEFAULT_LIMIT, GREATEST_LIMIT, STATUS } from "./library.js";
import { $, SHOWN_TEXT, copy, cut, element, inTime, many, n, save, visible } from "./show.js";

const SHOWN_WHOLE = 100_000; // characters of the whole text that are laid out
const SHOWN_NAMES = 100;
const MORE_NAMES = 400;
const TOLD_APART = 4096; // characters of a text whose parts are told apart
const LONG_PASTE = 1_000_000; // characters from which a paste is filtered as a file is, since laying it out takes long
const MOST_ROWS = 18;
const PATIENCE = 300; // ms after which work is reported

const EXAMPLE = `thread 'main' panicked at src/main.rs:12:
   4: _RNvMs_NtCs1234_4demo5queueINtB4_5QueuejE4push
   5: _ZNSt6vectorIiSaIiEE9push_backEOi+0x2a
   6: _ZN4demo5cacheIPKcE6lookupERKNSt7__cxx1112basic_stringIcSt11char_traitsIcESaIcEEE
   7: _ZN4demo5paintEv.cold
   8: _ZN4demo4mainES7_
   9: main
ld: undefined reference to \`_ZTV6Widget'
`;

const input = $("input");
const form = $("options");
const controls = form.elements;
const LIMIT_HINT = $("limit-hint").textContent;
let worker;
let module;
let asked = 0; // the id of the newest question
let answered = 0;
let shown; // the last view
let isStopped = false; // a person ended the work, so it isn't begun again by itself
const waiting = new Map(); // what was asked, by id: for details where they go and of which name, for parts of which view and which names

function start() {
    worker = new Worker("worker.js", { type: "module" });
    worker.onmessage = ({ data }) => answers[data.kind](data);
    worker.onerror = (event) => fail(event.message ?? "the worker didn’t start");
    worker.postMessage({ kind: "start", module });
}

const answers = {
    started({ version, hasLegacy }) {
        $("version").textContent = `symfilt ${version}`;
        $("legacy").hidden = controls.legacy.disabled = !hasLegacy;
        controls.legacy.checked &&= hasLegacy;
        document.body.dataset.ready = "yes";
        if (!isStopped) ask();
    },
    view(data) {
        if (data.id !== asked) return;
        answered = data.id;
        show(data);
    },
    details(data) {
        const { place, word } = waiting.get(data.id) ?? {};
        waiting.delete(data.id);
        if (!place) return;
        showDetails(place, data, word);
        if (!$("halt").hidden && answered === asked) tells(shown);
    },
    parts({ id, found }) {
        const { view, numbers } = waiting.get(id) ?? {};
        waiting.delete(id);
        if (view !== shown) return;
        for (const [i, it] of found.entries()) if (it) showParts($(`name-${numbers[i]}`), it);
    },
    progress: showProgress,
    file: finishJob,
    failed({ id, message }) {
        if (isCurrent(id)) return failJob(message);
        answered = Math.max(answered, id ?? 0);
        fail(message);
    },
};

function fail(message) {
    $("status").textContent = `Something went wrong: ${message}`;
    $("halt").hidden = true;
}

function optionsNow() {
    const isNumber = controls.limit.validity.valid;
    $("limit-hint").textContent = isNumber ? LIMIT_HINT : `a whole number up to ${n(GREATEST_LIMIT)}; so ${n(DEFAULT_LIMIT)} is taken`;
    return {
        brief: controls.brief.checked,
        noParameters: controls.noParameters.checked,
        short: controls.short.checked,
        legacy: controls.legacy.checked,
        limit: isNumber ? Number(controls.limit.value) : DEFAULT_LIMIT,
    };
}

function changes(name, value) {
    controls[name].value = value;
    ask();
    input.focus();
}

// --- what is typed

/** Makes the input as high as its first lines need. */
function fits(text) {
    const columns = Math.max(20, Math.floor(input.clientWidth / 9));
    const lines = text.slice(0, MOST_ROWS * columns).split("\n");
    const rows = lines.reduce((sum, line) => sum + 1 + Math.floor(line.length / columns), 0);
    input.rows = Math.min(MOST_ROWS, Math.max(4, rows));
}

function ask() {
    const text = input.value;
    $("clear").hidden = !text;
    $("intro").hidden = !!text;
    isStopped = false;
    if (!document.body.dataset.ready) return; // it is asked again then
    if (text.length > LONG_PASTE) {
        input.value = "";
        filterFile(new File([text], "pasted.txt", { type: "text/plain" }));
        return;
    }
    fits(text);
    asked += 1;
    const id = asked;
    worker.postMessage({ kind: "view", id, text, options: optionsNow() });
    tellsIfLong(() => id === asked && answered < id);
}

function tellsIfLong(lasts) {
    setTimeout(() => {
        if (!lasts()) return;
        $("status").textContent = "Working…";
        $("halt").hidden = false;
    }, PATIENCE);
}

function sets(text) {
    input.value = text;
    ask();
    input.focus();
}

// --- what is shown

function show(view) {
    shown = view;
    const { names, parts, options } = view;
    const isOne = names.length === 1 && input.value.trim() === names[0].word;
    $("whole").hidden = !names.length || isOne;
    $("found").hidden = !names.length;
    $("names-title").textContent = !isOne ? "Names in it" : names[0].text === undefined ? "Refused" : "Demangled";
    tells(view);
    $("text").replaceChildren(...whole(parts, names, options));
    $("names").replaceChildren();
    showNames(SHOWN_NAMES);
    if (isOne && opensAtOnce(names[0])) $("names").querySelector("details").open = true;
}

function tells({ names, took }) {
    $("halt").hidden = true;
    const text = input.value.trim();
    const refused = names.filter((it) => it.status !== STATUS.OK).length;
    const good = names.length - refused;
    const places = names.reduce((sum, it) => sum + it.times, 0);
    $("status").textContent = !text ? ""
        : !names.length ? noName(text)
        : [
            places > names.length && `${many(names.length, "name")} in ${n(places)} places`,
            good && `${many(good, "name")} demangled`,
            refused && `${many(refused, "name")} refused`,
        ].filter(Boolean).join(", ") + ` · ${inTime(took)}`;
}

function noName(text) {
    if (/^\?/.test(text)) return "No name found: this one looks like Microsoft’s, which aren’t read here.";
    if (/^(Z|R)[\dNIC]/.test(text)) return `No name found: “${text.slice(0, 12)}” may have lost its underscore.`;
    return "No name found. Mangled names begin with _Z or _R (on macOS with __Z or __R).";
}

const plain = ({ parts, names }) => parts.map((it) => (typeof it === "string" ? it : names[it].text ?? names[it].word)).join("");

/** The whole text, with each name in it a link to its card. */
function whole(parts, names, options) {
    const made = [];
    let length = 0;
    for (const part of parts) {
        if (length > SHOWN_WHOLE) {
            made.push(element("span", "cut", "\n… there is more: copy or save it to have all"));
            break;
        }
        if (typeof part === "string") {
            made.push(visible(part.slice(0, SHOWN_WHOLE)));
            length += part.length;
            continue;
        }
        const name = names[part];
        const text = name.text ?? name.word;
        const link = element("a", name.status === STATUS.OK ? "" : "refused", cut(text));
        link.href = `#name-${part}`;
        link.title = name.status === STATUS.OK ? cut(name.word, 200) : why(name, options).join(". ");
        link.dataset.name = part;
        made.push(link);
        length += Math.min(text.length, SHOWN_TEXT);
    }
    return made;
}

function showNames(most) {
    const { names, options } = shown;
    const list = $("names");
    const asks = {
        changes,
        asksDetails(place, word) {
            const id = `details ${Math.random()}`;
            waiting.set(id, { place, word });
            worker.postMessage({ kind: "details", id, word, options });
            tellsIfLong(() => waiting.has(id));
        },
    };
    const numbers = [];
    while (list.children.length < Math.min(most, names.length)) {
        const number = list.children.length;
        list.append(card(names[number], number, options, asks));
        if (names[number].text?.length <= TOLD_APART) numbers.push(number);
    }
    asksParts(numbers);
    const left = names.length - list.children.length;
    $("more").hidden = !left;
    $("more").textContent = `Show ${n(Math.min(left, MORE_NAMES))} more of ${n(left)}`;
}

/** Asks for the parts of the full texts of names; a short text has none of its own. */
function asksParts(numbers) {
    const { names, options } = shown;
    if (!numbers.length) return;
    const id = `parts ${Math.random()}`;
    waiting.set(id, { view: shown, numbers });
    worker.postMessage({ kind: "parts", id, words: numbers.map((it) => names[it].word), options: { ...options, short: false } });
}

/** Leads from a name in the text to its card. */
function goTo(number) {
    showNames(number + 1);
    for (const it of document.querySelectorAll(".card.shown")) it.classList.remove("shown");
    const it = $(`name-${number}`);
    it.classList.add("shown");
    it.scrollIntoView({ block: "center" });
    it.querySelector(".copy").focus({ preventScroll: true });
}

/** Takes the name that a link has after its #, with the options that it was shown with. */
function takeFromAddress() {
    const linked = fromAddress(location.hash);
    if (!linked) return;
    input.value = linked.word;
    for (const [name, isChosen] of Object.entries(linked.options)) controls[name].checked = isChosen;
    ask();
}

// --- files

function filterFile(file, count = 1) {
    if (!file) return;
    if (!document.body.dataset.ready) return fail("the module isn’t there yet");
    stopJob();
    asked += 1;
    const id = asked;
    startJob(id, file, count);
    worker.postMessage({ kind: "file", id, blob: file, options: optionsNow() });
    ask();
    $("job").scrollIntoView({ block: "nearest" });
}

function stopJob() {
    const id = endJob();
    if (id) worker.postMessage({ kind: "cancel", id });
}

/** Ends the worker, whatever it does, and starts another. */
function halt() {
    worker.terminate();
    waiting.clear();
    endJob();
    asked += 1;
    isStopped = true;
    delete document.body.dataset.ready;
    start();
    $("halt").hidden = true;
    $("status").textContent = "Stopped.";
}

input.addEventListener("input", ask);
form.addEventListener("input", ask);
form.addEventListener("submit", (event) => event.preventDefault());
$("example").onclick = () => sets(EXAMPLE);
$("clear").onclick = () => sets("");
for (const it of document.querySelectorAll("#intro button")) it.onclick = () => sets(it.textContent.trim());
$("copy").onclick = ({ target }) => copy(target, plain(shown));
$("save").onclick = () => save(plain(shown), "demangled.txt");
$("more").onclick = () => {
    const first = $("names").children.length;
    showNames(first + MORE_NAMES);
    $("names").children[first].querySelector(".copy").focus();
};
$("halt").onclick = halt;
$("stop").onclick = () => { stopJob(); $("status").textContent = "Stopped."; input.focus(); };
$("close").onclick = () => { stopJob(); input.focus(); };
$("text").onclick = (event) => {
    const link = event.target.closest("a");
    if (!link) return;
    event.preventDefault();
    goTo(Number(link.dataset.name));
};
$("file").onchange = ({ target }) => { filterFile(target.files[0]); target.value = ""; };

let over = 0; // elements under a file that is dragged
const hasFiles = (event) => event.dataTransfer?.types.includes("Files");
const drags = (event, count) => {
    if (!hasFiles(event)) return;
    over = Math.max(0, over + count);
    $("drop").hidden = !over;
};
addEventListener("dragenter", (event) => drags(event, 1));
addEventListener("dragleave", (event) => drags(event, -1));
addEventListener("dragover", (event) => { if (hasFiles(event)) event.preventDefault(); });
addEventListener("drop", (event) => {
    if (!hasFiles(event)) return;
    event.preventDefault();
    drags(event, -over);
    const { files } = event.dataTransfer;
    filterFile(files[0], files.length);
});

$("settings").open = matchMedia("(min-width: 48rem)").matches;
takeFromAddress();
addEventListener("hashchange", takeFromAddress);
// where a browser keeps no files, the page works as long as it is online
navigator.serviceWorker?.register("sw.js").catch(() => {});

try {
    const response = await fetch("symdemangle.wasm");
    if (!response.ok) throw new Error(`symdemangle.wasm: ${response.status}`);
    module = await WebAssembly.compile(await response.arrayBuffer());
    const { proved } = await (await fetch("module.json")).json();
    $("proved").hidden = !proved;
    $("trial").hidden = !!proved;
    start();
} catch (error) {
    fail(error.message);
}
