// node page.mjs PAGE_FOLDER DEMANGLE SYMFILT SYMBOLS HOSTILE_FOLDER [SHOTS_FOLDER]: uses the page in Chromium as a person does
//
// The script types, pastes, ticks, drops and downloads, and checks what the page shows. Texts are compared with those of demangle, counts
// and pressed spellings with those of symfilt. Each step that holds is named; the first step that doesn't hold ends the script.
// HOSTILE_FOLDER has a hostile name in each of the files cpp and rust. SHOTS_FOLDER gets pictures of the page, for people to look at.
import { execFileSync } from "node:child_process";
import fs from "node:fs";
import path from "node:path";
import { Browser, serve, sleep, until } from "./browser.mjs";

const [folder, demangle, symfilt, symbols, hostile, shots] = process.argv.slice(2);
const server = await serve(folder);
const browser = await Browser.start();
let step = "start";

function wants(test, ...what) {
    if (!test) throw new Error(what.map((it) => (typeof it === "string" ? it : JSON.stringify(it))).join(" "));
}

const said = (css) => browser.run((css) => [...document.querySelectorAll(css)].filter((it) => it.checkVisibility()).map((it) => it.textContent), css);
const text = (id) => browser.run((id) => document.getElementById(id).textContent, id);
const click = (css) => browser.run((css) => {
    const it = document.querySelector(css);
    if (!it.checkVisibility()) throw new Error(`${css} isn't shown`);
    it.click();
}, css);
const tick = (name) => click(`[name=${name}]`);
const puts = (text, css = "#input") => browser.run((text, css) => {
    const it = document.querySelector(css);
    it.value = text;
    it.dispatchEvent(new Event("input", { bubbles: true }));
}, text, css);
const shows = (css, wanted) => until(async () => JSON.stringify(await said(css)) === JSON.stringify(wanted), `${css} shows ${JSON.stringify(wanted)}`).catch(async (error) => {
    throw new Error(`${error.message}, but ${JSON.stringify(await said(css))}`);
});
const picture = (name, isWhole) => shots && browser.shot(path.join(shots, `${name}.png`), isWhole);
const demangled = (words, input) => execFileSync(demangle, words, { input, maxBuffer: 1 << 30 });
const bySymfilt = (words) => execFileSync(symfilt, words).toString();

async function open(hash = "", how = {}) {
    await browser.open(server.address + hash, how);
    await until(() => browser.run(() => document.body?.dataset.ready), "the page is ready");
}

async function downloaded(name) {
    const file = path.join(browser.folder, name);
    await until(() => fs.existsSync(file), `${name} is saved`);
    const bytes = fs.readFileSync(file);
    fs.rmSync(file);
    return bytes;
}

const NAME = "_ZN4demo5cacheIPKcE6lookupERKNSt7__cxx1112basic_stringIcSt11char_traitsIcESaIcEEE";
const TEXT = "demo::cache<char const*>::lookup(std::__cxx11::basic_string<char, std::char_traits<char>, std::allocator<char>> const&)";
const SHORT = "demo::cache<char const*>::lookup(std::string const&)";

const steps = {
    async "a first look"() {
        await open();
        await picture("empty", false);
        wants(await browser.run(() => document.activeElement.id === "input"), "the input has the focus");
        const pairs = await browser.run(() => [...document.querySelectorAll("#intro dl > div")].map((it) => [it.querySelector("button").textContent, it.querySelector("dd").textContent]));
        wants(pairs.length === 2, "two names and their texts:", pairs);
        for (const [name, text] of pairs) wants(demangled(["--short", name]).toString() === `${text}\n`, "the text of an example:", name, text);
        await click("#intro button");
        await shows(".said", [pairs[0][1]]);
        wants(!(await said("#intro")).length, "the examples go when there is a text");
    },

    async "typed"() {
        await puts("");
        await browser.run(() => document.getElementById("input").focus());
        await browser.type(NAME.slice(0, 20));
        await shows(".why", ["Incomplete. The name breaks off after 20 bytes: more has to follow."]);
        await browser.type(NAME.slice(20));
        await shows(".said", [SHORT]);
        await shows(".full", [TEXT]);
        await picture("short");
        await tick("short");
        await shows(".said", [TEXT]);
        await shows(".full", []);
        await until(async () => (await said(".inside dt")).at(-1) === "Pressed spelling", "counts and the pressed spelling of one name");
        await picture("name");
    },

    async "options"() {
        await tick("brief");
        await shows(".said", ["demo::cache::lookup(std::__cxx11::basic_string const&)"]);
        await tick("noParameters");
        await shows(".said", ["demo::cache::lookup"]);
        await tick("brief");
        await shows(".said", ["demo::cache<char const*>::lookup"]);
        await tick("noParameters");
        await tick("short");
        await shows(".said", [SHORT]);
        await tick("short");
        await puts("100", "[name=limit]");
        await shows(".why", ["Too long. The text would cost more than the limit of 100."]);
        await click(".raise");
        await shows(".said", [TEXT]);
        wants(await browser.run(() => document.querySelector("[name=limit]").value === "1000"), "the limit was raised");
        await puts("5000000000", "[name=limit]");
        await shows("#limit-hint", ["a whole number up to 4,294,967,295; so 1,000,000 is taken"]);
        await shows(".said", [TEXT]);
        await puts("1000000", "[name=limit]");
        await shows("#limit-hint", ["what one text may cost: its bytes and parts"]);
        await puts("_ZN1AC4Ev");
        await shows(".said", ["A::A()"]);
    },

    async "words"() {
        await puts("_Z7größei");
        await shows(".said", ["größe(int)"]);
        for (const text of ["error: ‘_Z1fv’ is wrong", ".text._ZN1A1fEv", "_Z1fv—_Z1gv", "a __imp__Z1fv b", "self._Zoom _Z1fv", "‘_Z1fY’ _Z1fv"]) {
            await puts(text);
            await shows("#text", [demangled([], text).toString()]);
        }
        await shows(".why", ["Malformed at offset 4. No name goes on with “Y” there."]);
    },

    async "legacy Rust names"() {
        wants(await browser.run(() => document.querySelector("[name=legacy]").defaultChecked), "they are read by default");
        await puts("_ZN3foo3bar17h0123456789abcdefE");
        await shows(".said", ["foo::bar"]);
        await shows(".card .language", ["Rust"]);
        await tick("legacy");
        await shows(".said", ["foo::bar::h0123456789abcdef"]);
        await shows(".card .language", ["C++"]);
        await tick("legacy");
    },

    async "refused"() {
        const REFUSED = [
            ["_Z1fS9_", "Bad reference at offset 4. It refers to a part that the name doesn’t have before it.", "S (offset 4)"],
            ["_RNvC3foo3barX", "Incomplete. The name breaks off after 14 bytes: more has to follow.", " (the end)"],
            ["__ZN4demo4mainY7_", "Malformed at offset 14. No name goes on with “Y” there.", "Y (offset 14)"],
            ["_Z2éY", "Malformed at offset 5. No name goes on with “Y” there.", "Y (offset 5)"],
            ["_Z1é", "Malformed at offset 4. No name goes on with “é” there.", "é (offset 4)"],
        ];
        for (const [name, why, mark] of REFUSED) {
            await puts(name);
            await shows(".why", [why]);
            await shows(".symbol mark", [mark]);
        }
        await puts("?f@@YAXXZ");
        await until(async () => /Microsoft/.test(await text("status")), "a name of Microsoft’s is recognized");
        await puts("ZN3foo3barEv");
        await until(async () => /underscore/.test(await text("status")), "a lost underscore is noticed");
    },

    async "characters that can't be seen"() {
        await puts("_Z4f\u202eb");
        await shows(".said", ["f\\u{202e}(bool)"]);
        await shows(".symbol", ["_Z4f\\u{202e}b"]);
        await puts("\u202e _Z4f\u202eb");
        await shows("#text", ["\\u{202e} f\\u{202e}(bool)"]);
    },

    async "a log"() {
        await click("#example");
        await until(async () => (await said(".card")).length === 6, "six names");
        await until(async () => (await text("status")).startsWith("5 names demangled, 1 name refused"), "how many");
        await picture("log");
        const log = await browser.run(() => document.getElementById("input").value);
        await shows("#text", [demangled([], log).toString()]);
        await browser.run(() => document.querySelectorAll("#text a")[4].click());
        await shows(".card.shown strong", ["Bad reference at offset 14."]);
        await puts(`${log}${log}`);
        await until(async () => (await text("status")).startsWith("6 names in 12 places, 5 names demangled, 1 name refused"), "how many, and in how many places");
        wants((await said(".facts"))[0].endsWith("2 times"), "how often", await said(".facts"));
    },

    async "counts and pressed spelling"() {
        const name = "_ZN3foo3barEN3foo3bazENS_3bazE";
        const word = `_${name}`;
        await puts(word);
        await until(async () => (await said(".inside dd")).length === 4, "counts and pressed spelling");
        const [steps, rows, nodes, pressed] = await browser.run(() => [...document.querySelectorAll(".inside dd")].map((it) => it.firstChild.textContent));
        wants(bySymfilt(["--stats", name]).split("\n")[1] === `rows ${rows} nodes ${nodes} steps ${steps}`, "the program's counts:", rows, nodes, steps);
        wants(bySymfilt(["--press", word]) === `${pressed}\n`, "the program's spelling:", pressed);
        await picture("pressed");
    },

    async "parts of a text"() {
        const PARTS = [["scope", "demo::cache<char const*>"], ["base", "lookup"], ["parameters", /^\(std::.* const&\)$/], ["parameter 1", /^std::.* const&$/]];
        await puts(NAME);
        await until(async () => (await said(".parts li")).length === PARTS.length, "the parts of a name are listed");
        const listed = await browser.run(() => [...document.querySelectorAll(".parts li")].map((it) => [it.querySelector(".role").textContent, it.querySelector("code").textContent]));
        for (const [i, [role, part]] of PARTS.entries()) wants(listed[i][0] === role && (part.test?.(listed[i][1]) ?? listed[i][1] === part), "a part:", listed[i]);
        await shows(".parts strong", ["function"]);
        await shows(".said", [TEXT]);
        await shows(".part.base", ["lookup"]);
        const lit = () => browser.run(() => [...document.querySelectorAll(".part.lit")].map((it) => it.textContent));
        await browser.run(() => document.querySelectorAll(".parts li")[1].focus());
        wants(JSON.stringify(await lit()) === '["lookup"]', "the part with the focus is lit:", await lit());
        await picture("parts");
        await puts("_Z2\u00fcRKi.cold");
        await shows(".part.base", ["\u00fc"]);
        await shows(".part.suffix", [".cold"]);
        await puts("_ZTV1A");
        await shows(".parts strong", ["vtable"]);
        await tick("short");
        await shows(".said", ["vtable for A"]);
        await shows(".full", []);
        await shows(".part.object", ["A"]);
        await puts(NAME);
        await shows(".said", [SHORT]);
        await shows(".full .part.base", ["lookup"]);
        await browser.run(() => document.querySelectorAll(".parts li")[1].focus());
        wants(JSON.stringify(await lit()) === '["lookup"]', "a part of the full text is lit:", await lit());
        await tick("short");
        await puts("_RNvMs_NtCs1234_4demo5queueINtB4_5QueuejE4push");
        await shows(".part.base", ["push"]);
        await puts(`_Z1f${"i".repeat(600)}`);
        await until(async () => (await said(".said"))[0]?.startsWith("f(int"), "a text of many parts");
        await sleep(200);
        wants(!(await said(".part")).length, "600 parts aren't told apart");
    },

    async "a part and the bytes that spell it"() {
        const name = "_ZN3foo3bar1fIPKcSt3mapIiiEEEvT_S4_RS_RS3_S5_.cold";
        await puts(name);
        await until(async () => (await said(".stretch")).length, "the symbol's stretches");
        wants((await said(".symbol"))[0] === name, "the stretches are the symbol:", await said(".symbol"));
        const isAbove = await browser.run(() => document.querySelector(".symbol").getBoundingClientRect().bottom <= document.querySelector(".said").getBoundingClientRect().top);
        wants(isAbove, "the symbol is above the text");
        const lit = async (wanted, why) => {
            const found = await browser.run(() => [".stretch", ".part", "li .role"].map((css) => [...document.querySelectorAll(css)].filter((it) => it.matches(".lit, .lit .role")).map((it) => it.textContent)));
            wants(JSON.stringify(found) === JSON.stringify(wanted), why, found);
        };
        const points = (css, number, event) => browser.run((css, number, event) => {
            document.querySelectorAll(css)[number].dispatchEvent(new PointerEvent(event, { bubbles: true }));
        }, css, number, event);
        const SECOND = [["S4_"], ["std::map"], ["parameter 2"]];
        await points(".part.parameter", 1, "pointerover");
        await lit(SECOND, "the bytes of a part that is pointed at");
        await shows(".told", ["parameter 2: bytes 32 to 35"]);
        await points(".stretch.base", 0, "pointerover");
        await lit([["1f"], ["f"], ["base"]], "the part of bytes that are pointed at");
        await points(".part.scope", 0, "pointerover");
        await lit([["3foo3bar"], ["foo::bar"], ["scope"]], "the bytes of a scope");
        await points(".stretch", 0, "pointerover");
        await lit([[], [], []], "bytes that spell no part");
        await points(".part.parameter", 1, "click");
        await points(".said", 0, "pointerleave");
        await lit(SECOND, "a part that is tapped stays lit");
        wants((await browser.run(() => document.querySelector(".spoken").textContent)) === "parameter 2: std::map, bytes 32 to 35", "it is spoken");
        await points(".part.parameter", 1, "click");
        await lit([[], [], []], "it is tapped again");
        const focused = () => browser.run(() => document.activeElement.getAttribute("aria-label"));
        await browser.run(() => document.querySelector(".parts [tabindex='0']").focus());
        wants((await focused()) === "return type: void, bytes 29 to 30", "the first part:", await focused());
        for (let i = 0; i < 8; i += 1) await browser.press("ArrowDown", "ArrowDown", 40);
        wants((await focused()) === "parameter 2: std::map, bytes 32 to 35", "by arrow keys:", await focused());
        await lit(SECOND, "the bytes of the part with the focus");
        await browser.press("End", "End", 35);
        await lit([[".cold"], [".cold"], ["suffix"]], "the last part");
        await browser.press("Home", "Home", 36);
        await browser.press("ArrowUp", "ArrowUp", 38);
        wants((await focused()) === "return type: void, bytes 29 to 30", "nothing is before the first part:", await focused());
        wants((await browser.run(() => document.querySelectorAll(".parts [tabindex='0']").length)) === 1, "one stop of the Tab key");
        const { nodes } = await browser.call("Accessibility.getFullAXTree");
        const options = nodes.filter((it) => !it.ignored && it.role?.value === "option").map((it) => it.name?.value);
        wants(options.length === 13 && options[8] === "parameter 2: std::map, bytes 32 to 35", "what a screen reader says of parts:", options);
        await browser.run(() => document.getElementById("input").focus());
        await lit([[], [], []], "no part has the focus");
        await picture("bytes");
        await puts("_ZN3foo3bar17h0123456789abcdefE");
        await until(async () => (await said(".parts li")).length === 4, "the parts of an older Rust name");
        await browser.run(() => document.querySelectorAll(".parts li")[3].focus());
        await lit([["17h0123456789abcdef"], [], ["hash"]], "a part that isn't in the text");
        await shows(".told", ["hash: bytes 11 to 30, not in the text"]);
        await puts("__Z1fi");
        await until(async () => (await said(".parts li")).length === 3, "the parts of a name of macOS");
        await points(".part.base", 0, "pointerover");
        await lit([["1f"], ["f"], ["base"]], "an underscore that is dropped counts");
    },

    async "by keys alone"() {
        await click("#example");
        await until(async () => (await said(".card")).length === 6, "six names");
        await browser.run(() => document.getElementById("input").focus());
        const stops = [];
        for (let i = 0; i < 10; i += 1) {
            await browser.press("Tab", "Tab", 9);
            stops.push(await browser.run(() => document.activeElement.id || document.activeElement.name || document.activeElement.textContent.trim()));
        }
        const wanted = ["Options", "brief", "noParameters", "short", "legacy", "limit", "copy", "save", "text", "<demo::queue::Queue<usize>>::push"];
        wants(JSON.stringify(stops.slice(0, 9)) === JSON.stringify(wanted.slice(0, 9)), "the order of tabs:", stops);
        await browser.run(() => document.querySelector("[name=brief]").focus());
        for (const first of ["<demo::queue::Queue>::push", "<demo::queue::Queue<usize>>::push"]) {
            await browser.press(" ", "Space", 32, " ");
            await until(async () => (await said(".said"))[0] === first, "the space bar ticks");
        }
        await browser.run(() => document.querySelector("#text a").focus());
        await browser.press("Enter", "Enter", 13, "\r");
        await until(async () => (await said(".card.shown")).length === 1, "a name of the text leads to its card");
        wants(await browser.run(() => document.activeElement.closest(".card.shown")), "the focus is in the card");
    },

    async "what a screen reader says"() {
        const { nodes } = await browser.call("Accessibility.getFullAXTree");
        const roles = nodes.filter((it) => !it.ignored && it.role).map((it) => [it.role.value, it.name?.value ?? "", it.description?.value ?? ""]);
        const NAMED = ["button", "link", "textbox", "checkbox", "spinbutton", "progressbar", "DisclosureTriangle"];
        for (const [role, name] of roles) wants(name || !NAMED.includes(role), `a ${role} has no name`);
        const has = (...it) => wants(roles.some(([role, name]) => role === it[0] && name === it[1]), "there is no", it);
        has("textbox", "Names or a log");
        has("checkbox", "No template arguments");
        wants(!roles.some(([, name]) => /Wide|ASCII/.test(name)), "there is no choice of a grammar or of letters");
        has("spinbutton", "Limit");
        has("button", "Copy this text");
        has("heading", "Demangle C++ and Rust names");
        wants(roles.some(([role]) => role === "status"), "the status is spoken");
        wants(roles.filter(([role]) => role === "checkbox").every(([, , hint]) => hint), "each box has a hint");
    },

    async "a pasted log is the program's text"() {
        const log = fs.readFileSync(symbols).subarray(0, 100_000).toString();
        await puts(log);
        await until(async () => /^[\d,]{3,} names/.test(await text("status")), "it is read");
        await click("#save");
        wants((await downloaded("demangled.txt")).equals(demangled([], log)), "not the program's text");
        await click("#more");
        await until(async () => (await said(".card")).length === 500, "more names are shown");
    },

    async "a file"() {
        // The text is so long that browsers hand it out in many pieces, which end within words.
        const lines = Array.from({ length: 60_000 }, (_, i) => `${i} _ZNSt6vectorIiSaIiEE9push_backEOi\n`);
        const given = Buffer.concat([fs.readFileSync(symbols), Buffer.from(lines.join("")), Buffer.from("‘_Z1fv’\n")]);
        const file = path.join(browser.folder, "given.log");
        fs.writeFileSync(file, given);
        await puts("");
        await browser.choose("#file", file);
        await until(async () => (await text("job-status")).startsWith("Done"), "it is filtered", 60);
        console.log(`    ${await text("job-status")}`);
        await picture("file");
        await click("#download");
        const wanted = demangled([], given);
        wants((await downloaded("given.demangled.log")).equals(wanted), "not the program's text");
        const [before, after] = [given, wanted].map((it) => it.toString().split("\n"));
        const changed = before.filter((line, i) => line !== after[i]).length;
        const told = / ([\d,]+) names demangled, ([\d,]+) refused/.exec(await text("job-status")).slice(1).map((it) => Number(it.replaceAll(",", "")));
        wants(told[0] === changed && told[0] + told[1] === before.length - 1, "how many names:", told, changed);
        await click("#close");
        wants(!(await said("#job")).length, "it is closed");
        await browser.choose("#file", path.join(browser.folder, "none.log"));
        await until(async () => (await text("job-status")).startsWith("It can’t be read: "), "a file that isn't there");
        await click("#close");
    },

    async "a dropped file"() {
        const drops = (...kinds) => browser.run((...kinds) => {
            window.dropped ??= new DataTransfer();
            if (!window.dropped.items.length) {
                window.dropped.items.add(new File(["at _Z1fv\n", "_RNvC3foo3bar\n".repeat(3), "_Z1fS9_\n"], "dropped.log"));
                window.dropped.items.add(new File(["_Z1gv"], "other.log"));
            }
            for (const kind of kinds) dispatchEvent(new DragEvent(kind, { dataTransfer: window.dropped, bubbles: true, cancelable: true }));
        }, ...kinds);
        await drops("dragenter", "dragover");
        wants((await said("#drop")).length, "a place to drop it is shown");
        await picture("drop", false);
        await drops("dragleave");
        wants(!(await said("#drop")).length, "it goes with the file");
        await drops("dragenter", "dragover", "drop");
        await shows("#preview", [`at f()\n${"foo::bar\n".repeat(3)}_Z1fS9_\n`]);
        wants(!(await said("#drop")).length, "it goes after the drop");
        await shows("#job-title", ["dropped.log (the first of 2: one file at a time)"]);
        await click("#close");
    },

    async "a long paste is taken as a file"() {
        await browser.run(() => {
            const it = document.getElementById("input");
            it.value = "at _Z1fv and on\n".repeat(70_000);
            it.dispatchEvent(new Event("input", { bubbles: true }));
        });
        await until(async () => (await text("job-status")).endsWith("1.1 MB became 980.0 KB."), "it is filtered");
        wants(await browser.run(() => document.getElementById("input").value === ""), "the input is empty again");
        await click("#close");
    },

    async "a large file shows how far it is, and stops"() {
        const file = path.join(browser.folder, "large.txt");
        fs.writeFileSync(file, "0000 T _ZNSt6vectorIiSaIiEE9push_backEOi\n".repeat(3_000_000));
        await browser.choose("#file", file);
        await until(() => browser.run(() => document.getElementById("progress").value > 0.02), "progress");
        await picture("progress");
        await puts("_Z1fv");
        await shows(".said", ["f()"]);
        await click("#stop");
        wants(!(await said("#job")).length, "it is stopped");
        fs.rmSync(file);
    },

    async "hostile names"() {
        const HOSTILE = {
            "C++, each part twice the one before": fs.readFileSync(path.join(hostile, "cpp"), "latin1").trim(),
            "Rust, each part twice the one before": fs.readFileSync(path.join(hostile, "rust"), "latin1").trim(),
            "60,000 pointers": `_Z1f${"P".repeat(60_000)}i`,
            "65,000 parameters": `_Z1f${"i".repeat(65_000)}`,
            "20,000 open argument lists": `_Z1f${"1AI".repeat(20_000)}`,
            "30,000 open paths": `_R${"Nv".repeat(30_000)}`,
        };
        for (const [called, name] of Object.entries(HOSTILE)) {
            await puts("");
            await shows(".card", []);
            await browser.run(() => {
                window.gaps = [];
                let last = performance.now();
                window.beating = setInterval(() => { const now = performance.now(); window.gaps.push(now - last); last = now; }, 5);
            });
            const began = Date.now();
            await puts(name);
            await until(async () => (await said(".card")).length === 1, `an answer to ${called}`, 30);
            const took = Date.now() - began;
            const pause = await browser.run(() => { clearInterval(window.beating); return Math.max(...window.gaps); });
            const [answer] = (await said(".why")).concat(await said(".facts"));
            console.log(`    ${called}: ${name.length} bytes, ${took} ms, the page paused at most ${Math.round(pause)} ms; ${answer}`);
            wants(pause < 1000, `the page froze for ${pause} ms`);
            if ((await said(".card details")).length) {
                await browser.run(() => { document.querySelector(".card details").open = true; });
                await until(async () => (await said(".inside dt")).length > 1, `counts of ${called}`, 30);
            }
        }
    },

    async "what takes long can be stopped"() {
        const parts = `1AIiiE${[..."0123456789ABCDEFGHIJKLMN"].map((it) => `S_IS${it}_S${it}_E`).join("")}`; // 537 million bytes
        const doubled = `_Z1f${parts}`;
        await puts("");
        await puts("4294967295", "[name=limit]");
        // a hundred names, each of which takes all memory first
        await puts(Array.from({ length: 100 }, (_, it) => `_Z4f${100 + it}${parts}`).join("\n"));
        await shows("#status", ["Working…"]);
        await picture("working");
        await click("#halt");
        await until(() => browser.run(() => document.body.dataset.ready), "the page is ready again");
        await sleep(500);
        await shows("#status", ["Stopped."]);
        await puts("_Z1fv");
        await shows(".said", ["f()"]);
        await puts(doubled);
        await until(async () => (await said(".why")).length, "the text needs more memory than there is", 120);
        wants((await said(".why"))[0].startsWith("Out of memory"), await said(".why"));
        await puts("1000000", "[name=limit]");
        await puts("_Z1fv");
        await shows(".said", ["f()"]);
    },

    async "a name in the address"() {
        await open("#_RNvC3foo3bar");
        await shows(".said", ["foo::bar"]);
        await browser.run(() => { location.hash = "_Z1f%69"; });
        await shows(".said", ["f(int)"]);
        await open("#_Z1f%ff");
        wants((await said("#intro")).length, "an address that is no UTF-8 is passed over");
    },

    async "a link to a name, with its options"() {
        await open();
        await puts(NAME);
        await shows(".said", [SHORT]);
        wants((await browser.run(() => document.querySelector(".link").getAttribute("href"))) === `#${NAME}`, "the link has the name");
        await tick("short");
        await shows(".said", [TEXT]);
        const link = await browser.run(() => document.querySelector(".link").getAttribute("href"));
        wants(link === `#${NAME}&full`, "the link has the option", link);
        await open(link);
        await shows(".said", [TEXT]);
        await browser.run((hash) => { location.hash = hash; }, `${NAME}&brief`);
        await shows(".said", [demangled(["--short", "--brief", NAME]).toString().trim()]);
        await open(`#${encodeURIComponent("_Z1f&full")}`);
        const isWhole = () => browser.run(() => document.getElementById("input").value === "_Z1f&full" && document.querySelector("[name=short]").checked);
        await until(isWhole, "a name with an & is one name");
    },

    async "a page that was opened works offline"() {
        await open();
        await browser.run(() => navigator.serviceWorker.ready.then(() => true));
        await open();
        server.cutOff(true);
        await open();
        await puts(NAME);
        await shows(".said", [SHORT]);
        server.cutOff(false);
    },

    async "nothing was sent, and nothing complained"() {
        const own = ["/", ...fs.readdirSync(folder).map((it) => `/${it}`)];
        const strange = server.asked.filter((it) => !own.some((path) => it === `GET ${path}`));
        wants(!strange.length, "the server was asked for", strange);
        wants(!browser.complaints.length, browser.complaints);
    },

    async "dark, and as wide as a phone"() {
        for (const [called, width, height, isDark] of [["dark", 1200, 900, true], ["phone", 390, 844, false], ["phone-dark", 390, 844, true], ["small", 320, 640, false]]) {
            await open("", { width, height, isDark });
            await picture(`${called}-empty`, false);
            await click("#example");
            await until(async () => (await said(".card")).length === 6, "six names");
            await browser.run(() => { document.querySelector(".card details").open = true; document.getElementById("settings").open = true; });
            await until(async () => (await said(".inside dt")).length, "counts");
            // this isn't innerWidth, which on a phone grows with content that is too wide
            const over = (await browser.run(() => document.documentElement.scrollWidth)) - width;
            wants(over <= 0, `${called}: ${over} pixels too wide`);
            const [ink, paper] = await browser.run(() => [getComputedStyle(document.documentElement).color, getComputedStyle(document.documentElement).backgroundColor].map((it) => Number(/\d+/.exec(it)[0])));
            wants(isDark === ink > paper, `${called}: ink ${ink} on paper ${paper}`);
            await picture(called);
        }
    },
};

try {
    for (const [name, holds] of Object.entries(steps)) {
        step = name;
        await holds();
        console.log(name);
    }
    console.log("page.mjs: ok");
} catch (error) {
    console.log(`page.mjs: ${step}: ${error.message}`);
    if (shots) await browser.shot(path.join(shots, "failed.png")).catch(() => {});
    process.exitCode = 1;
}
await browser.close();
server.close();
