// What the package answers, where it is installed: node --test
import assert from "node:assert/strict";
import test from "node:test";
import {
    DEFAULT_LIMIT, Refused, counts, demangle, demangleAll, filterBytes, filterText, parts, press, tryDemangle, version,
} from "symdemangle";

const refused = (name, status, offset, options) =>
    assert.throws(() => tryDemangle(name, options), (error) => error instanceof Refused && error.status === status && error.offset === offset);

test("texts", () => {
    assert.equal(demangle("_ZN3foo3barEPKc"), "foo::bar(char const*)");
    assert.equal(demangle(new TextEncoder().encode("_RNvC3foo3bar")), "foo::bar");
    assert.equal(demangle("__Z1fv"), "f()");
    assert.equal(demangle("main"), "main");
    assert.equal(demangle("_Z2üv"), "ü()");
    assert.equal(demangle(`_RNvC3foo5000${"a".repeat(5000)}`), `foo::${"a".repeat(5000)}`);
    assert.equal(demangle("_ZN13_$LT$test$GT$17h0123456789abcdefE"), "<test>");
    assert.deepEqual(demangleAll(["_Z1fv", "main", "_RNvC3foo3bar"]), ["f()", "main", "foo::bar"]);
});

test("options", () => {
    const name = "_ZN1AC5IiEET_";
    assert.equal(demangle(name), "A::A<int>(int)");
    assert.equal(demangle(name, { brief: true, noParameters: true }), "A::A");
    const list = "_Z1fNSt3__16vectorIiNS_9allocatorIiEEEE";
    assert.equal(demangle(list, { short: true }), "f(std::vector<int>)");
    assert.equal(demangle(list, { short: true, keepInline: true }), "f(std::__1::vector<int>)");
    assert.equal(demangle(name, { wide: false }), name);
    assert.equal(demangle("_ZN13_$LT$test$GT$17h0123456789abcdefE", { legacy: false }), "_$LT$test$GT$::h0123456789abcdef");
    assert.throws(() => demangle(name, { briefly: true }), TypeError);
    assert.throws(() => demangle(undefined), TypeError);
});

test("names from outside, with a limit", () => {
    // A<int, int>, A<that, that>, A<that, that>, ..
    let hostile = "_Z1f1AIiiE";
    for (let kind = 0; kind < 40; kind += 1) {
        const that = `S${kind.toString(36).toUpperCase()}_`;
        hostile += `S_I${that}${that}E`;
    }
    assert.equal(demangle("_Z1fv", { limit: 6 }), "f()");
    assert.equal(demangle("_Z1fv", { limit: 5 }), "_Z1fv");
    refused("_Z1fv", 4, 0, { limit: 5 });
    refused(hostile, 4, 0, { limit: 25_000 });
    for (const limit of [-1, 2 ** 32, 1.5, "9"]) assert.throws(() => demangle("_Z1fv", { limit }), RangeError);
    assert.equal(demangle("_Z1fv", { limit: DEFAULT_LIMIT }), "f()");
});

test("refusals", () => {
    refused("_Z1fY", 1, 4);
    refused("_Z1fS_", 2, 4);
    refused("_RNvCszzzzzzzzzzz_3foo3bar", 3, 5);
    refused("main", 11, 0);
    assert.throws(() => tryDemangle("_Z1fY"), /^Refused: malformed symbol at 4$/);
    assert.throws(() => press("main"), /^Refused: not a symbol$/);
});

test("texts with names", () => {
    assert.equal(filterText("at _ZN3foo3barEPKc+0x10, ‘_Z1fv’"), "at foo::bar(char const*)+0x10, ‘f()’");
    const { bytes, tally } = filterBytes(Uint8Array.of(255, 10, ...new TextEncoder().encode("_Z1fv _Z1fY _Z1gv")));
    assert.deepEqual([...bytes.subarray(0, 2)], [255, 10]);
    assert.equal(new TextDecoder().decode(bytes.subarray(2)), "f() _Z1fY g()");
    assert.deepEqual(tally, { words: 3, replaced: 2, refused: 1 });
    assert.equal(filterText("_Z1fv _ZN1A1fEv", { limit: 6 }), "f() _ZN1A1fEv");
});

test("parts", () => {
    const { text, kind, parts: found } = parts("_ZN1A1fIiEEvT_.cold");
    assert.equal(text, "void A::f<int>(int) (.cold)");
    assert.equal(kind, "function");
    assert.deepEqual(found.map(({ role, start, length }) => [role, text.slice(start, start + length)]), [
        ["return_type", "void"], ["scope", "A"], ["base", "f"], ["generic_arguments", "<int>"], ["generic_argument", "int"],
        ["parameters", "(int)"], ["parameter", "int"], ["suffix", ".cold"],
    ]);
    assert.deepEqual(found.map(({ from, to }) => [from, to]), [[11, 12], [3, 5], [5, 7], [7, 10], [8, 9], [12, 14], [12, 14], [14, 19]]);
    assert.equal(parts("_ZTV1A").kind, "vtable");
    assert.deepEqual(parts("__RNvC3foo3bar").parts[0], { role: "scope", start: 0, length: 3, from: 5, to: 10 });
    assert.deepEqual(parts("_ZN3foo3bar17h0123456789abcdefE").parts.at(-1), { role: "hash", start: 8, length: 0, from: 11, to: 30 });
    assert.deepEqual(parts("_Z1fv", { noParameters: true }).parts, [{ role: "base", start: 0, length: 1, from: 2, to: 4 }]);
    assert.equal(parts("_Z2\u00fcv").parts[0].length, 2);
    assert.equal(parts("_RNvC3foo3bar").kind, "value");
    assert.equal(parts(`_Z1f${"i".repeat(1000)}`).parts.length, 1002);
    assert.throws(() => parts("_Z1fY"), /^Refused: malformed symbol at 4$/);
    assert.throws(() => parts("_Z1fv", { short: true }), Refused);
});

test("pressed spellings, counts and the version", () => {
    assert.equal(press("_Z1fI1A1AEvv"), "_Z1fI1AS0_Evv");
    assert.throws(() => press("_ZN1AC4Ev"), /^Refused: malformed symbol at 6$/);
    assert.equal(press("_ZN1AC4Ev", { wide: true }), "_ZN1AC4Ev");
    assert.throws(() => press("_Z1fIiEDTstT_ES0_", { wide: true }), /^Refused: no spelling yet$/);
    const made = counts("_ZN3foo3barEPKc");
    assert.ok(made.rows > 0 && made.rows <= 64 && made.nodes <= 68 && made.steps <= 528, JSON.stringify(made));
    assert.match(version(), /^\d+\.\d+\.\d+$/);
});
