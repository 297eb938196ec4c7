// What a link has after its #, which browsers send to no server: a name, and the options that it is shown with.

const WORDS = { brief: "brief", noParameters: "no-params" };
const FULL = "full"; // C++ texts aren't short

/** The part after the page's address that shows this name with these options. */
export function addressOf(word, options) {
    const chosen = Object.keys(WORDS).filter((it) => options[it]).map((it) => WORDS[it]);
    return ["#" + encodeURIComponent(word), ...chosen, ...(options.short ? [] : [FULL])].join("&");
}

/** The name and the options of such a part, or nothing where it has no name. */
export function fromAddress(hash) {
    if (!/^#_/.test(hash)) return undefined;
    const [name, ...words] = hash.slice(1).split("&");
    try {
        const options = Object.fromEntries(Object.entries(WORDS).map(([it, word]) => [it, words.includes(word)]));
        return { word: decodeURIComponent(name), options: { ...options, short: !words.includes(FULL) } };
    } catch {
        return undefined; // no UTF-8
    }
}
