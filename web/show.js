// What both parts of the page use: elements, numbers in words, and texts that may hold anything.

export const $ = (id) => document.getElementById(id);
export const SHOWN_TEXT = 20_000; // characters of one text that are laid out; all are copied and saved

const number = new Intl.NumberFormat("en");
export const n = (it) => number.format(it);
export const many = (count, one, more = `${one}s`) => `${n(count)} ${count === 1 ? one : more}`;

export function inBytes(count) {
    if (count < 1000) return many(Math.round(count), "byte");
    const unit = ["KB", "MB", "GB"].find((_, i) => count < 1000 ** (i + 2)) ?? "GB";
    return `${(count / 1000 ** (["KB", "MB", "GB"].indexOf(unit) + 1)).toFixed(1)} ${unit}`;
}

export function inTime(ms) {
    return ms < 1 ? "under 1 ms" : ms < 1000 ? `${n(Math.round(ms))} ms` : `${(ms / 1000).toFixed(1)} s`;
}

// Control characters, and those that have no width or turn the direction of a line: names come from anyone.
const UNSEEN = /[\u0000-\u0008\u000b-\u001f\u007f-\u009f\u00ad\u061c\u180e\u200b-\u200f\u2028-\u202e\u2060-\u206f\ufeff]/g;

/** A text with what can't be seen in it spelled as `\u{..}`. */
export const visible = (text) => text.replace(UNSEEN, (it) => `\\u{${it.charCodeAt(0).toString(16)}}`);

export function cut(text, most = SHOWN_TEXT) {
    return text.length <= most ? visible(text) : `${visible(text.slice(0, most))} … (${n(text.length - most)} more characters)`;
}

export function element(kind, of = "", ...inside) {
    const made = document.createElement(kind);
    if (of) made.className = of;
    made.append(...inside);
    return made;
}

export async function copy(button, text) {
    const was = button.textContent;
    try {
        await navigator.clipboard.writeText(text);
        button.textContent = "Copied";
    } catch {
        button.textContent = "Not allowed";
    }
    setTimeout(() => { button.textContent = was; }, 1200);
}

export function save(text, name) {
    const link = element("a");
    link.href = URL.createObjectURL(new Blob([text], { type: "text/plain" }));
    link.download = name;
    link.click();
    setTimeout(() => URL.revokeObjectURL(link.href), 10_000);
}
