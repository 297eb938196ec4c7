// A file that is filtered in pieces: how much of it is done, its result, and its download.
import { $, inBytes, inTime, many, n } from "./show.js";

const PREVIEW = 4000; // bytes of the result that are shown

let job;

/** Whether this is the job that is running or shown. */
export const isCurrent = (id) => job?.id === id;

/** Shows a file that the worker was given under `id`, the first of `count`. */
export function startJob(id, file, count) {
    const [, front, end] = /^(.*?)(\.[^.]*)?$/s.exec(file.name);
    job = { id, file, name: `${front}.demangled${end ?? ".txt"}` };
    $("job").hidden = false;
    $("job-title").textContent = count > 1 ? `${file.name} (the first of ${n(count)}: one file at a time)` : file.name;
    $("progress").value = 0;
    $("job-progress").textContent = inBytes(file.size);
    $("job-status").textContent = "";
    $("preview").hidden = $("download").hidden = true;
    goesOn(true);
}

function goesOn(it) {
    $("progress").hidden = $("job-progress").hidden = $("stop").hidden = !it;
    $("close").hidden = it;
}

export function showProgress({ id, read, took }) {
    if (!isCurrent(id)) return;
    const { size } = job.file;
    $("progress").value = size ? read / size : 0;
    $("job-progress").textContent = `${inBytes(read)} of ${inBytes(size)}, ${inBytes((read / took) * 1000)} a second`;
}

/** Shows the result. */
export async function finishJob({ id, out, read, tally, took }) {
    if (!isCurrent(id)) return;
    job.url = URL.createObjectURL(out);
    goesOn(false);
    $("download").hidden = false;
    $("download").href = job.url;
    $("download").download = job.name;
    $("download").textContent = `Download ${job.name}`;
    $("job-status").textContent =
        `Done in ${inTime(took)}: ${many(tally.replaced, "name")} demangled, ${n(tally.refused)} refused; ${inBytes(read)} became ${inBytes(out.size)}.`;
    const front = await out.slice(0, PREVIEW).text();
    if (!isCurrent(id)) return;
    $("preview").textContent = front + (out.size > PREVIEW ? "…" : "");
    $("preview").hidden = false;
}

export function failJob(message) {
    goesOn(false);
    $("job-status").textContent = `It can’t be read: ${message}`;
}

/** Takes the job away; answers its id, or nothing where there was none. */
export function endJob() {
    if (!job) return undefined;
    const { id, url } = job;
    if (url) URL.revokeObjectURL(url);
    job = undefined;
    $("job").hidden = true;
    return id;
}
