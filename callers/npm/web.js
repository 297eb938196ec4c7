// The package in browsers and workers: the module is fetched from beside this file when the package is imported.
import { use } from "./calls.js";

const answer = await fetch(new URL("symdemangle.wasm", import.meta.url));
if (!answer.ok) throw new Error(`symdemangle.wasm: ${answer.status}`);
use(await WebAssembly.compile(await answer.arrayBuffer()));

export * from "./names.js";
