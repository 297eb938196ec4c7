// The package in Node: the module is read and compiled when the package is imported.
import { readFileSync } from "node:fs";
import { use } from "./calls.js";

use(new WebAssembly.Module(readFileSync(new URL("symdemangle.wasm", import.meta.url))));

export * from "./names.js";
