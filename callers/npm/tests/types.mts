// What index.d.ts says of the calls; tsc reads it and nothing runs it.
import { Refused, counts, demangle, demangleAll, filterBytes, filterText, press, tryDemangle, version, type Options } from "symdemangle";

const options: Options = { brief: true, limit: 25_000 };
const texts: string[] = demangleAll(["_Z1fv", new Uint8Array()], options);
const all: string = demangle("_Z1fv") + tryDemangle("_Z1fv", options) + filterText("_Z1fv") + press("_Z1fv") + press("_Z1fv", { wide: true }) + version() + texts.join();
const { bytes, tally } = filterBytes(all);
const steps: number = counts("_Z1fv", { wide: false }).steps + tally.words + bytes.length;
try {
    tryDemangle("main");
} catch (error) {
    if (error instanceof Refused) console.log(error.status + error.offset + steps);
}
// @ts-expect-error
demangle("_Z1fv", { briefly: true });
// @ts-expect-error
demangle(1);
