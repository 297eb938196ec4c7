// What the package exports.
export {
    DEFAULT_LIMIT, Refused, counts, demangle, demangleAll, filterBytes, filterText, parts, press, tryDemangle, version,
} from "./calls.js";
