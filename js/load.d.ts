import type { Bytes } from "./index.js";

/** All calls of the package: `n.pieces(bytes)`, `new n.Decoder()`. */
export type Noddychest = typeof import("./index.js");

declare global {
    /** Those of browsers and Node, for programs whose `lib` has none. */
    interface URL {}
    interface Request {}
    interface Response {}
    namespace WebAssembly {
        interface Module {}
    }
}

/** A module of WebAssembly that the package has: its bytes, compiled, a response with it, or its address. */
export type Source = Bytes | (WebAssembly.Module & object) | Response | Request | URL | string;

/**
 * The calls of the package, once its module is compiled. The import of this entry awaits nothing: so a worker that imports it hears every
 * message, and a service worker can import it. Call it while the worker starts, and await it where a message or an event is handled.
 *
 * Without an argument it takes the `.wasm` file next to itself, or next to its bundle; each such call gives the same calls, and
 * if one failed the next tries again. In Node they are those of `import "noddychest"`. With an argument it makes new calls, which share
 * nothing with others but `FaultError`, and take 16 MiB. A string is an address, as `fetch` takes it; in Node it may begin with `file:`.
 *
 * Another object, or a module that is not the package's, is a `TypeError`, and what did not load an `Error` that names the address.
 */
export function load(source?: Source | PromiseLike<Source>): Promise<Noddychest>;
