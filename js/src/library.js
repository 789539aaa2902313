// The module as its users have it: one is enough for all clients of a program.
import { ModuleBuffer } from "./buffer.js";
import { LibraryError, OutOfMemory } from "./errors.js";
import { bytesOf, textOf } from "./load.js";
import { Module } from "./module.js";

/** What the error says that comes where the package does not find its own module. */
const BUNDLED = ". In a bundle without it, pass in the bytes of yarrowdoor/yarrowdoor.wasm: Library.load({ source })";

/** @type {Promise<Library> | undefined} */
let shared;
/** @type {(library: Library) => Module} */
let inside;

/**
 * The compiled module with its memory. Nothing of it can be shared between threads: each worker loads its own.
 *
 * If an engine stops a call, as when its stack is used up, the memory may be left halfway: then all clients of the library are
 * lost, and each later call is a LibraryError.
 */
export class Library {
    #module;

    static {
        inside = (library) => library.#module;
    }

    /**
     * Compiles the module, by default that of the package. `source` is its bytes, a `WebAssembly.Module`, a `Response`, a URL, or the
     * text of one; in Node also the path of a file. Its memory has at most `memoryLimit` bytes (over 1 MB): a call for more fails with
     * OutOfMemory. LibraryError if it is no such module.
     * @param {{ source?: import("./load.js").Source, memoryLimit?: number }} options
     * @returns {Promise<Library>}
     */
    static async load({ source, memoryLimit = Infinity } = {}) {
        if (typeof memoryLimit !== "number" || !(memoryLimit > 0)) {
            throw new RangeError(`memoryLimit is a number of bytes, and not ${String(memoryLimit)}`);
        }
        try {
            const found = source ?? new URL("../yarrowdoor.wasm", import.meta.url); // a literal, which webpack and Vite understand
            const compiled = found instanceof WebAssembly.Module ? found
                : await WebAssembly.compile(await bytesOf(found));
            const instance = await WebAssembly.instantiate(compiled, {});
            const exports = /** @type {import("./module.js").Exports} */ (/** @type {unknown} */ (instance.exports));
            return new Library(new Module(exports, memoryLimit));
        } catch (error) {
            throw error instanceof OutOfMemory ? error
                : new LibraryError(`the module cannot be loaded: ${textOf(error)}${source === undefined ? BUNDLED : ""}`, error);
        }
    }

    /**
     * The library that all share who load none: it is loaded once.
     * @returns {Promise<Library>}
     */
    static shared() {
        shared ??= Library.load().catch((error) => {
            shared = undefined;
            throw error;
        });
        return shared;
    }

    /**
     * Use `Library.load`.
     * @private
     * @param {Module} module
     */
    constructor(module) {
        this.#module = module;
    }

    /** Bytes that the memory of the module has. It never has less again. */
    get memorySize() {
        return this.#module.memorySize;
    }

    /**
     * A buffer of this many bytes in the memory of the module. It is yours until its `free`. RangeError, OutOfMemory.
     * @param {number} length
     */
    buffer(length) {
        return new ModuleBuffer(this.#module, length);
    }
}

/**
 * The inside of a library, which no user has. TypeError if it is none.
 * @param {Library} library
 */
export function moduleOf(library) {
    if (!(library instanceof Library)) {
        throw new TypeError("a library is what Library.load() gives");
    }
    return inside(library);
}
