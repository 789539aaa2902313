// Memory of the module that the caller fills and reads, so that calls copy nothing.
import { DISPOSE } from "./dispose.js";

const EMPTY = new Uint8Array();
/** A memory of 32 bits has no more. */
const MOST = 2 ** 31 - 1;
/** @type {(buffer: unknown, module: Module) => buffer is ModuleBuffer} */
let liesIn;

/** @typedef {import("./module.js").Module} Module */

/**
 * A buffer in the memory of a library. `recvFrom` and `sendFrom` take what lies in it, and `sendFrom` writes into one. It is kept
 * until `free`, also where nothing refers to it.
 */
export class ModuleBuffer {
    #module;
    #held = { client: 0, block: 0 };
    #bytes = EMPTY;
    /** Where it begins in the memory of its library. */
    place = 0;
    /** How many bytes it has: none after `free`. */
    length = 0;

    static {
        liesIn = /** @type {typeof liesIn} */ (
            (buffer, module) => buffer instanceof ModuleBuffer && #module in buffer && buffer.#module === module);
    }

    /**
     * Use `client.buffer(length)` or `library.buffer(length)`. RangeError if the length is none, OutOfMemory.
     * @param {Module} module
     * @param {number} length
     */
    constructor(module, length) {
        if (!Number.isInteger(length) || length < 0 || length > MOST) {
            throw new RangeError(`a buffer has a length from 0 to ${MOST}, and not ${String(length)}`);
        }
        this.#module = module;
        this.place = this.#held.block = module.alloc(length);
        this.length = length;
    }

    /**
     * All of its bytes. Ask for them anew after each call: where the memory of the module has grown, what was given before is empty.
     * @returns {Uint8Array}
     */
    get bytes() {
        const { buffer } = this.#module.bytes;
        if (this.#bytes.buffer !== buffer) {
            this.#bytes = this.#held.block === 0 ? EMPTY : new Uint8Array(buffer, this.place, this.length);
        }
        return this.#bytes;
    }

    /** Gives the memory back. Bytes that were taken of it before are another's then, and not to be used. */
    free() {
        this.#module.free(this.#held);
        this.place = this.length = 0;
        this.#bytes = EMPTY;
    }

    /** The same as `free`, for `using`. */
    [DISPOSE]() {
        this.free();
    }
}

/**
 * The place of a part of a buffer. TypeError if it is no buffer of this module, RangeError if it has no such part.
 * @param {ModuleBuffer} buffer
 * @param {Module} module
 * @param {number} offset
 * @param {number} length
 * @param {string} name
 */
export function partOf(buffer, module, offset, length, name) {
    if (!liesIn(buffer, module)) {
        throw noBuffer(name);
    }
    if (offset >>> 0 !== offset || length >>> 0 !== length || offset + length > buffer.length) {
        throw noPart(buffer, offset, length, name);
    }
    return buffer.place + offset;
}

/** @param {string} name */
function noBuffer(name) {
    return new TypeError(`${name} is a buffer of the client's own library, as client.buffer(length) gives it`);
}

/**
 * @param {ModuleBuffer} buffer
 * @param {number} offset
 * @param {number} length
 * @param {string} name
 */
function noPart(buffer, offset, length, name) {
    return new RangeError(`${name} has ${buffer.length} bytes, and not ${String(length)} from ${String(offset)} on`);
}

/**
 * RangeError if a packet would be written over the data that it carries: the module is promised that they lie apart.
 * @param {number} place
 * @param {number} length
 * @param {number} into
 * @param {number} room
 */
export function checkApart(place, length, into, room) {
    if (length > 0 && place < into + room && into < place + length) {
        throw new RangeError("data lies where its packet is to be written: into is another part of the memory");
    }
}
