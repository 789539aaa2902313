// The inside of a library: the memory of the module, and its calls.
import { ModuleBuffer } from "./buffer.js";
import { Ended, LibraryError, OutOfMemory } from "./errors.js";
import { ANSWER, KIND, MAX_OVERHEAD, MAX_PAYLOAD, SIZE } from "./layout.js";
import { textOf } from "./load.js";

/**
 * What the module exports.
 * @typedef {{ memory: { readonly buffer: ArrayBuffer }, alloc(len: number): number, dealloc(place: number): void, limit(bytes: number): void,
 *     client_new(settings: number, user: number, userLen: number, password: number, passwordLen: number, seed: number,
 *         seedLen: number, place: number): number,
 *     client_call(client: number, request: number, now: number, bytes: number, len: number, buffer: number, room: number,
 *         answer: number): number,
 *     client_look(client: number, request: number, answer: number): number, client_free(client: number): void,
 *     kept_grants(place: number): void, longest_cadence(place: number): void,
 *     read_message(transport: number, bytes: number, len: number, message: number): number,
 *     read_attribute(bytes: number, len: number, type: number, place: number): number }} Exports
 */

/**
 * What is to be freed in the module: a client, or 0, and a block of memory.
 * @typedef {{ client: number, block: number }} Held
 */

/** Bytes that each buffer has at first: a packet, or data with what a packet may have beside it. */
const ROOM = MAX_PAYLOAD + 2 * MAX_OVERHEAD;

/**
 * The compiled module with its memory. If an engine stops a call, as when its stack is used up, the memory may be left halfway:
 * then all clients are lost, and each later call is a LibraryError.
 */
export class Module {
    /** @type {Exports} */
    #exports;
    /** @type {unknown} */
    #fault;
    /** @type {FinalizationRegistry<Held>} */
    #registry;
    /** The memory as it is now. When it grows it is another one. */
    bytes = new Uint8Array();
    /** The same, for numbers. */
    view = new DataView(new ArrayBuffer(0));
    /** Room for settings, an answer, a message, two numbers, and a load with two numbers behind it. */
    settings = 0;
    answer = 0;
    message = 0;
    pair = 0;
    load = 0;
    /** Where bytes are put that are passed in, and where packets and data come out. */
    #input;
    #output;

    /**
     * @param {Exports} exports
     * @param {number} memoryLimit
     */
    constructor(exports, memoryLimit) {
        this.#exports = exports;
        this.#registry = new FinalizationRegistry((held) => this.release(held));
        this.renew();
        exports.limit(memoryLimit);
        [this.settings, this.answer, this.message, this.pair, this.load] =
            [SIZE.SETTINGS, SIZE.ANSWER, SIZE.MESSAGE, 8, SIZE.LOAD + 16].map((len) => this.alloc(len));
        this.#input = this.buffer(ROOM);
        this.#output = this.buffer(ROOM);
    }

    /** Bytes that the memory of the module has. It never has less again. */
    get memorySize() {
        return this.#exports.memory.buffer.byteLength;
    }

    /** Takes the memory as it is, where it has grown. */
    renew() {
        if (this.bytes.length === 0) {
            const { buffer } = this.#exports.memory;
            this.bytes = new Uint8Array(buffer);
            this.view = new DataView(buffer);
        }
    }

    /**
     * @param {unknown} error
     * @returns {never}
     */
    #stop(error) {
        this.#fault ??= error;
        throw new LibraryError(`the module has stopped: ${textOf(error)}`, error);
    }

    #check() {
        if (this.#fault !== undefined) {
            throw new LibraryError(`the module has stopped before: ${textOf(this.#fault)}`, this.#fault);
        }
    }

    /**
     * Throws why a client cannot be called.
     * @returns {never}
     */
    #refuse() {
        this.#check();
        throw new Ended("the client was closed");
    }

    /**
     * Memory of the module, at a multiple of 16. OutOfMemory.
     * @param {number} len
     */
    alloc(len) {
        this.#check();
        const place = this.#exports.alloc(len);
        this.renew();
        if (place === 0) {
            throw new OutOfMemory();
        }
        return place;
    }

    /** @param {number} place */
    dealloc(place) {
        if (this.#fault === undefined) {
            this.#exports.dealloc(place);
        }
    }

    /**
     * A buffer of this many bytes in the memory of the module. It is yours until its `free`. RangeError, OutOfMemory.
     * @param {number} length
     */
    buffer(length) {
        return new ModuleBuffer(this, length);
    }

    /**
     * Where bytes are in the module: as they lie there already, or copied.
     * @param {Uint8Array} data
     */
    put(data) {
        return data.buffer === this.bytes.buffer ? data.byteOffset : this.inputOf(data).place;
    }

    /**
     * Bytes, copied to the front of a buffer that all calls share: only for the next call.
     * @param {Uint8Array} data
     */
    inputOf(data) {
        const { length, byteOffset } = data, isThere = data.buffer === this.bytes.buffer;
        if (length > this.#input.length) {
            this.#input = this.#larger(this.#input, length);
        }
        if (isThere) {
            this.bytes.copyWithin(this.#input.place, byteOffset, byteOffset + length); // data is empty where the memory has grown
        } else {
            this.bytes.set(data, this.#input.place);
        }
        return this.#input;
    }

    /**
     * A buffer of this many bytes or more that come out, which all calls share: to be read before the next call.
     * @param {number} length
     */
    outputOf(length) {
        if (length > this.#output.length) {
            this.#output = this.#larger(this.#output, length);
        }
        return this.#output;
    }

    /**
     * @param {ModuleBuffer} before
     * @param {number} length
     */
    #larger(before, length) {
        const larger = this.buffer(length);
        before.free();
        return larger;
    }

    /**
     * Makes a client by the settings that stand there.
     * @param {Uint8Array} user
     * @param {Uint8Array} password
     * @param {Uint8Array} seed
     * @returns {{ kind: number, client: number }}
     */
    make(user, password, seed) {
        const len = user.length + password.length + seed.length, block = this.alloc(Math.max(len, 1));
        this.bytes.set(user, block);
        this.bytes.set(password, block + user.length);
        this.bytes.set(seed, block + user.length + password.length);
        let kind = 0;
        try {
            kind = this.#exports.client_new(this.settings, block, user.length, block + user.length, password.length,
                block + user.length + password.length, seed.length, this.pair);
        } catch (error) {
            this.#stop(error);
        }
        this.renew();
        this.bytes.fill(0, block, block + len);
        this.dealloc(block);
        return { kind, client: this.view.getUint32(this.pair, true) };
    }

    /**
     * Makes a call, and gives the kind of its answer. `now` is in nanoseconds; less than 0 is the time that stands in the request.
     * @param {Held} held
     * @param {number} request
     * @param {number} now
     * @param {number} bytes
     * @param {number} len
     * @param {number} buffer
     * @param {number} room
     */
    call(held, request, now, bytes, len, buffer, room) {
        if (held.client === 0 || this.#fault !== undefined) {
            this.#refuse();
        }
        let kind = 0;
        try {
            kind = this.#exports.client_call(held.client, request, now, bytes, len, buffer, room, this.answer);
        } catch (error) {
            this.#stop(error);
        }
        if (this.bytes.length === 0) {
            this.renew();
        }
        return kind;
    }

    /**
     * Makes a call that only looks.
     * @param {Held} held
     * @param {number} request
     */
    look(held, request) {
        if (held.client === 0 || this.#fault !== undefined) {
            this.#refuse();
        }
        try {
            return this.#exports.client_look(held.client, request, this.answer);
        } catch (error) {
            return this.#stop(error);
        }
    }

    /**
     * Reads the first frame of bytes into `message`.
     * @param {number} transport
     * @param {number} place
     * @param {number} len
     */
    readMessage(transport, place, len) {
        this.#check();
        try {
            return this.#exports.read_message(transport, place, len, this.message);
        } catch (error) {
            return this.#stop(error);
        }
    }

    /**
     * Finds an attribute, whose place and length are then at `pair`.
     * @param {number} place
     * @param {number} len
     * @param {number} type
     */
    readAttribute(place, len, type) {
        this.#check();
        try {
            return this.#exports.read_attribute(place, len, type, this.pair);
        } catch (error) {
            return this.#stop(error);
        }
    }

    /** How many grants are kept, by the load and the two settings that stand at `load`. */
    keptGrants() {
        return this.#computed((exports) => exports.kept_grants(this.load));
    }

    /** The longest pause, by the load, the count and the setting that stand at `load`. */
    longestCadence() {
        return this.#computed((exports) => exports.longest_cadence(this.load));
    }

    /**
     * What a function of the module puts to the front of `load`.
     * @param {(exports: Exports) => void} compute
     */
    #computed(compute) {
        this.#check();
        try {
            compute(this.#exports);
        } catch (error) {
            this.#stop(error);
        }
        return this.view.getBigUint64(this.load, true);
    }

    /**
     * The bytes of the answer in the buffer, and those that did not fit, which are read.
     * @param {Held} held
     * @param {number} readRequest
     * @param {number} buffer
     * @param {number} room
     */
    takeBytes(held, readRequest, buffer, room) {
        const { view } = this, len = view.getUint32(this.answer + ANSWER.LEN, true);
        const left = view.getUint32(this.answer + ANSWER.LEFT, true);
        if (left === 0) {
            return this.bytes.slice(buffer, buffer + len);
        }
        const all = new Uint8Array(len + left);
        for (let at = 0, more = len; ; more = this.view.getUint32(this.answer + ANSWER.LEN, true)) {
            all.set(this.bytes.subarray(buffer, buffer + more), at);
            at += more;
            if (at >= all.length || this.call(held, readRequest, 0, 0, 0, buffer, room) !== KIND.BYTES) {
                return all;
            }
        }
    }

    /**
     * Has a client freed when its object is collected.
     * @param {object} client
     * @param {Held} held
     */
    watch(client, held) {
        this.#registry.register(client, { ...held }, held);
    }

    /**
     * Frees a client that is closed, or memory.
     * @param {Held} held
     */
    free(held) {
        this.#registry.unregister(held);
        this.release(held);
        held.client = held.block = 0;
    }

    /** @param {Held} held */
    release(held) {
        if (this.#fault === undefined && held.block !== 0) {
            try {
                if (held.client !== 0) {
                    this.#exports.client_free(held.client);
                }
                this.#exports.dealloc(held.block);
            } catch (error) {
                this.#fault = error;
            }
        }
    }
}
