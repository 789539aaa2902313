// A client of the module at any place of a run, again and again. All that a client is stands in the memory of the module: so that
// memory is kept at intervals, and a client comes to a place from what was kept before it, and not from the run's beginning.
import { answerTo } from "../yarrowdoor/lines/answers.js";
import { parseCall, parseHead } from "../yarrowdoor/lines/lines.js";
import { Client } from "../yarrowdoor/src/client.js";
import { Refused } from "../yarrowdoor/src/errors.js";

/** The calls between two places at which the memory is kept; and the memories that are kept, which the calls between grow for. */
const INTERVAL = 16, MOST_KEPT = 48;
/** A library has room for so much data from the start. */
const ROOM = 60_000;

/**
 * Has a library reserve the room for the largest data of a run, which it does on the first call that needs it: what is kept before
 * would know nothing of that room.
 */
function reserve(library, settings, length) {
    const client = new Client(settings, library);
    try {
        client.sendTo({ address: "192.0.2.1", port: 9 }, new Uint8Array(length), 0n, { transport: settings.allocation });
    } catch (error) {
        if (!(error instanceof Refused || error instanceof RangeError)) {
            throw error;
        }
    } finally {
        client.close();
    }
}

/** A run's client at its places. The library is for this alone, and has no other client until `close`. */
export class Timeline {
    #client;
    #calls;
    #interval;
    /** A block in the memory of the module, through which the memory can be seen. */
    #block;
    /** What the memory was after so many calls. */
    #kept = new Map();
    /** How many calls the client has made, or undefined while it may have made others. */
    #made;

    /**
     * BadLine.
     * @param {import("../yarrowdoor/src/library.js").Library} library
     * @param {string} head
     * @param {readonly string[]} lines
     */
    constructor(library, head, lines) {
        const settings = parseHead(head);
        this.#calls = lines.map((line) => parseCall(line, settings));
        this.#interval = Math.max(INTERVAL, Math.ceil(lines.length / MOST_KEPT));
        const largest = Math.max(0, ...this.#calls.map(({ data }) => data?.length ?? 0));
        if (largest > ROOM) {
            reserve(library, settings, largest);
        }
        this.#client = new Client(settings, library);
        this.#block = this.#client.buffer(1);
        this.#keep(0);
        this.#made = 0;
    }

    /** How many calls the run has. */
    get length() {
        return this.#calls.length;
    }

    /**
     * The first calls of the run, as a client takes them.
     * @param {number} count
     */
    calls(count) {
        return this.#calls.slice(0, count);
    }

    get #memory() {
        return new Uint8Array(this.#block.bytes.buffer);
    }

    #keep(count) {
        this.#kept.set(count, this.#memory.slice());
    }

    #restore(count) {
        this.#memory.set(this.#kept.get(count));
        this.#made = count;
    }

    /** Brings the client to where it has made so many calls. */
    #moveTo(count) {
        const near = Math.max(...[...this.#kept.keys()].filter((each) => each <= count));
        if (this.#made === undefined || this.#made > count || this.#made < near) {
            this.#restore(near);
        }
        while (this.#made < count) {
            answerTo(this.#client, this.#calls[this.#made]);
            this.#made += 1;
            if (this.#made % this.#interval === 0 && !this.#kept.has(this.#made)) {
                this.#keep(this.#made);
            }
        }
    }

    /**
     * What a use of the client gives that has made so many calls. What the use does to the client is undone.
     * @template T
     * @param {number} count
     * @param {(client: Client) => T} ask
     * @returns {T}
     */
    use(count, ask) {
        this.#moveTo(count);
        this.#made = undefined;
        return ask(this.#client);
    }

    /**
     * The same for many uses at one place, one after the other.
     * @template T
     * @param {number} count
     * @param {(use: <U>(ask: (client: Client) => U) => U) => T} askAll
     * @returns {T}
     */
    useOften(count, askAll) {
        const isKept = this.#kept.has(count);
        this.#moveTo(count);
        isKept || this.#keep(count);
        try {
            return askAll((ask) => this.use(count, ask));
        } finally {
            isKept || this.#kept.delete(count);
            this.#made = undefined;
        }
    }

    /** Frees the client. */
    close() {
        this.#restore(0);
        this.#block.free();
        this.#client.close();
    }
}
