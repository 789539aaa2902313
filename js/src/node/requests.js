// Who waits for which request: each is known by its transaction ID, with the code of its refusal.
import { Deferred } from "./deferred.js";
import { METHOD, idText, keyOf } from "./reasons.js";

/** @typedef {import("./reasons.js").Key} Key */
/** @typedef {import("../errors.js").Hint} Hint */
/**
 * What making a request came to: a packet will leave for it, another one has asked for the same, or it is granted already.
 * @typedef {"unsent" | "asked-before" | "granted"} Made
 */
/**
 * The last request of a key that was sent: the error that was seen, whether a success was, what that grants, in seconds, when it was
 * sent first, and how many milliseconds an answer took.
 * @typedef {{ id: string, key: Key, error: Hint | undefined, isGranted: boolean, lifetime: number | undefined, sent: number,
 *     took: number }} Asked
 */

/** So many requests wait to be sent at a time, so that few carry an outdated nonce, and closing waits for few. */
const MOST_UNSENT = 8;
/** So many requests are remembered, with what was answered: more than a client has permissions and channels. */
const MOST_REMEMBERED = 16_384;

/** The requests of a client: who waits for them, and what the server has answered. */
export class Requests {
    /** How many ALLOCATEs were sent: all but the first one are signed, and may have been granted. */
    allocates = 0;
    /** @type {Map<string, Deferred<void>>} */
    #waiters = new Map();
    /** @type {Set<string>} */
    #unsent = new Set();
    /** @type {{ key: Key, waiter: Deferred<void>, make: () => Made }[]} */
    #queue = [];
    /**
     * By the texts of their keys.
     * @type {Map<string, Asked>}
     */
    #asked = new Map();
    /**
     * By their transaction IDs.
     * @type {Map<string, Asked>}
     */
    #byId = new Map();
    #library;
    #clock;

    /**
     * @param {import("../library.js").Library} library
     * @param {import("./clock.js").Clock} clock
     */
    constructor(library, clock) {
        this.#library = library;
        this.#clock = clock;
    }

    /**
     * Makes a request, and waits until `settle` says how it went. Who asks for one that is under way waits for that one.
     * @param {Key} key
     * @param {() => Made} make
     */
    ask(key, make) {
        const before = this.#waiters.get(key.text);
        if (before && !before.isDone) {
            return before.promise;
        }
        /** @type {Deferred<void>} */
        const waiter = new Deferred();
        this.#waiters.set(key.text, waiter);
        this.#queue.push({ key, waiter, make });
        this.#makeNext();
        return waiter.promise;
    }

    #makeNext() {
        for (let next; this.#unsent.size < MOST_UNSENT && (next = this.#queue.shift()); ) {
            if (!next.waiter.isDone) {
                this.#make(next);
            }
        }
    }

    /** @param {{ key: Key, waiter: Deferred<void>, make: () => Made }} request */
    #make({ key, waiter, make }) {
        this.#forget(this.#asked.get(key.text));
        this.#unsent.add(key.text);
        try {
            const made = make();
            if (made !== "unsent") {
                this.#unsent.delete(key.text);
            }
            if (made === "granted") {
                this.settle(key, undefined);
            }
        } catch (error) {
            this.#unsent.delete(key.text);
            waiter.reject(error);
            this.#waiters.delete(key.text);
        }
    }

    /**
     * A packet of the client leaves: if it is a request, its transaction is that of its key from now on.
     * @param {Uint8Array} packet
     * @param {import("../message.js").Message} message
     */
    sent(packet, message) {
        const id = idText(message.id);
        if (message.class !== "request" || this.#byId.has(id)) {
            return;
        }
        const key = keyOf(this.#library, message, packet);
        this.allocates += key.method === METHOD.ALLOCATE ? 1 : 0;
        this.#forget(this.#asked.get(key.text));
        const asked = { id, key, error: undefined, isGranted: false, lifetime: undefined, sent: this.#clock.now(), took: 0 };
        this.#asked.set(key.text, asked);
        this.#byId.set(id, asked);
        if (this.#asked.size > MOST_REMEMBERED) {
            this.#forget(this.#asked.values().next().value);
        }
        if (this.#unsent.delete(key.text)) {
            this.#makeNext();
        }
    }

    /**
     * The request that a response belongs to, where it is remembered.
     * @param {import("../message.js").Message} message
     */
    answered(message) {
        return message.class === "success" || message.class === "error" ? this.#byId.get(idText(message.id)) : undefined;
    }

    /**
     * The last request of this key that was sent.
     * @param {Key} key
     */
    last(key) {
        return this.#asked.get(key.text);
    }

    /** @param {Asked | undefined} asked */
    #forget(asked) {
        if (asked) {
            this.#asked.delete(asked.key.text);
            this.#byId.delete(asked.id);
        }
    }

    /**
     * Settles the promise of a request, and says whether one was waiting.
     * @param {Key} key
     * @param {Error | undefined} error
     */
    settle(key, error) {
        const waiter = this.#waiters.get(key.text);
        this.#waiters.delete(key.text);
        const waited = waiter !== undefined && (error ? waiter.reject(error) : waiter.resolve());
        if (this.#unsent.delete(key.text)) {
            queueMicrotask(() => this.#makeNext());
        }
        return waited;
    }

    /**
     * Nothing is answered any more: who waits gets this error.
     * @param {() => Error} error
     */
    end(error) {
        this.#queue = [];
        for (const waiter of this.#waiters.values()) {
            waiter.reject(error());
        }
        this.#waiters.clear();
    }
}
