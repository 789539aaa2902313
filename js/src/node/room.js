// The room in a socket for data, and who waits for it.
import { Deferred } from "./deferred.js";

/**
 * Those who wait for room in a socket, one after the other: who is released finds it, unless another one has sent meanwhile. If all were
 * let go at once, the first ones would fill the socket again, and the others would find it full.
 */
export class Room {
    /** @type {Deferred<void> | undefined} */
    #freed;
    /**
     * When those before are done.
     * @type {Promise<void>}
     */
    #last = Promise.resolve();
    #link;

    /** @param {{ readonly isFull: boolean, readonly isOver: boolean, send(data: Uint8Array): void }} link */
    constructor(link) {
        this.#link = link;
    }

    /**
     * Sends data, or drops it if the socket is full or the link has ended, and says whether it was handed over.
     * @param {Uint8Array} data
     */
    trySend(data) {
        if (this.#link.isOver || this.#link.isFull) {
            return false;
        }
        this.#link.send(data);
        return true;
    }

    /** There is room, or the link has ended. */
    freed() {
        this.#freed?.resolve();
        this.#freed = undefined;
    }

    /** Waits until there is room, or the link has ended. Who waited sends at once, before anything but promises is settled. */
    async wait() {
        const before = this.#last;
        /** @type {() => void} */
        let pass = () => {};
        this.#last = new Promise((resolve) => (pass = resolve));
        await before;
        while (this.#link.isFull && !this.#link.isOver) {
            this.#freed ??= new Deferred();
            await this.#freed.promise;
        }
        process.nextTick(pass); // it comes after all that waits for promises
    }
}
