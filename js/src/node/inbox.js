// Data of peers that waits to be taken.
import { Deferred } from "./deferred.js";

/** @typedef {import("../address.js").Address} Address */
/**
 * Who sent data, and how many bytes it has, as `dgram` says it.
 * @typedef {Address & { readonly size: number }} RemoteInfo
 */
/** @typedef {[data: Buffer, peer: RemoteInfo]} Packet */

/** A queue of packets with a limit: a further one is dropped, and counted. */
export class Inbox {
    /** How many packets were dropped. */
    dropped = 0;
    /** @type {Packet[]} */
    #packets = [];
    /** Up to where they are taken. */
    #taken = 0;
    /** @type {Deferred<Packet | undefined>[]} */
    #takers = [];
    #hasEnded = false;
    #size;

    /** @param {number} size */
    constructor(size) {
        this.#size = size;
    }

    /**
     * @param {Buffer} data
     * @param {RemoteInfo} peer
     */
    put(data, peer) {
        const taker = this.#takers.shift();
        if (taker) {
            taker.resolve([data, peer]);
        } else if (this.#packets.length - this.#taken >= this.#size) {
            this.dropped++;
        } else {
            this.#packets.push([data, peer]);
        }
    }

    /**
     * The next packet, if one waits.
     * @returns {Packet | undefined}
     */
    takeNow() {
        const found = this.#packets[this.#taken];
        if (found) {
            this.#taken++;
        }
        if (this.#taken > 0 && this.#taken >= this.#packets.length / 2) {
            this.#packets.splice(0, this.#taken);
            this.#taken = 0;
        }
        return found;
    }

    /** The next packet; undefined when all is taken and the relay has ended. */
    async take() {
        const found = this.takeNow();
        if (found || this.#hasEnded) {
            return found;
        }
        /** @type {Deferred<Packet | undefined>} */
        const taker = new Deferred();
        this.#takers.push(taker);
        return taker.promise;
    }

    /** No more data comes: who waits for some learns it. */
    end() {
        this.#hasEnded = true;
        this.#takers.splice(0).forEach((taker) => taker.resolve(undefined));
    }
}
