// Data of peers for who listens, or who takes it: the events of a relay.
import { RelayEmitter } from "./events.js";
import { Inbox } from "./inbox.js";

/** @typedef {import("../address.js").Address} Address */
/** @typedef {import("./events.js").RelayEvents} RelayEvents */
/** @typedef {import("./inbox.js").RemoteInfo} RemoteInfo */

/**
 * @param {Address} peer
 * @param {number} size
 * @returns {RemoteInfo}
 */
function remoteInfo(peer, size) {
    const { address, port, family } = peer;
    return peer.flow === undefined ? { address, port, family, size } : { ...peer, size };
}

/** An emitter whose `message` events can be taken by `for await` too, if there is no listener. */
export class Messages extends RelayEmitter {
    #inbox;
    /** @type {import("../errors.js").Ended | undefined} */
    #why;
    /** How many `for await` have begun, and have not ended or been left. */
    #iterating = 0;

    /** @param {number} queue */
    constructor(queue) {
        super();
        this.#inbox = new Inbox(queue);
        this.on("newListener", (name) => {
            if (name === "message") {
                process.nextTick(() => this.#emitWaiting());
            }
        });
    }

    /** How many packets of peers were dropped, since `queue` were waiting. */
    get dropped() {
        return this.#inbox.dropped;
    }

    /**
     * Data has come.
     * @param {Buffer} data
     * @param {Address} peer
     * @protected
     */
    put(data, peer) {
        const from = remoteInfo(peer, data.length);
        if (this.listenerCount("message") > 0) {
            this.#emitWaiting();
            this.#emitNow(data, from);
        } else {
            this.#inbox.put(data, from);
        }
    }

    /** Emits what came before there was a listener. */
    #emitWaiting() {
        for (let packet; this.listenerCount("message") > 0 && (packet = this.#inbox.takeNow()); ) {
            this.#emitNow(...packet);
        }
    }

    /**
     * Passes on data. What a listener throws is thrown if it cannot stop the client.
     * @param {Buffer} data
     * @param {RemoteInfo} peer
     */
    #emitNow(data, peer) {
        try {
            this.emit("message", data, peer);
        } catch (error) {
            process.nextTick(() => {
                throw error;
            });
        }
    }

    /**
     * Emits something when what is under way is done.
     * @template {keyof RelayEvents} Name
     * @param {Name} name
     * @param {Parameters<RelayEvents[Name]>} words
     * @protected
     */
    emitLater(name, ...words) {
        process.nextTick(() => this.emit(name, .../** @type {any} */ (words)));
    }

    /**
     * No more comes: `close`, and `error` before it if it has ended by itself.
     * @param {import("../errors.js").Ended | undefined} why
     * @protected
     */
    end(why) {
        this.#why = why;
        this.#inbox.end();
        if (why && (this.listenerCount("error") > 0 || this.#iterating === 0)) {
            this.emitLater("error", why);
        }
        this.emitLater("close");
    }

    /**
     * The data of peers that no listener had, in order. It ends when the relay is closed; `Ended` if it ended by itself.
     * @returns {AsyncGenerator<[data: Buffer, peer: RemoteInfo], void, void>}
     */
    async *[Symbol.asyncIterator]() {
        this.#iterating++;
        try {
            for (let packet; (packet = await this.#inbox.take()); ) {
                yield packet;
            }
        } finally {
            this.#iterating--;
        }
        if (this.#why) {
            throw this.#why;
        }
    }
}
