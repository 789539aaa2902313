// One data connection, and the stream over it, until and after somebody has it.
import { Deferred } from "./deferred.js";
import { PeerStream } from "./peer-stream.js";
import { Frames } from "./reasons.js";

/** @typedef {import("../address.js").Address} Address */

/** An error of a stream that has not been delivered yet. */
const unseen = () => {};

/** A data connection to the server, and the stream to its peer. */
export class Connection {
    /** Whether the server has bound it to the peer: what comes is the peer's then. */
    isBound = false;
    /** Whether a user has the stream. */
    isTaken = false;
    /**
     * Settled when it has ended.
     * @type {Deferred<void>}
     */
    gone = new Deferred();
    /** The server's messages, before it is bound. */
    frames = new Frames();
    #streams;

    /**
     * @param {import("./streams.js").Streams} streams
     * @param {import("./data-link.js").DataLink} link
     * @param {Address} peer
     * @param {Address} relayed
     * @param {boolean} isOwn whether `connect` has asked for it, and not the peer
     */
    constructor(streams, link, peer, relayed, isOwn) {
        this.#streams = streams;
        this.link = link;
        this.peer = peer;
        this.isOwn = isOwn;
        this.stream = new PeerStream({
            link, peer, relayed, packetOf: (data) => streams.packetOf(peer, data), destroyed: () => streams.closed(this, undefined),
        });
        this.stream.on("error", unseen);
        link.user = this;
    }

    /** Gives the stream to a user, who has its errors from now on. */
    take() {
        this.isTaken = true;
        this.stream.off("error", unseen);
        return this.stream;
    }

    /**
     * Takes data of the peer. What a listener throws is thrown if it cannot stop the client.
     * @param {Buffer} data
     */
    feed(data) {
        try {
            if (!this.stream.destroyed && !this.stream.push(data)) {
                this.link.pause();
            }
        } catch (error) {
            process.nextTick(() => {
                throw error;
            });
        }
    }

    /**
     * The connection is gone.
     * @param {Error | undefined} error
     */
    lose(error) {
        if (error || !this.isTaken) {
            this.stream.destroy(error);
        } else if (!this.stream.destroyed) {
            this.stream.push(null);
            this.stream.read(0); // so that `end` is emitted, where nothing waits to be read
        }
    }

    // The link

    /**
     * Takes what has come over it.
     * @param {Buffer} data
     */
    received(data) {
        this.#streams.received(this, data);
    }

    /**
     * The server or an error has closed it, or the user has and all has left.
     * @param {Error | undefined} error
     */
    ended(error) {
        this.#streams.closed(this, error);
        this.lose(error);
    }

    /** Errors that end no link are those of datagrams. */
    refused() {}

    /** Each write has a callback of its own. */
    drained() {}
}
