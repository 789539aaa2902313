// A stream to a peer, as a Duplex of Node.
import { Duplex } from "node:stream";
import { linger } from "./lingering.js";

/** @typedef {import("../address.js").Address} Address */
/**
 * What a stream needs of its relay: the connection that carries it, the addresses of its ends, what bytes for the peer are sent as, and
 * what is called when it was destroyed.
 * @typedef {{ link: import("./data-link.js").DataLink, peer: Address, relayed: Address, packetOf: (data: Uint8Array) => Uint8Array,
 *     destroyed: () => void }} Ends
 */

/** The most bytes of one call of the client. */
const PIECE = 65_536;

/**
 * A stream to a peer over TCP (RFC 6062), used like a `net.Socket`: `relay.connect` gives one, and so does the event `connection`.
 *
 * There is no half-close, since the server ends both directions at once: after `end` what was written still leaves, and a second after
 * its last byte has left the connection is closed, for reading too. That it has left does not say that the peer has it: let the peer
 * confirm what matters. `destroy` closes at once, and drops what waits. If the peer or the server closes, both sides end.
 *
 * `error` is the socket's error (`ECONNRESET` if a peer of coturn closes), or an `Ended` if the relay has ended by itself.
 */
export class PeerStream extends Duplex {
    #link;
    #peer;
    #relayed;
    #packetOf;
    #destroyed;
    #hasWritten = false;

    /**
     * Use `relay.connect`.
     * @param {Ends} ends
     */
    constructor({ link, peer, relayed, packetOf, destroyed }) {
        super({ allowHalfOpen: false });
        this.#link = link;
        this.#peer = peer;
        this.#relayed = relayed;
        this.#packetOf = packetOf;
        this.#destroyed = destroyed;
    }

    /** The peer's IP address. */
    get remoteAddress() {
        return this.#peer.address;
    }

    /** The peer's port. */
    get remotePort() {
        return this.#peer.port;
    }

    /** The family of the peer's address: `"IPv4"` or `"IPv6"`. */
    get remoteFamily() {
        return this.#peer.family;
    }

    /** The relayed IP address, which the peer sees. */
    get localAddress() {
        return this.#relayed.address;
    }

    /** The relayed address's port. What a peer sees of a stream that `connect` has made is the server's choice. */
    get localPort() {
        return this.#relayed.port;
    }

    /** Has the stream keep the program running, as it does at first. */
    ref() {
        this.#link.setKept(true);
        return this;
    }

    /** Lets the program end although the stream is open. */
    unref() {
        this.#link.setKept(false);
        return this;
    }

    /** Has the connection read, since there is room. */
    _read() {
        this.#link.resume();
    }

    /**
     * Sends bytes, in pieces that the client takes.
     * @param {Uint8Array} chunk
     * @param {string} _encoding
     * @param {(error?: Error | null) => void} callback
     */
    _write(chunk, _encoding, callback) {
        if (this.#link.isOver) {
            callback(Object.assign(new Error("the stream was closed by the peer or the server"), { code: "EPIPE" }));
            return;
        }
        this.#hasWritten = true;
        try {
            let at = 0;
            for (; at + PIECE < chunk.length; at += PIECE) {
                this.#link.write(this.#packetOf(chunk.subarray(at, at + PIECE)), () => {}); // the last one has its error, too
            }
            this.#link.write(this.#packetOf(chunk.subarray(at)), callback);
        } catch (error) {
            callback(/** @type {Error} */ (error));
        }
    }

    /**
     * Closes the connection some time after what was written has left.
     * @param {(error?: Error | null) => void} callback
     */
    _final(callback) {
        const left = this.#hasWritten ? linger(this.#link) : Promise.resolve();
        left.then(() => {
            this.#link.close();
            callback();
        }, callback);
    }

    /**
     * Closes the connection at once.
     * @param {Error | null} error
     * @param {(error?: Error | null) => void} callback
     */
    _destroy(error, callback) {
        this.#link.destroy();
        this.#destroyed();
        callback(error);
    }
}
