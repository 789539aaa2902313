// Connections to peers that a user asks for (RFC 6062, section 4.3): who waits for which, and who has given one up.
import { ConnectFailed, Refused } from "../errors.js";
import { abortable } from "./deferred.js";
import { connectionKey } from "./reasons.js";

/** @typedef {import("../address.js").Address} Address */
/** @typedef {import("./reasons.js").Key} Key */

/** The server closed a data connection before it was bound: its nonce may have been stale (docs/REAL-SERVERS.md in the repository). */
export class EndedUnbound extends ConnectFailed {}

/** @param {Address} peer */
export const textOf = ({ address, port }) => `${address}:${port}`;

/** The connections of a session that users ask for. */
export class Connecting {
    /** The peers of the CONNECTs that were made, and that the client has not asked to open a connection for yet. */
    #asked = new Set();
    /** The peers that a caller of `connect` waits for. */
    #wanted = new Set();
    #session;
    #connections;

    /**
     * @param {import("./session.js").Session} session
     * @param {Map<string, import("./connection.js").Connection>} connections by the texts of their peers' keys
     */
    constructor(session, connections) {
        this.#session = session;
        this.#connections = connections;
    }

    /**
     * Has the server connect to a peer. A connection that the server closed before it was bound is tried once more. One that is given
     * up is closed as soon as it is bound: a server keeps one that is not bound for 30 s, and refuses another so long.
     * @param {Address} peer
     * @param {AbortSignal | undefined} signal
     */
    async connect(peer, signal) {
        const key = connectionKey(peer);
        if (this.#wanted.has(key.text)) {
            throw new Refused("already-exists", 0, `a connection to ${textOf(peer)} is being opened`);
        }
        this.#wanted.add(key.text);
        try {
            await abortable(this.#session.grants.permit(peer.address), signal);
            await abortable(this.#bound(key, peer), signal);
            const found = this.#connections.get(key.text);
            if (!found) {
                throw new ConnectFailed(`the connection to ${textOf(peer)} has ended`);
            }
            return found.take();
        } finally {
            this.#wanted.delete(key.text);
            this.closeUnwanted(key);
        }
    }

    /**
     * Waits until there is a connection.
     * @param {Key} key
     * @param {Address} peer
     */
    async #bound(key, peer) {
        const { requests } = this.#session, ask = () => requests.ask(key, () => this.#make(key, peer));
        try {
            await ask();
        } catch (error) {
            if (!(error instanceof EndedUnbound) || !this.#wanted.has(key.text)) {
                throw error;
            }
            await ask();
        }
    }

    /**
     * @param {Key} key
     * @param {Address} peer
     * @returns {import("./requests.js").Made}
     */
    #make(key, peer) {
        this.#session.usable().tcpConnect(peer, this.#session.clock.now());
        this.#asked.add(key.text);
        this.#session.drive();
        return "unsent";
    }

    /**
     * Closes a connection that is bound, where all who asked for it have given it up.
     * @param {Key} key
     */
    closeUnwanted({ text }) {
        const found = this.#connections.get(text);
        if (found?.isOwn && found.isBound && !found.isTaken && !this.#wanted.has(text)) {
            found.stream.destroy();
        }
    }

    /**
     * Whether a connection that the client wants was asked for, and not offered by the peer.
     * @param {Key} key
     */
    asks({ text }) {
        return this.#asked.delete(text);
    }

    /**
     * There is no connection to a peer.
     * @param {Address} peer
     */
    failed(peer) {
        const { requests } = this.#session, key = connectionKey(peer);
        this.#asked.delete(key.text);
        requests.settle(key, new ConnectFailed(`no connection to ${textOf(peer)}`, requests.last(key)?.error));
    }
}
