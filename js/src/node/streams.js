// All streams of a relay to peers over TCP (RFC 6062): those that are asked for, and those that peers offer.
import { ConnectFailed, Refused } from "../errors.js";
import { canonicalIp } from "../address.js";
import { Connecting, EndedUnbound, textOf } from "./connecting.js";
import { Connection } from "./connection.js";
import { connectionKey } from "./reasons.js";

/** @typedef {import("../address.js").Address} Address */

/** The most connections of peers that wait to be taken, those that are being opened among them. A further one is refused. */
const BACKLOG = 64;
/** How long a data connection may take to open, in milliseconds: a server waits no longer for it (RFC 6062, section 5.2). */
const OPEN_WAIT = 30_000;

/** The data connections of a session. */
export class Streams {
    /**
     * By the texts of their peers' keys.
     * @type {Map<string, Connection>}
     */
    #connections = new Map();
    /** @type {Set<AbortController>} */
    #opening = new Set();
    /** How many connections that peers offer are being opened. */
    #offered = 0;
    /**
     * Bound, for peers that have connected, and not taken yet.
     * @type {Connection[]}
     */
    #accepted = [];
    #session;
    #connectTo;

    /**
     * @param {import("./session.js").Session} session
     * @param {import("./state.js").ConnectTo} connectTo
     */
    constructor(session, connectTo) {
        this.#session = session;
        this.#connectTo = connectTo;
        /** Those that users ask for. */
        this.connecting = new Connecting(session, this.#connections);
    }

    /** The next stream of a peer that has connected, if there is one. */
    accept() {
        return this.#accepted.shift()?.take();
    }

    // What the client asks for, and reports

    /**
     * Opens the data connection that the client wants, and passes it in.
     * @param {import("../answers.js").AllocateTcpSocket} wanted
     */
    async open(wanted) {
        const session = this.#session, key = connectionKey(wanted.peer), isOwn = this.connecting.asks(key);
        let connection;
        /** @type {Error | undefined} */
        let failure;
        try {
            connection = await this.#connection(wanted.peer, isOwn);
        } catch (error) {
            const text = `no data connection to the server for ${textOf(wanted.peer)}: ${/** @type {Error} */ (error).message}`;
            failure = new ConnectFailed(text, undefined, error);
        }
        if (session.isOver) {
            connection?.stream.destroy();
            return;
        }
        try {
            session.client.allocatedTcpSocket(wanted, connection?.link.local, session.clock.now());
        } catch (error) {
            failure = /** @type {Error} */ (error);
        }
        if (failure) {
            isOwn && session.requests.settle(key, failure); // the client has no event for it
            connection?.stream.destroy();
        }
        session.drive();
    }

    /**
     * A new data connection, or undefined where too many that peers offer wait already, or the relay is closed.
     * @param {Address} peer
     * @param {boolean} isOwn
     */
    async #connection(peer, isOwn) {
        const session = this.#session;
        if (session.state !== "open" || (!isOwn && this.#offers >= BACKLOG)) {
            return undefined;
        }
        const giveUp = new AbortController(), late = () => giveUp.abort(new Error(`it takes longer than ${OPEN_WAIT / 1_000} s`));
        const timer = setTimeout(late, OPEN_WAIT);
        this.#offered += isOwn ? 0 : 1;
        this.#opening.add(giveUp);
        try {
            const link = await this.#connectTo(giveUp.signal);
            const found = new Connection(this, link, peer, /** @type {Address} */ (session.address), isOwn);
            this.#connections.set(connectionKey(peer).text, found);
            return found;
        } finally {
            clearTimeout(timer);
            this.#offered -= isOwn ? 0 : 1;
            this.#opening.delete(giveUp);
        }
    }

    /** How many connections of peers are being opened, or wait. */
    get #offers() {
        return this.#offered + [...this.#connections.values()].filter(({ isOwn, isTaken }) => !isOwn && !isTaken).length;
    }

    /**
     * The data connection to a peer is bound.
     * @param {Address} peer
     */
    connected(peer) {
        const key = connectionKey(peer), found = this.#connections.get(key.text);
        if (!found) {
            return;
        }
        found.isBound = true;
        this.#session.requests.settle(key, undefined);
        if (found.isOwn) {
            this.connecting.closeUnwanted(key);
        } else {
            this.#accepted.push(found);
            this.#session.user.offered(this.#session);
        }
    }

    /**
     * Takes data of a peer.
     * @param {Buffer} data
     * @param {Address} peer
     */
    feed(data, peer) {
        this.#connections.get(connectionKey(peer).text)?.feed(data);
    }

    /**
     * The connection with this local address.
     * @param {Address} local
     */
    at({ address, port }) {
        return [...this.#connections.values()].find(({ link: { local } }) => local.port === port && canonicalIp(local.address) === address);
    }

    /**
     * Closes a connection that the client has no use for.
     * @param {Address} local
     */
    drop(local) {
        const found = this.at(local);
        if (found) {
            found.link.destroy();
            found.ended(undefined);
        }
    }

    // What connections report

    /**
     * What bytes for a peer are sent as. A connection stays when the permission of its peer ends (RFC 6062, section 4.4), and data goes
     * over it as it is (section 5).
     * @param {Address} peer
     * @param {Uint8Array} data
     */
    packetOf(peer, data) {
        const { client, clock } = this.#session;
        try {
            return client.sendTo(peer, data, clock.now()).data;
        } catch (error) {
            if (!(error instanceof Refused) || error.reason !== "no-permission") {
                throw error;
            }
            return data;
        }
    }

    /**
     * Bytes have come over a connection.
     * @param {Connection} connection
     * @param {Buffer} data
     */
    received(connection, data) {
        this.#session.receivedOver(connection, data);
    }

    /**
     * A connection has ended, by the server, by an error or by the user.
     * @param {Connection} connection
     * @param {Error | undefined} error
     */
    closed(connection, error) {
        const key = connectionKey(connection.peer);
        connection.gone.resolve();
        if (this.#connections.get(key.text) !== connection) {
            return;
        }
        this.#connections.delete(key.text);
        this.#accepted = this.#accepted.filter((other) => other !== connection);
        if (!this.#session.isOver) {
            this.#session.endedOver(connection.link);
        }
        if (connection.isOwn && !connection.isBound) {
            const text = `the server closed the connection for ${textOf(connection.peer)}`;
            this.#session.requests.settle(key, new EndedUnbound(text, undefined, error));
        }
    }

    // The end

    /**
     * Ends all streams, each some time after what was written has left it. What is given is settled when all are gone; undefined where
     * there is none.
     */
    close() {
        const connections = [...this.#connections.values()];
        connections.forEach(({ stream }) => stream.end());
        return connections.length > 0 ? Promise.all(connections.map(({ gone }) => gone.promise)) : undefined;
    }

    /**
     * Closes all streams at once, since the client has ended: with an error each if it has ended by itself.
     * @param {() => Error | undefined} error
     */
    end(error) {
        this.#opening.forEach((opening) => opening.abort(new Error("the relay has ended")));
        this.#connections.forEach(({ stream }) => stream.destroy(error()));
    }
}
