// One socket to the server: bytes out, bytes in, whether it is full, and how it ends.
import dgram from "node:dgram";
import net from "node:net";
import tls from "node:tls";
import { abortable, Deferred } from "./deferred.js";
import { Room } from "./room.js";

/**
 * What a link reports.
 * @typedef {{ received(data: Buffer): void, refused(error: Error): void, ended(error: Error | undefined): void,
 *     drained(): void }} LinkUser
 */
/** @typedef {DatagramLink | StreamLink} Link */
/**
 * What the user says of the socket: its own address, or a socket in place of a new one.
 * @typedef {{ readonly local?: import("./options.js").Local,
 *     readonly socket?: import("node:dgram").Socket | import("node:net").Socket }} Own
 */

/** This many packets are handed to the system before it has reported the first. More may be lost there silently. */
const MOST_PENDING = 256;
/** A stream on which nothing is sent is asked for a sign of life after so long, in milliseconds. */
const KEEPALIVE = 15_000;

/** @type {LinkUser} */
const NOBODY = { received() {}, refused() {}, ended() {}, drained() {} };

/**
 * @param {{ address?: string, port?: number, family?: string | number }} found
 * @returns {import("../address.js").AddressLike}
 */
function addressOf({ address = "", port = 0 }) {
    return { address: address.split("%")[0], port };
}

/**
 * Where a socket over UDP is connected to, or undefined if it is not.
 * @param {import("node:dgram").Socket} socket
 */
export function remoteOf(socket) {
    try {
        return socket.remoteAddress();
    } catch {
        return undefined;
    }
}

/** A socket over UDP, that is connected: what comes is from the server. */
export class DatagramLink {
    isStream = false;
    user = NOBODY;
    isOver = false;
    #socket;
    #pending = 0;
    room = new Room(this);

    /**
     * Connects a socket to the server: a new one, or that of the user.
     * @param {string} host
     * @param {number} port
     * @param {AbortSignal | undefined} signal
     * @param {Own} own
     */
    static async connect(host, port, signal, { local, socket: given } = {}) {
        const socket = given instanceof dgram.Socket ? given : dgram.createSocket(host.includes(":") ? "udp6" : "udp4");
        const connected = new Deferred(), onError = (/** @type {Error} */ error) => connected.reject(error);
        socket.once("error", onError);
        const connect = () => socket.connect(port, host, () => connected.resolve(undefined));
        try {
            if (given instanceof dgram.Socket && remoteOf(given)) {
                connected.resolve(undefined);
            } else if (local && (local.address !== undefined || local.port !== 0)) {
                socket.bind({ port: local.port, address: local.address, exclusive: true }, connect);
            } else {
                connect();
            }
            await abortable(connected.promise, signal);
        } catch (error) {
            socket.on("error", () => {}); // the caller has it already
            socket.close();
            throw error;
        }
        socket.off("error", onError);
        return new DatagramLink(socket);
    }

    /** @param {import("node:dgram").Socket} socket */
    constructor(socket) {
        this.#socket = socket;
        this.local = addressOf(socket.address());
        this.remote = addressOf(socket.remoteAddress());
        socket.on("message", (data) => this.user.received(data));
        socket.on("error", (error) => this.#refused(error));
        socket.on("close", () => this.#closed());
    }

    /** Whether the system has not reported yet what was handed to it. */
    get isFull() {
        return this.#pending >= MOST_PENDING;
    }

    /** @param {Error} error */
    #refused(error) {
        if (!this.isOver) {
            this.user.refused(error);
        }
    }

    #closed() {
        const wasOver = this.isOver;
        this.isOver = true;
        this.room.freed();
        if (!wasOver) {
            this.user.ended(undefined);
        }
    }

    /** @type {(error: Error | null) => void} */
    #sent = (error) => {
        const wasFull = this.isFull;
        this.#pending--;
        if (error) {
            this.#refused(error);
        }
        if (wasFull && !this.isOver) {
            this.room.freed();
            this.user.drained();
        }
    };

    /**
     * Sends a message of the client. One that is lost is retransmitted, or makes its request fail.
     * @param {Uint8Array} data
     */
    send(data) {
        if (!this.isOver) {
            this.#pending++;
            this.#socket.send(data, this.#sent);
        }
    }

    /** @param {boolean} isKept */
    setKept(isKept) {
        isKept ? this.#socket.ref() : this.#socket.unref();
    }

    close() {
        if (!this.isOver) {
            this.isOver = true;
            this.room.freed();
            this.#socket.close();
        }
    }
}

/** A connection over TCP or TLS. */
export class StreamLink {
    isStream = true;
    user = NOBODY;
    isOver = false;
    #socket;
    /** @type {Error | undefined} */
    #error;
    room = new Room(this);

    /**
     * @param {string} host
     * @param {number} port
     * @param {import("node:tls").ConnectionOptions | undefined} secure options of TLS, if that is used
     * @param {AbortSignal | undefined} signal
     * @param {Own} own
     */
    static async connect(host, port, secure, signal, { local, socket: given } = {}) {
        const to = { host, port, localAddress: local?.address, localPort: local?.port || undefined };
        const over = given instanceof net.Socket ? given : undefined;
        const socket = secure ? tls.connect({ ...secure, ...(over ? { socket: over } : to) }) : over ?? net.connect(to);
        const connected = new Deferred(), onError = (/** @type {Error} */ error) => connected.reject(error);
        const onClose = () => connected.reject(new Error("the server closed the connection at once"));
        socket.once("error", onError);
        socket.once("close", onClose);
        if (over && !secure) {
            over.destroyed ? connected.reject(new Error("the socket is closed")) : connected.resolve(undefined);
        } else {
            socket.once(secure ? "secureConnect" : "connect", () => connected.resolve(undefined));
        }
        try {
            await abortable(connected.promise, signal);
        } catch (error) {
            socket.on("error", () => {}); // the caller has it already
            socket.destroy();
            throw error;
        }
        socket.off("error", onError);
        socket.off("close", onClose);
        return new this(socket);
    }

    /** @param {import("node:net").Socket} socket */
    constructor(socket) {
        this.#socket = socket;
        this.local = addressOf({ address: socket.localAddress, port: socket.localPort });
        this.remote = addressOf({ address: socket.remoteAddress, port: socket.remotePort });
        socket.setNoDelay(true);
        socket.setKeepAlive(true, KEEPALIVE);
        socket.on("data", (data) => this.user.received(data));
        socket.on("error", (error) => (this.#error = error));
        socket.on("end", () => socket.destroy());
        socket.on("drain", () => this.#drained());
        socket.on("close", () => this.#closed());
    }

    get isFull() {
        return this.#socket.writableNeedDrain;
    }

    #drained() {
        this.room.freed();
        this.user.drained();
    }

    #closed() {
        const wasOver = this.isOver;
        this.isOver = true;
        this.room.freed();
        if (!wasOver) {
            this.user.ended(this.#error);
        }
    }

    /**
     * Sends a message of the client.
     * @param {Uint8Array} data
     */
    send(data) {
        if (!this.isOver) {
            this.#socket.write(data);
        }
    }

    /** @param {boolean} isKept */
    setKept(isKept) {
        isKept ? this.#socket.ref() : this.#socket.unref();
    }

    /** Closes the connection, when what was sent has left it, or soon where the server does not read. */
    close() {
        if (!this.isOver) {
            this.isOver = true;
            this.room.freed();
            this.#socket.end();
            setTimeout(() => this.#socket.destroy(), 1_000).unref();
        }
    }
}
