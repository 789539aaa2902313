// Answers that lie in a buffer of the caller: one object for all answers of a client, so that a call makes none.

/** @typedef {import("./address.js").Address} Address */
/** @typedef {import("./answers.js").Transport} Transport */
/** @typedef {import("./buffer.js").ModuleBuffer} ModuleBuffer */

/** Data of a peer, where it lies in the buffer. The client's next `recvFrom` overwrites the object. */
export class DataInBuffer {
    /** @type {"peer-data"} */
    kind = "peer-data";
    /** Where the data begins in the buffer, and how many bytes it has. */
    start = 0;
    length = 0;
    /**
     * Who sent it.
     * @type {Address}
     */
    peer;
    /** @type {Transport} */
    transport = "udp";
    /** @type {ModuleBuffer} */
    #buffer;

    /**
     * @param {ModuleBuffer} buffer
     * @param {Address} peer
     */
    constructor(buffer, peer) {
        this.#buffer = buffer;
        this.peer = peer;
    }

    /**
     * @param {ModuleBuffer} buffer
     * @param {number} start
     * @param {number} length
     * @param {Address} peer
     * @param {Transport} transport
     */
    set(buffer, start, length, peer, transport) {
        this.#buffer = buffer;
        this.start = start;
        this.length = length;
        this.peer = peer;
        this.transport = transport;
        return this;
    }

    /** The data: a part of the buffer, made where it is asked for. */
    get data() {
        return this.#buffer.bytes.subarray(this.start, this.start + this.length);
    }
}

/** A packet at the front of a buffer. The client's next `sendFrom` overwrites the object. */
export class PacketInBuffer {
    /** How many bytes it has. */
    length = 0;
    /** @type {Transport} */
    transport = "udp";
    /**
     * From which socket it is sent.
     * @type {Address}
     */
    local;
    /**
     * To which address.
     * @type {Address}
     */
    remote;
    /** @type {ModuleBuffer} */
    #buffer;

    /**
     * @param {ModuleBuffer} buffer
     * @param {Address} local
     * @param {Address} remote
     */
    constructor(buffer, local, remote) {
        this.#buffer = buffer;
        this.local = local;
        this.remote = remote;
    }

    /**
     * @param {ModuleBuffer} buffer
     * @param {number} length
     */
    set(buffer, length) {
        this.#buffer = buffer;
        this.length = length;
        return this;
    }

    /**
     * @param {Transport} transport
     * @param {Address} local
     * @param {Address} remote
     */
    setWay(transport, local, remote) {
        this.transport = transport;
        this.local = local;
        this.remote = remote;
    }

    /** The packet: a part of the buffer, made where it is asked for. */
    get data() {
        return this.#buffer.bytes.subarray(0, this.length);
    }
}
