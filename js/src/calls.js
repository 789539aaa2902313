// How the calls of one client are made: its requests in the module, and what is thrown for answers that are errors.
//
// What each packet needs is short, and what is rare is in functions of its own: so engines put it all into the caller's loop.
import { LastAddress, addressAt, parseIp, putAddress } from "./address.js";
import { LibraryError, OutOfMemory, Refused } from "./errors.js";
import { ANSWER, CALL, KIND, MAX_OVERHEAD, MAX_PACKET, MAX_PAYLOAD, REASONS, REQUEST, SETTINGS, SIZE } from "./layout.js";
import { TRANSPORT, numberOf, putSettings } from "./settings.js";
import { passTime, timeAt } from "./time.js";

/** @typedef {import("./address.js").AddressLike} AddressLike */
/** @typedef {import("./answers.js").Transport} Transport */
/** @typedef {import("./time.js").Time} Time */
/**
 * What a call has beside its kind and its time.
 * @typedef {{ id?: number, transport?: Transport, from?: AddressLike, to?: AddressLike, peer?: AddressLike,
 *     local?: AddressLike }} Fields
 */

const OTHER = 0;
/** The requests that a client keeps in the module, each with its kind: the calls for each packet, and one for all others. */
const KEPT = Object.freeze([CALL.POLL, CALL.POLL_TRANSMIT, CALL.RECV, CALL.SEND_TO, CALL.POLL_RECV, CALL.READ, OTHER]);
/** @type {readonly (readonly ["from" | "to" | "peer" | "local", number])[]} */
const PLACES = [["from", REQUEST.FROM], ["to", REQUEST.TO], ["peer", REQUEST.PEER], ["local", REQUEST.LOCAL]];

/** The calls of a client. */
export class Calls {
    /**
     * Where its requests are, by their calls.
     * @type {readonly number[]}
     */
    #requests;
    /** The peers that answers have. */
    peers = new LastAddress();
    /** The peer that stands in the request for sending. */
    #peer = { address: "", port: -1, flow: 0, scope: 0 };

    /**
     * Makes the client. TypeError, RangeError, OutOfMemory.
     * @param {import("./settings.js").Settings} settings
     * @param {import("./module.js").Module} module
     */
    constructor(settings, module) {
        const block = module.alloc(KEPT.length * SIZE.REQUEST);
        this.module = module;
        /** @type {import("./module.js").Held} */
        this.held = { client: 0, block };
        this.#requests = makeRequests(module, block);
        try {
            const { user, password, seed, isStream, relay } = putSettings(module, settings), { view, settings: at } = module;
            this.isStream = isStream;
            this.relay = relay;
            /** The addresses of its own socket. */
            this.local = addressAt(view, at + SETTINGS.LOCAL);
            this.remote = addressAt(view, at + SETTINGS.REMOTE);
            this.#putOwn();
            const { kind, client } = module.make(user, password, seed);
            if (kind !== 0) {
                throw kind === KIND.OUT_OF_MEMORY ? new OutOfMemory() : new RangeError(`the settings are refused (${kind})`);
            }
            this.held.client = client;
        } catch (error) {
            module.dealloc(block);
            throw error;
        }
    }

    /** Writes what the requests for data have in common. */
    #putOwn() {
        const [recv, send] = [this.#requests[CALL.RECV], this.#requests[CALL.SEND_TO]], { view } = this.module;
        view.setUint32(recv + REQUEST.TRANSPORT, this.isStream ? TRANSPORT.tcp : TRANSPORT.udp, true);
        this.#putAddress(recv + REQUEST.FROM, this.remote, "remote");
        this.#putAddress(recv + REQUEST.TO, this.local, "local");
        view.setUint32(send + REQUEST.TRANSPORT, this.relay, true);
    }

    /**
     * Polls, and gives the kind of the answer.
     * @param {Time} now
     */
    poll(now) {
        return this.#call(this.#requests[CALL.POLL], now, 0, 0, 0, 0);
    }

    /**
     * Makes a call whose answer has bytes, into `module.outputOf(MAX_PACKET)`.
     * @param {number} call
     * @param {Time} now
     */
    fetch(call, now) {
        const request = this.#requests[call] ?? this.#fill(call);
        return this.#call(request, now, 0, 0, this.module.outputOf(MAX_PACKET).place, MAX_PACKET);
    }

    /** The bytes of the last answer, with those that did not fit. */
    fetched() {
        return this.module.takeBytes(this.held, this.#requests[CALL.READ], this.module.outputOf(MAX_PACKET).place, MAX_PACKET);
    }

    /**
     * Passes in bytes that stand at a place in the module.
     * @param {number} place
     * @param {number} len
     * @param {Time} now
     * @param {{ transport?: Transport, remote?: AddressLike, local?: AddressLike }} [from]
     */
    recv(place, len, now, from) {
        if (this.isStream || from) {
            return this.#recvOtherwise(place, len, now, from);
        }
        return this.#call(this.#requests[CALL.RECV], now, place, len, 0, 0);
    }

    /**
     * As `recv`, for a stream, or for bytes of another socket.
     * @param {number} place
     * @param {number} len
     * @param {Time} now
     * @param {{ transport?: Transport, remote?: AddressLike, local?: AddressLike } | undefined} from
     */
    #recvOtherwise(place, len, now, from) {
        const { module, isStream } = this, buffer = isStream ? module.outputOf(MAX_PACKET).place : 0;
        let request = this.#requests[CALL.RECV];
        if (from) {
            const { transport = isStream ? "tcp" : "udp", remote = this.remote, local = this.local } = from;
            request = this.#fill(CALL.RECV, { transport, from: remote, to: local });
        }
        return this.#call(request, now, place, len, buffer, isStream ? MAX_PACKET : 0);
    }

    /**
     * Makes the packet for data that stands at a place in the module, at another place, which has room for it.
     * @param {AddressLike} peer
     * @param {number} place
     * @param {number} len
     * @param {number} buffer
     * @param {Time} now
     * @param {Transport | undefined} transport
     */
    sendTo(peer, place, len, buffer, now, transport) {
        let request = this.#requests[CALL.SEND_TO];
        if (transport === undefined) {
            this.#putPeer(request, peer);
        } else {
            request = this.#fill(CALL.SEND_TO, { transport });
            this.#putAddress(request + REQUEST.PEER, peer, "peer");
        }
        return this.#call(request, now, place, len, buffer, len + MAX_OVERHEAD);
    }

    /**
     * Writes the peer of the request for sending, unless it is the one of the last call.
     * @param {number} request
     * @param {AddressLike} peer
     */
    #putPeer(request, peer) {
        const before = this.#peer, { address, port, flow = 0, scope = 0 } = peer ?? {};
        if (before.address === address && before.port === port && before.flow === flow && before.scope === scope) {
            return;
        }
        this.#putAddress(request + REQUEST.PEER, peer, "peer");
        this.#peer = { address, port, flow, scope };
    }

    /**
     * Makes a call that has no bytes, and gives the kind of its answer.
     * @param {number} kind
     * @param {Time} now
     * @param {Fields} [fields]
     */
    ask(kind, now, fields) {
        return this.#call(this.#fill(kind, fields), now, 0, 0, 0, 0);
    }

    /**
     * Makes a call that only looks, and gives the kind of its answer.
     * @param {number} kind
     * @param {Fields} fields
     */
    look(kind, fields) {
        return this.#checked(this.module.look(this.held, this.#fill(kind, fields)), 0n);
    }

    /**
     * Writes the request for a call that is not made for each packet. Its time is 0, which a call sets.
     * @param {number} kind
     * @param {Fields} fields
     */
    #fill(kind, { id = 0, transport, ...addresses } = {}) {
        const { bytes, view } = this.module, request = this.#requests[OTHER];
        bytes.fill(0, request, request + SIZE.REQUEST);
        view.setUint32(request + REQUEST.KIND, kind, true);
        view.setUint32(request + REQUEST.ID, id, true);
        if (transport !== undefined) {
            view.setUint32(request + REQUEST.TRANSPORT, numberOf(TRANSPORT, transport, "transport"), true);
        }
        for (const [name, place] of PLACES) {
            const address = addresses[name];
            if (address !== undefined) {
                this.#putAddress(request + place, address, name);
            }
        }
        return request;
    }

    /**
     * @param {number} place
     * @param {AddressLike} address
     * @param {string} name
     */
    #putAddress(place, address, name) {
        putAddress(this.module.bytes, this.module.view, place, address, name);
    }

    /**
     * Makes a call with this request, and gives the kind of its answer.
     * @param {number} request
     * @param {Time} now
     * @param {number} place
     * @param {number} len
     * @param {number} buffer
     * @param {number} room
     */
    #call(request, now, place, len, buffer, room) {
        const { module } = this, nanoseconds = passTime(module.view, request, now);
        return this.#checked(module.call(this.held, request, nanoseconds, place, len, buffer, room), now);
    }

    /**
     * The kind of an answer, or what it stands for, if that is an error.
     * @param {number} kind
     * @param {Time} now
     */
    #checked(kind, now) {
        if (kind < KIND.DONE) {
            throw this.#errorOf(kind, now);
        }
        return kind;
    }

    /**
     * @param {number} kind
     * @param {Time} now
     */
    #errorOf(kind, now) {
        const { view, answer } = this.module;
        switch (kind) {
            case KIND.REFUSED:
                return new Refused(REASONS[view.getUint32(answer + ANSWER.ERROR, true)], timeAt(view, answer + ANSWER.TIME, now));
            case KIND.OUT_OF_MEMORY: return new OutOfMemory();
            case KIND.BAD_PAYLOAD: return new RangeError(`data has at most ${MAX_PAYLOAD} bytes`);
            default: return new LibraryError(`the module answers ${kind}`);
        }
    }
}

/**
 * Writes the requests that a client keeps, and gives their places by their calls.
 * @param {import("./module.js").Module} module
 * @param {number} block
 */
function makeRequests(module, block) {
    /** @type {number[]} */
    const places = Array(CALL.READ + 1).fill(0);
    module.bytes.fill(0, block, block + KEPT.length * SIZE.REQUEST);
    KEPT.forEach((kind, at) => {
        places[kind] = block + at * SIZE.REQUEST;
        module.view.setUint32(places[kind] + REQUEST.KIND, kind, true);
    });
    return places;
}

/**
 * An IP address without a port, as the library takes it. TypeError if it is none.
 * @param {string} ip
 */
export function hostOf(ip) {
    if (!parseIp(ip)) {
        throw new TypeError(`${String(ip)} is no IP address`);
    }
    return { address: ip, port: 0 };
}
