// What the client's own requests and the server's answers say, as far as the relay reads them: which request it is, and for whom.
import { addressAt } from "../address.js";
import { ADDRESS } from "../layout.js";
import { attribute, parse } from "../message.js";

/** Methods (RFC 8489, section 18.2; RFC 8656, section 17; RFC 6062, section 6.1). */
export const METHOD = Object.freeze({ BINDING: 0x001, ALLOCATE: 0x003, REFRESH: 0x004, CREATE_PERMISSION: 0x008, CHANNEL_BIND: 0x009,
    CONNECT: 0x00a, CONNECTION_BIND: 0x00b });
/** Attributes (RFC 8489, section 18.3; RFC 8656, section 18). */
const LIFETIME = 0x000d, XOR_PEER_ADDRESS = 0x0012;
const COOKIE = Object.freeze([0x21, 0x12, 0xa4, 0x42]);

/** @typedef {import("../library.js").Library} Library */
/** @typedef {import("../message.js").Message} Message */
/**
 * What a request is for: its method, and the IP address of a permission, or the peer of a channel or a connection. `text` names it.
 * @typedef {{ method: number, text: string, ip?: string, peer?: import("../address.js").Address }} Key
 */

/** @param {Uint8Array} id */
export const idText = (id) => Buffer.from(id).toString("latin1");

/**
 * What a permission is asked for by.
 * @param {string} ip
 * @returns {Key}
 */
export const permissionKey = (ip) => ({ method: METHOD.CREATE_PERMISSION, text: `permission ${ip}`, ip });

/**
 * What a channel is asked for by.
 * @param {import("../address.js").Address} peer
 * @returns {Key}
 */
export const channelKey = (peer) => ({ method: METHOD.CHANNEL_BIND, text: `channel ${peer.address} ${peer.port}`, peer });

/**
 * What a connection to a peer is asked for by.
 * @param {import("../address.js").Address} peer
 * @returns {Key}
 */
export const connectionKey = (peer) => ({ method: METHOD.CONNECT, text: `connection ${peer.address} ${peer.port}`, peer });

/**
 * What all requests of a method are, that are for no peer.
 * @param {number} method
 * @returns {Key}
 */
export const methodKey = (method) => ({ method, text: `method ${method}` });

/**
 * What a request of the client is for.
 * @param {Library} library
 * @param {Message} message
 * @param {Uint8Array} packet
 */
export function keyOf(library, message, packet) {
    const value = attribute(library, packet, XOR_PEER_ADDRESS), peer = value && xored(value, message.id);
    if (peer && message.method === METHOD.CREATE_PERMISSION) {
        return permissionKey(peer.address);
    }
    if (peer && message.method === METHOD.CONNECT) {
        return connectionKey(peer);
    }
    return peer && message.method === METHOD.CHANNEL_BIND ? channelKey(peer) : methodKey(message.method);
}

/**
 * The address in a XORed attribute (RFC 8489, section 14.2), or undefined if it is none.
 * @param {Uint8Array} value
 * @param {Uint8Array} id
 */
function xored(value, id) {
    const isFour = value[1] === 1 && value.length === 8;
    if (!isFour && !(value[1] === 2 && value.length === 20)) {
        return undefined;
    }
    const key = [...COOKIE, ...id], view = new DataView(new ArrayBuffer(28));
    value.slice(4).forEach((byte, at) => view.setUint8(at, byte ^ key[at]));
    view.setUint16(ADDRESS.PORT, ((value[2] << 8) | value[3]) ^ 0x2112, true);
    view.setUint8(ADDRESS.FAMILY, isFour ? 4 : 6);
    return addressAt(view, 0);
}

/**
 * What a success grants, in seconds, where it says that.
 * @param {Library} library
 * @param {Uint8Array} packet
 */
export function lifetimeOf(library, packet) {
    const value = attribute(library, packet, LIFETIME);
    return value?.length === 4 ? new DataView(value.buffer, value.byteOffset).getUint32(0, false) : undefined;
}

/**
 * An unsigned request without attributes. A server answers a Binding request (RFC 8489, section 3) with this client's
 * address, and one for a permission with an error (RFC 8489, section 9.2.4; RFC 8656, section 9.2).
 * @param {number} method of METHOD
 * @param {Uint8Array} id
 */
export function bareRequest(method, id) {
    return Uint8Array.of(0, method, 0, 0, ...COOKIE, ...id);
}

/**
 * Whether an error to a signed ALLOCATE means that user name or password are wrong: 401, and with some servers 400.
 * @param {number} code
 */
export const isAboutCredentials = (code) => code === 400 || code === 401;

/**
 * Whether an error may ask for the same request again, with a new nonce (RFC 8489, section 9.2.5).
 * @param {number} code
 */
export const isChallenge = (code) => code === 401 || code === 438;

/**
 * Whether an error to a signed request means that the server does not know the relayed address, as after a restart: 437 (RFC 8656,
 * section 5), 400 of coturn, and 441 where it has another realm since.
 * @param {number} code
 */
export const isForgotten = (code) => code === 400 || code === 437 || code === 441;

/** The messages in a stream of the server, cut by the library. What is no stream of TURN gives nothing any more. */
export class Frames {
    #front = new Uint8Array();
    #isBroken = false;

    /**
     * Whether a piece is one ChannelData message with so many bytes of data, and nothing else: `messages` need not see it.
     * @param {Uint8Array} piece
     * @param {number} len
     */
    isOne(piece, len) {
        return this.#front.length === 0 && piece.length === 4 + ((len + 3) & ~3);
    }

    /**
     * Takes a piece, and gives each whole STUN message in it, with its bytes.
     * @param {Library} library
     * @param {Uint8Array} piece
     * @returns {{ message: Message, packet: Uint8Array }[]}
     */
    messages(library, piece) {
        let rest = this.#front.length ? Buffer.concat([this.#front, piece]) : piece;
        const found = [];
        while (!this.#isBroken && rest.length > 0) {
            const frame = parse(library, rest, "tcp");
            if (frame === undefined) {
                break;
            }
            this.#isBroken = frame.kind === "no-frame";
            const len = frame.kind === "no-frame" ? 0 : frame.len;
            if (frame.kind === "message") {
                found.push({ message: frame, packet: rest.subarray(0, len) });
            }
            rest = rest.subarray(len);
        }
        this.#front = this.#isBroken ? new Uint8Array() : rest.slice();
        return found;
    }
}
