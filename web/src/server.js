// A small TURN server over UDP, for one client: challenges, an allocation, permissions and channels (RFC 8656). What the page's server
// reacts to is a packet; it has no clock, so nothing of it ends.
import { toHex } from "../yarrowdoor/lines/hex.js";
import { attributeOf, decode } from "./decode.js";
import { integrityOf, keyOf, signed } from "./integrity.js";
import { attribute, message, textBytes, typeOf } from "./messages.js";
import { ATTRIBUTE, CLASS, METHOD } from "./names.js";
import { writeValue } from "./values.js";

const REALM = textBytes("realm"), NONCE = textBytes("nonce"), ALGORITHM = "sha1", LIFETIME = "600";
const CLIENT_SEEN_AS = "198.51.100.7:41000";

/** The IP address of an address with its port. */
const ipOf = (address) => address.slice(0, address.lastIndexOf(":"));

/**
 * What a packet leads to: a packet to the client, or data to a peer.
 * @typedef {{ toClient?: Uint8Array, toPeer?: { peer: string, data: Uint8Array } }} Reaction
 */

/** The server, with what it has granted. */
export class Server {
    #key;
    #relayed;
    #allocation = "";
    /** @type {Set<string>} */
    #permitted = new Set();
    /** @type {Map<number, string>} */
    #channels = new Map();
    /** Its responses by transaction IDs: a request that comes again gets the same one (RFC 8489, section 6.3.1). */
    #responses = new Map();

    /**
     * @param {Uint8Array} key
     * @param {string} relayed the address that it grants
     */
    constructor(key, relayed) {
        [this.#key, this.#relayed] = [key, relayed];
    }

    /**
     * A server that shares the password with the client of these settings.
     * @param {{ username: Uint8Array, credential: Uint8Array }} settings
     * @param {string} relayed
     */
    static async for(settings, relayed) {
        return new Server(await keyOf(settings, REALM, ALGORITHM), relayed);
    }

    /**
     * Takes a packet of the client.
     * @param {Uint8Array} bytes
     * @returns {Promise<Reaction>}
     */
    async take(bytes) {
        const [frame] = decode(bytes, { transport: "udp" });
        if (frame.kind === "channel") {
            const peer = this.#channels.get(frame.channel), end = frame.start + 4 + ((bytes[2] << 8) | bytes[3]);
            return peer ? { toPeer: { peer, data: bytes.slice(4, end) } } : {};
        }
        if (frame.kind !== "message") {
            return {};
        }
        return frame.messageClass === CLASS.REQUEST ? { toClient: await this.#response(bytes, frame) } : this.#indication(frame);
    }

    /** Data for a peer goes on where that has a permission (RFC 8656, section 11.2). */
    #indication(frame) {
        const peer = attributeOf(frame, ATTRIBUTE.XOR_PEER_ADDRESS)?.value, data = attributeOf(frame, ATTRIBUTE.DATA)?.attribute.value;
        const isSent = frame.method === METHOD.SEND && peer && data && this.#permitted.has(ipOf(peer));
        return isSent ? { toPeer: { peer, data } } : {};
    }

    /**
     * The packet to the client with data of a peer, by a channel where one is bound, or undefined where the peer has no permission.
     * @param {string} peer
     * @param {Uint8Array} data
     * @param {Uint8Array} id the transaction ID of an indication
     */
    fromPeer(peer, data, id) {
        const channel = [...this.#channels].find(([, bound]) => bound === peer)?.[0];
        if (channel !== undefined) {
            return Uint8Array.of(channel >> 8, channel & 255, data.length >> 8, data.length & 255, ...data);
        }
        return !this.#permitted.has(ipOf(peer)) ? undefined : message(typeOf(METHOD.DATA, CLASS.INDICATION), id,
            attribute(ATTRIBUTE.XOR_PEER_ADDRESS, writeValue("address", peer, id)), attribute(ATTRIBUTE.DATA, data));
    }

    async #response(bytes, frame) {
        const name = toHex(frame.id), before = this.#responses.get(name);
        if (before) {
            return before;
        }
        const response = await this.#isSigned(bytes, frame) ? await this.#granted(frame) : this.#challenge(frame);
        this.#responses.set(name, response);
        return response;
    }

    async #isSigned(bytes, frame) {
        const field = attributeOf(frame, ATTRIBUTE.MESSAGE_INTEGRITY);
        return Boolean(field) && toHex(await integrityOf(bytes, field.start, this.#key, ALGORITHM)) === toHex(field.attribute.value);
    }

    #challenge({ id, method }) {
        return message(typeOf(method, CLASS.ERROR), id, attribute(ATTRIBUTE.ERROR_CODE, writeValue("error", "401", id)),
            attribute(ATTRIBUTE.REALM, REALM), attribute(ATTRIBUTE.NONCE, NONCE));
    }

    /** The signed response to a signed request. */
    #granted(frame) {
        const { id, method } = frame, found = this.#grant(frame);
        const isError = typeof found === "string";
        const attributes = isError ? [attribute(ATTRIBUTE.ERROR_CODE, writeValue("error", found, id))] : found;
        return signed(message(typeOf(method, isError ? CLASS.ERROR : CLASS.SUCCESS), id, ...attributes), undefined, this.#key, ALGORITHM);
    }

    /** Grants what a request asks for: the attributes of a success, or the code of an error. */
    #grant(frame) {
        const { id, method } = frame, peer = attributeOf(frame, ATTRIBUTE.XOR_PEER_ADDRESS)?.value;
        const lifetime = attribute(ATTRIBUTE.LIFETIME, writeValue("seconds", LIFETIME, id));
        if (method === METHOD.ALLOCATE && !this.#allocation) {
            this.#allocation = toHex(id);
            return [attribute(ATTRIBUTE.XOR_RELAYED_ADDRESS, writeValue("address", this.#relayed, id)), lifetime,
                attribute(ATTRIBUTE.XOR_MAPPED_ADDRESS, writeValue("address", CLIENT_SEEN_AS, id))];
        }
        if (method === METHOD.ALLOCATE || !this.#allocation) {
            return "437";
        }
        if (method === METHOD.REFRESH) {
            return [lifetime];
        }
        if (!peer || (method !== METHOD.CREATE_PERMISSION && method !== METHOD.CHANNEL_BIND)) {
            return "400";
        }
        this.#permitted.add(ipOf(peer));
        const channel = attributeOf(frame, ATTRIBUTE.CHANNEL_NUMBER)?.attribute.value;
        if (method === METHOD.CHANNEL_BIND && channel) {
            this.#channels.set((channel[0] << 8) | channel[1], peer);
        }
        return [];
    }
}
