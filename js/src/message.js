// What packets say beside what a client answers: error codes, the mapped address, who asked for what.
import { addressAt, isAddressAt } from "./address.js";
import { KIND, MESSAGE } from "./layout.js";
import { moduleOf } from "./library.js";
import { TRANSPORT, numberOf } from "./settings.js";

/** @typedef {"request" | "indication" | "success" | "error"} MessageClass */
/**
 * A STUN message (RFC 8489, section 5). `error` is the code and the phrase of its ERROR-CODE, `mapped` the client's address as
 * the server saw it (XOR-MAPPED-ADDRESS), `alternate` that of another server.
 * @typedef {{ kind: "message", len: number, method: number, class: MessageClass, id: Uint8Array,
 *     error: import("./errors.js").Hint | undefined, realm: string | undefined,
 *     mapped: import("./address.js").Address | undefined, alternate: import("./address.js").Address | undefined }} Message
 */
/**
 * ChannelData (RFC 8656, section 12.4).
 * @typedef {{ kind: "channel-data", len: number, channel: number }} ChannelData
 */
/**
 * Bytes that begin neither, or a malformed message.
 * @typedef {{ kind: "no-frame" }} NoFrame
 */

/** @type {readonly MessageClass[]} */
const CLASSES = Object.freeze(["request", "indication", "success", "error"]);

/**
 * Reads the first frame of bytes that came over `transport`: a datagram, or what a stream brought. `len` is its bytes, over TCP
 * with its padding. Undefined where more bytes are needed, over TCP. Nothing of it was verified: anyone who can send to the socket
 * may have sent it. So it is a hint, and nothing to act on by itself.
 * @param {import("./library.js").Library} library
 * @param {Uint8Array} data
 * @param {"udp" | "tcp"} [transport]
 * @returns {Message | ChannelData | NoFrame | undefined}
 */
export function parse(library, data, transport = "udp") {
    const module = moduleOf(library), way = numberOf(TRANSPORT, transport, "transport"), place = module.put(data);
    const kind = module.readMessage(way, place, data.length), { view, message: at } = module;
    const len = view.getUint32(at + MESSAGE.LEN, true);
    switch (kind) {
        case KIND.NOTHING: return undefined;
        case KIND.CHANNEL_DATA: return { kind: "channel-data", len, channel: view.getUint16(at + MESSAGE.CHANNEL, true) };
        case KIND.MESSAGE: return messageAt(module, data, len);
        default: return { kind: "no-frame" };
    }
}

/**
 * @param {import("./module.js").Module} module
 * @param {Uint8Array} data
 * @param {number} len
 * @returns {Message}
 */
function messageAt({ view, bytes, message: at }, data, len) {
    /** @param {number} place */
    const text = (place) => {
        const start = view.getUint32(place, true);
        return start ? printable(data.subarray(start, start + view.getUint32(place + 4, true))) : undefined;
    };
    /** @param {number} place */
    const address = (place) => (isAddressAt(view, place) ? addressAt(view, place) : undefined);
    const code = view.getUint16(at + MESSAGE.CODE, true);
    return {
        kind: "message", len, method: view.getUint16(at + MESSAGE.METHOD, true),
        class: CLASSES[view.getUint16(at + MESSAGE.MESSAGE_CLASS, true)],
        id: bytes.slice(at + MESSAGE.ID, at + MESSAGE.ID + 12),
        error: code ? { code, phrase: text(at + MESSAGE.REASON_AT) ?? "" } : undefined,
        realm: text(at + MESSAGE.REALM_AT), mapped: address(at + MESSAGE.MAPPED), alternate: address(at + MESSAGE.ALTERNATE),
    };
}

/**
 * The value of the first attribute of this type that counts in the STUN message that these bytes are, or begin with (RFC 8489,
 * sections 14.5 and 14.6). It verifies nothing.
 * @param {import("./library.js").Library} library
 * @param {Uint8Array} data
 * @param {number} type
 * @returns {Uint8Array | undefined}
 */
export function attribute(library, data, type) {
    if (!Number.isInteger(type) || type < 0 || type > 0xffff) {
        throw new RangeError(`type is a number of 16 bits, and not ${String(type)}`);
    }
    const module = moduleOf(library);
    if (module.readAttribute(module.put(data), data.length, type) !== KIND.YES) {
        return undefined;
    }
    const start = module.view.getUint32(module.pair, true);
    return data.slice(start, start + module.view.getUint32(module.pair + 4, true));
}

/**
 * Text without what cannot be printed: some servers end a phrase by NUL bytes, and anyone may send control characters.
 * @param {Uint8Array} bytes
 */
function printable(bytes) {
    return new TextDecoder().decode(bytes).replace(/[\p{Cc}\p{Cf}\p{Zl}\p{Zp}\p{Co}\p{Cn}]/gu, "").trim();
}
