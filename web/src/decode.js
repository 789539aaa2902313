// What the bytes of a packet say, field by field, with the place of each. It verifies nothing.
import { joined, toHex } from "../yarrowdoor/lines/hex.js";
import { ATTRIBUTE, CLASS, attributeName, typeName } from "./names.js";
import { dataNote, errorNote } from "./notes.js";
import { readValue } from "./values.js";

/**
 * A field: bytes `start` to `end` of a packet. `attribute` is there where it is one: its type, the kind of its value and whether it
 * counts, which it does not behind the integrity (RFC 8489, sections 14.5 and 14.6).
 * @typedef {{ name: string, value: string, section: string, start: number, end: number,
 *     attribute?: { type: number, kind: string, counts: boolean, value: Uint8Array } }} Field
 */
/**
 * A frame: a STUN message (`message`), ChannelData (`channel`), or bytes that are neither (`bytes`) with what is wrong with them.
 * `note` says what a reader wants to know of it beside its title: the code of an error, or its data.
 * @typedef {{ kind: "message" | "channel" | "bytes", title: string, note?: string, start: number, end: number, fields: Field[],
 *     fault?: string, method?: number, messageClass?: number, id?: Uint8Array, channel?: number }} Frame
 */

const HEADER = 20, COOKIE = "2112a442";
const number16 = (bytes, at) => (bytes[at] << 8) | bytes[at + 1];

function bytesFrame(bytes, start, end, title, fault) {
    const field = { name: "Bytes", value: `${end - start} bytes`, section: "", start, end };
    return { kind: "bytes", title, start, end, fields: end > start ? [field] : [], fault };
}

/** Whether attributes behind one that signs still count: after a 0008 a 001c and fingerprints, after a 001c fingerprints. */
function countsBehind(signer, type) {
    return signer === undefined || type === ATTRIBUTE.FINGERPRINT
        || (signer === ATTRIBUTE.MESSAGE_INTEGRITY && type === ATTRIBUTE.MESSAGE_INTEGRITY_SHA256);
}

function attributesOf(bytes, start, end, id) {
    const fields = [];
    let signer, at = start;
    while (at + 4 <= end) {
        const type = number16(bytes, at), len = number16(bytes, at + 2), next = at + 4 + ((len + 3) & ~3);
        if (next > end) {
            break;
        }
        const value = bytes.subarray(at + 4, at + 4 + len), { name, section, value: kind } = attributeName(type);
        const counts = countsBehind(signer, type);
        const attribute = { type, kind, counts, value };
        fields.push({ name, value: readValue(kind, value, id), section, start: at, end: next, attribute });
        if (counts && (type === ATTRIBUTE.MESSAGE_INTEGRITY || type === ATTRIBUTE.MESSAGE_INTEGRITY_SHA256)) {
            signer = type;
        }
        at = next;
    }
    return { fields, isWhole: at === end, rest: at };
}

function messageFrame(bytes, start, len) {
    const end = start + HEADER + len, id = bytes.subarray(start + 8, start + HEADER), type = number16(bytes, start);
    const { name, section, method, messageClass } = typeName(type);
    const { fields, isWhole, rest } = attributesOf(bytes, start + HEADER, end, id);
    const header = [
        { name: "Type", value: `${toHex(bytes.subarray(start, start + 2))}, ${name}`, section, start, end: start + 2 },
        { name: "Length", value: `${len} bytes of attributes`, section: "RFC 8489, 5", start: start + 2, end: start + 4 },
        { name: "Magic cookie", value: COOKIE, section: "RFC 8489, 5", start: start + 4, end: start + 8 },
        { name: "Transaction ID", value: toHex(id), section: "RFC 8489, 5", start: start + 8, end: start + HEADER },
    ];
    const broken = isWhole ? [] : [{ name: "Bytes", value: "no whole attribute", section: "RFC 8489, 14", start: rest, end }];
    const fault = isWhole ? undefined : "an attribute runs past the end of the message";
    return { kind: "message", title: name, note: noteOf(messageClass, fields), start, end, fields: [...header, ...fields, ...broken], fault,
        method, messageClass, id };
}

/** What a message says beside its name: the code of an error response, or the data of an indication. */
function noteOf(messageClass, fields) {
    const value = (type) => fields.find(({ attribute }) => attribute?.counts && attribute.type === type)?.attribute.value;
    if (messageClass === CLASS.ERROR) {
        return errorNote(value(ATTRIBUTE.ERROR_CODE));
    }
    const data = messageClass === CLASS.INDICATION ? value(ATTRIBUTE.DATA) : undefined;
    return data ? dataNote(data) : "";
}

function channelFrame(bytes, start, len, end) {
    const channel = number16(bytes, start), data = bytes.subarray(start + 4, start + 4 + len), section = "RFC 8656, 12.4";
    const fields = [
        { name: "Channel", value: toHex(bytes.subarray(start, start + 2)), section, start, end: start + 2 },
        { name: "Length", value: `${len} bytes of data`, section, start: start + 2, end: start + 4 },
        { name: "Data", value: readValue("text", data, data), section, start: start + 4, end: start + 4 + len },
    ];
    const padding = { name: "Padding", value: `${end - start - 4 - len} bytes`, section: "RFC 8656, 12.5", start: start + 4 + len, end };
    return { kind: "channel", title: `ChannelData ${fields[0].value}`, note: dataNote(data), start, end, channel,
        fields: end > start + 4 + len ? [...fields, padding] : fields };
}

/** One datagram (docs/rattle/PROTOCOL.md, "Messages" and "ChannelData messages"). */
function datagram(bytes) {
    const top = bytes.length ? bytes[0] >> 6 : 2, len = bytes.length >= 4 ? number16(bytes, 2) : 0;
    if (top === 1 && bytes.length >= 4 && len + 4 <= bytes.length) {
        return channelFrame(bytes, 0, len, bytes.length);
    }
    const fault = top === 1 ? "it has fewer bytes than its length says" : top > 1 ? "it begins neither a message nor ChannelData"
        : bytes.length < HEADER ? "it is shorter than a header" : toHex(bytes.subarray(4, 8)) !== COOKIE || len % 4
            ? "it is no STUN message: another cookie, or a length that is no multiple of four"
            : len + HEADER !== bytes.length ? "it has not as many bytes as its length says" : undefined;
    return fault ? bytesFrame(bytes, 0, bytes.length, "no message", fault) : messageFrame(bytes, 0, len);
}

/** The bytes of the frame that begins at a place of a stream, or undefined where that needs more bytes, or none begins there. */
function frameLength(bytes, at) {
    if (at + 4 > bytes.length || bytes[at] >> 6 > 1) {
        return undefined;
    }
    const len = number16(bytes, at + 2), size = bytes[at] >> 6 === 1 ? 4 + ((len + 3) & ~3) : HEADER + len;
    return at + size <= bytes.length ? size : undefined;
}

/**
 * The frames of one piece of a stream, of which the first `skip` bytes end a frame that an earlier piece began. What is left at the
 * end begins one that a later piece ends.
 * @param {Uint8Array} bytes
 * @param {number} skip
 * @returns {Frame[]}
 */
function pieces(bytes, skip) {
    const frames = skip ? [bytesFrame(bytes, 0, Math.min(skip, bytes.length), "the rest of a frame")] : [];
    let at = Math.min(skip, bytes.length);
    for (let size; (size = frameLength(bytes, at)) !== undefined; at += size) {
        const isChannel = bytes[at] >> 6 === 1, len = number16(bytes, at + 2);
        const isMessage = toHex(bytes.subarray(at + 4, at + 8)) === COOKIE && len % 4 === 0;
        frames.push(isChannel ? channelFrame(bytes, at, len, at + size) : isMessage ? messageFrame(bytes, at, len)
            : bytesFrame(bytes, at, at + size, "no message", "it is no STUN message"));
    }
    if (at < bytes.length) {
        const isFrame = bytes[at] >> 6 < 2;
        frames.push(bytesFrame(bytes, at, bytes.length, isFrame ? "the beginning of a frame" : "no frame",
            isFrame ? undefined : "no frame begins with these bits"));
    }
    return frames;
}

/**
 * The frames of a packet. Where a data connection is bound, all of it is data of the peer.
 * @param {Uint8Array} bytes
 * @param {{ transport: string, skip?: number, isData?: boolean }} how
 * @returns {Frame[]}
 */
export function decode(bytes, { transport, skip = 0, isData = false }) {
    if (isData) {
        return [{ ...bytesFrame(bytes, 0, bytes.length, "data of the peer"), note: dataNote(bytes) }];
    }
    if (transport === "tcp") {
        return bytes.length ? pieces(bytes, skip) : [bytesFrame(bytes, 0, 0, "the end of the stream")];
    }
    return [datagram(bytes)];
}

/**
 * The first attribute of a type that counts.
 * @param {Frame} frame
 * @param {number} type
 */
export function attributeOf(frame, type) {
    return frame.fields.find(({ attribute }) => attribute?.counts && attribute.type === type);
}

/**
 * The packet with another value of an attribute, or without the attribute, and with the message's length set right.
 * @param {Uint8Array} bytes
 * @param {Frame} frame
 * @param {Field} field
 * @param {Uint8Array | undefined} value
 */
export function withValue(bytes, frame, field, value) {
    const { type } = field.attribute;
    const attribute = value ? joined([type >> 8, type & 255, value.length >> 8, value.length & 255], value,
        new Uint8Array(-value.length & 3)) : [];
    const found = joined(bytes.slice(0, field.start), attribute, bytes.slice(field.end));
    const len = frame.end - frame.start - HEADER + attribute.length - (field.end - field.start);
    found[frame.start + 2] = len >> 8;
    found[frame.start + 3] = len & 255;
    return found;
}
