// STUN messages as a server reads and writes them (RFC 8489), for the server of the tests: by node:crypto, and not by the library.
import { createHash, createHmac } from "node:crypto";

const COOKIE = Buffer.from("2112a442", "hex");
export const METHOD = { BINDING: 1, ALLOCATE: 3, REFRESH: 4, SEND: 6, DATA: 7, CREATE_PERMISSION: 8, CHANNEL_BIND: 9,
    CONNECT: 10, CONNECTION_BIND: 11, CONNECTION_ATTEMPT: 12 };
export const CLASS = { REQUEST: 0x000, INDICATION: 0x010, SUCCESS: 0x100, ERROR: 0x110 };
export const ATTRIBUTE = {
    USERNAME: 0x06, MESSAGE_INTEGRITY: 0x08, ERROR_CODE: 0x09, CHANNEL_NUMBER: 0x0c, LIFETIME: 0x0d, XOR_PEER_ADDRESS: 0x12, DATA: 0x13,
    REALM: 0x14, NONCE: 0x15, XOR_RELAYED_ADDRESS: 0x16, XOR_MAPPED_ADDRESS: 0x20, CONNECTION_ID: 0x2a,
};

/** The key of long-term credentials (RFC 8489, section 9.2.2). */
export const keyOf = (user, realm, password) => createHash("md5").update(`${user}:${realm}:${password}`).digest();

export function number32(value) {
    const bytes = Buffer.alloc(4);
    bytes.writeUInt32BE(value);
    return bytes;
}

/** The value of a XORed attribute (RFC 8489, section 14.2). That of an IPv6 address needs the ID of its message. */
export function xored(address, port, id = Buffer.alloc(0)) {
    const isFour = !address.includes(":"), ip = isFour ? address.split(".").map(Number) : sixteen(address);
    const bytes = Buffer.from([0, isFour ? 1 : 2, (port >> 8) ^ 0x21, (port & 255) ^ 0x12, ...ip]);
    Buffer.concat([COOKIE, id]).subarray(0, ip.length).forEach((byte, at) => (bytes[4 + at] ^= byte));
    return bytes;
}

/** The bytes of an IPv6 address of hexadecimal groups. */
function sixteen(address) {
    const [front, back] = address.split("::").map((half) => (half ? half.split(":") : [])), rest = back ?? [];
    const groups = [...front, ...Array(8 - front.length - rest.length).fill("0"), ...rest];
    return Buffer.from(groups.map((group) => group.padStart(4, "0")).join(""), "hex");
}

/** The address of such a value. */
export function unxored(value) {
    const ip = [...value.subarray(4, 8)].map((byte, at) => byte ^ COOKIE[at]);
    return { address: ip.join("."), port: value.readUInt16BE(2) ^ 0x2112 };
}

export const errorCode = (code, phrase) => Buffer.from([0, 0, Math.floor(code / 100), code % 100, ...Buffer.from(phrase)]);

function attribute([type, value]) {
    const head = Buffer.alloc(4);
    head.writeUInt16BE(type, 0);
    head.writeUInt16BE(value.length, 2);
    return Buffer.concat([head, value, Buffer.alloc(-value.length & 3)]);
}

function head(type, length, id) {
    const bytes = Buffer.alloc(20);
    bytes.writeUInt16BE(type, 0);
    bytes.writeUInt16BE(length, 2);
    COOKIE.copy(bytes, 4);
    Buffer.from(id).copy(bytes, 8);
    return bytes;
}

/** A message with these attributes, signed where there is a key (RFC 8489, section 14.5). */
export function message(method, messageClass, id, attributes, key) {
    const body = Buffer.concat(attributes.map(attribute)), type = method | messageClass;
    if (!key) {
        return Buffer.concat([head(type, body.length, id), body]);
    }
    const signed = Buffer.concat([head(type, body.length + 24, id), body]);
    return Buffer.concat([signed, attribute([ATTRIBUTE.MESSAGE_INTEGRITY, createHmac("sha1", key).update(signed).digest()])]);
}

/** What a message says: its method, its class, its ID, and its attributes by their types. */
export function read(bytes) {
    const type = bytes.readUInt16BE(0), attributes = new Map();
    for (let at = 20; at + 4 <= bytes.length; at += 4 + ((bytes.readUInt16BE(at + 2) + 3) & ~3)) {
        const name = bytes.readUInt16BE(at);
        attributes.has(name) || attributes.set(name, bytes.subarray(at + 4, at + 4 + bytes.readUInt16BE(at + 2)));
    }
    return { method: type & ~0x110, class: type & 0x110, id: bytes.subarray(8, 20), attributes };
}

/** Whether a request is signed by this key. */
export function isSigned(bytes, key) {
    const at = bytes.length - 24;
    if (at < 20 || bytes.readUInt16BE(at) !== ATTRIBUTE.MESSAGE_INTEGRITY) {
        return false;
    }
    return createHmac("sha1", key).update(bytes.subarray(0, at)).digest().equals(bytes.subarray(at + 4));
}
