// What the values of attributes say, and how they are written (docs/rattle/PROTOCOL.md).
import { addressText } from "../yarrowdoor/lines/answers.js";
import { fromHex, toHex } from "../yarrowdoor/lines/hex.js";
import { parseIp } from "../yarrowdoor/src/address.js";
import { errorName } from "./names.js";
import { readable } from "./words.js";

const COOKIE = Object.freeze([0x21, 0x12, 0xa4, 0x42]), FAMILIES = Object.freeze({ 1: "IPv4", 2: "IPv6" });
const TRANSPORTS = Object.freeze({ 17: "UDP", 6: "TCP" });

const number32 = (value) => ((value[0] << 24) | (value[1] << 16) | (value[2] << 8) | value[3]) >>> 0;
const bytes32 = (number) => Uint8Array.of(number >>> 24, number >>> 16, number >>> 8, number);

/** Bytes as text where all of them can be printed, and else as digits. */
function textOf(value) {
    const isPlain = value.length > 0 && value.every((byte) => byte >= 0x20 && byte < 0x7f);
    return isPlain ? `"${String.fromCharCode(...value)}"` : value.length ? toHex(value) : "no bytes";
}

/** The mask of a XORed address (RFC 8489, section 14.2): the cookie, and for IPv6 the transaction ID behind it. */
const maskOf = (id) => [...COOKIE, ...id];

function addressOf(value, id) {
    const family = value[1], len = { 1: 8, 2: 20 }[family];
    if (value.length !== len) {
        return undefined;
    }
    const bytes = value.subarray(4).map((byte, at) => byte ^ maskOf(id)[at]);
    const address = family === 1 ? [...bytes].join(".") : toHex(bytes).match(/.{4}/g).join(":");
    return addressText({ address, port: ((value[2] ^ COOKIE[0]) << 8) | (value[3] ^ COOKIE[1]) });
}

/** The address that a text is, an IP address of either family with a port. */
function typedAddress(text) {
    const found = /^(?:\[(.+)\]|([0-9.]+)):([0-9]{1,5})$/.exec(text.trim()), host = found && (found[1] ?? found[2]);
    const digits = found?.[1] && /^[0-9a-f]{32}$/.test(found[1]) ? found[1].match(/.{4}/g).join(":") : host;
    const ip = digits ? parseIp(digits) : undefined, port = found ? Number(found[3]) : NaN;
    return ip && port <= 65_535 ? { family: ip.family, bytes: ip.bytes.slice(0, ip.family === 4 ? 4 : 16), port } : undefined;
}

function bytesOfAddress(text, id) {
    const found = typedAddress(text);
    return found && Uint8Array.of(0, found.family === 4 ? 1 : 2, (found.port >> 8) ^ COOKIE[0], (found.port & 255) ^ COOKIE[1],
        ...found.bytes.map((byte, at) => byte ^ maskOf(id)[at]));
}

function errorOf(value) {
    if (value.length < 4) {
        return undefined;
    }
    const code = (value[2] & 7) * 100 + value[3], phrase = value.length > 4 ? `, ${textOf(value.subarray(4))}` : "";
    return `${code}${errorName(code) && ` (${errorName(code)})`}${phrase}`;
}

function bytesOfError(text) {
    const [, code, phrase] = /^([3-6][0-9]{2})(?:[ ,]+(.*))?$/.exec(text.trim()) ?? [];
    return code && Uint8Array.of(0, 0, Number(code[0]), Number(code.slice(1)), ...new TextEncoder().encode(phrase ?? ""));
}

const whole = (text, most) => (/^[0-9]{1,10}$/.test(text.trim()) && Number(text) <= most ? Number(text) : undefined);
const from32 = (text) => (whole(text, 2 ** 32 - 1) === undefined ? undefined : bytes32(Number(text)));
const named = (names) => (value) => (value.length === 4 ? names[value[0]] ?? `${value[0]}` : undefined);
const byName = (names) => (text) => {
    const [found] = Object.entries(names).find(([, name]) => name.toLowerCase() === text.trim().toLowerCase()) ?? [];
    return found && Uint8Array.of(Number(found), 0, 0, 0);
};

/** How each kind of value is read, how it stands in the field for typing, what is typed, and how that is written. */
const KINDS = {
    hex: { read: (value) => toHex(value) || "no bytes", typed: toHex, hint: "hexadecimal digits", write: fromHex },
    text: {
        read: textOf, typed: (value) => textOf(value).replace(/^"|"$/g, "").replace(/^no bytes$/, ""), hint: "text",
        write: (text) => new TextEncoder().encode(text),
    },
    seconds: {
        read: (value) => (value.length === 4 ? `${number32(value)} s` : undefined), typed: (value) => String(number32(value)),
        hint: "seconds", write: from32,
    },
    number: {
        read: (value) => (value.length === 4 ? String(number32(value)) : undefined), typed: (value) => String(number32(value)),
        hint: "a number", write: from32,
    },
    channel: {
        read: (value) => (value.length === 4 ? toHex(value.subarray(0, 2)) : undefined),
        typed: (value) => toHex(value.subarray(0, 2)),
        hint: "4 hexadecimal digits",
        write: (text) => (/^[0-9a-f]{4}$/.test(text.trim()) ? Uint8Array.of(...fromHex(text.trim()), 0, 0) : undefined),
    },
    address: {
        read: addressOf, typed: (value, id) => readable(addressOf(value, id) ?? ""), hint: "an IP address and a port",
        write: bytesOfAddress,
    },
    error: {
        read: errorOf, typed: (value) => errorOf(value)?.replace(/ \(.*?\)/, "").replace(/"/g, "") ?? "", hint: "a code and words",
        write: bytesOfError,
    },
    family: { read: named(FAMILIES), typed: named(FAMILIES), hint: "IPv4 or IPv6", write: byName(FAMILIES) },
    transport: { read: named(TRANSPORTS), typed: named(TRANSPORTS), hint: "UDP or TCP", write: byName(TRANSPORTS) },
};

/**
 * What a value says, or that it is malformed.
 * @param {string} kind
 * @param {Uint8Array} value
 * @param {Uint8Array} id the transaction ID, by which addresses are XORed
 */
export function readValue(kind, value, id) {
    return KINDS[kind].read(value, id) ?? `malformed: ${toHex(value)}`;
}

/**
 * How a value stands in a field for typing, and what may be typed there.
 * @param {string} kind
 * @param {Uint8Array} value
 * @param {Uint8Array} id
 */
export function typedValue(kind, value, id) {
    return { text: KINDS[kind].typed(value, id), hint: KINDS[kind].hint };
}

/**
 * The bytes of what was typed, or undefined where it is no such value.
 * @param {string} kind
 * @param {string} text
 * @param {Uint8Array} id
 * @returns {Uint8Array | undefined}
 */
export function writeValue(kind, text, id) {
    return KINDS[kind].write(text, id) || undefined;
}
