// The names of methods, classes and attributes, and the section of an RFC that has each.

/** @typedef {{ name: string, section: string, value: string }} AttributeName */

/** The bits of a class in a message's type (RFC 8489, section 5). */
export const CLASS = Object.freeze({ REQUEST: 0x000, INDICATION: 0x010, SUCCESS: 0x100, ERROR: 0x110 });

const CLASS_NAMES = Object.freeze({ 0x000: "request", 0x010: "indication", 0x100: "success", 0x110: "error" });

/** Methods by their numbers. */
export const METHOD = Object.freeze({
    BINDING: 1, ALLOCATE: 3, REFRESH: 4, SEND: 6, DATA: 7, CREATE_PERMISSION: 8, CHANNEL_BIND: 9, CONNECT: 10, CONNECTION_BIND: 11,
    CONNECTION_ATTEMPT: 12,
});

const METHOD_NAMES = Object.freeze({
    1: ["Binding", "RFC 8489, 2"], 3: ["Allocate", "RFC 8656, 7"], 4: ["Refresh", "RFC 8656, 8"], 6: ["Send", "RFC 8656, 11"],
    7: ["Data", "RFC 8656, 11"], 8: ["CreatePermission", "RFC 8656, 10"], 9: ["ChannelBind", "RFC 8656, 12"],
    10: ["Connect", "RFC 6062, 4.3"], 11: ["ConnectionBind", "RFC 6062, 4.3"], 12: ["ConnectionAttempt", "RFC 6062, 4.4"],
});

/** Types of attributes. */
export const ATTRIBUTE = Object.freeze({
    MESSAGE_INTEGRITY: 0x0008, ERROR_CODE: 0x0009, CHANNEL_NUMBER: 0x000c, LIFETIME: 0x000d, XOR_PEER_ADDRESS: 0x0012, DATA: 0x0013,
    REALM: 0x0014, NONCE: 0x0015, XOR_RELAYED_ADDRESS: 0x0016, MESSAGE_INTEGRITY_SHA256: 0x001c, XOR_MAPPED_ADDRESS: 0x0020, CONNECTION_ID: 0x002a,
    ICMP: 0x8004, FINGERPRINT: 0x8028,
});

/** Attributes by their types: the name, the section, and how the value is read. */
const ATTRIBUTES = Object.freeze({
    0x0001: ["MAPPED-ADDRESS", "RFC 8489, 14.1", "hex"], 0x0006: ["USERNAME", "RFC 8489, 14.3", "text"],
    0x0008: ["MESSAGE-INTEGRITY", "RFC 8489, 14.5", "hex"], 0x0009: ["ERROR-CODE", "RFC 8489, 14.8", "error"],
    0x000a: ["UNKNOWN-ATTRIBUTES", "RFC 8489, 14.13", "hex"], 0x000c: ["CHANNEL-NUMBER", "RFC 8656, 18.1", "channel"],
    0x000d: ["LIFETIME", "RFC 8656, 18.2", "seconds"], 0x0012: ["XOR-PEER-ADDRESS", "RFC 8656, 18.3", "address"],
    0x0013: ["DATA", "RFC 8656, 18.4", "text"], 0x0014: ["REALM", "RFC 8489, 14.9", "text"],
    0x0015: ["NONCE", "RFC 8489, 14.10", "text"], 0x0016: ["XOR-RELAYED-ADDRESS", "RFC 8656, 18.5", "address"],
    0x0017: ["REQUESTED-ADDRESS-FAMILY", "RFC 8656, 18.6", "family"], 0x0018: ["EVEN-PORT", "RFC 8656, 18.7", "hex"],
    0x0019: ["REQUESTED-TRANSPORT", "RFC 8656, 18.8", "transport"], 0x001a: ["DONT-FRAGMENT", "RFC 8656, 18.9", "hex"],
    0x001c: ["MESSAGE-INTEGRITY-SHA256", "RFC 8489, 14.6", "hex"], 0x001d: ["PASSWORD-ALGORITHM", "RFC 8489, 14.12", "hex"],
    0x001e: ["USERHASH", "RFC 8489, 14.4", "hex"], 0x0020: ["XOR-MAPPED-ADDRESS", "RFC 8489, 14.2", "address"],
    0x0022: ["RESERVATION-TOKEN", "RFC 8656, 18.10", "hex"], 0x002a: ["CONNECTION-ID", "RFC 6062, 6.2.1", "number"],
    0x8000: ["ADDITIONAL-ADDRESS-FAMILY", "RFC 8656, 18.11", "family"], 0x8001: ["ADDRESS-ERROR-CODE", "RFC 8656, 18.12", "hex"],
    0x8002: ["PASSWORD-ALGORITHMS", "RFC 8489, 14.11", "hex"], 0x8004: ["ICMP", "RFC 8656, 18.13", "hex"],
    0x8022: ["SOFTWARE", "RFC 8489, 14.14", "text"], 0x8023: ["ALTERNATE-SERVER", "RFC 8489, 14.15", "hex"],
    0x8028: ["FINGERPRINT", "RFC 8489, 14.7", "hex"],
});

const shown = (type) => type.toString(16).padStart(4, "0");

/**
 * What a type of attribute is called.
 * @param {number} type
 * @returns {AttributeName}
 */
export function attributeName(type) {
    const [name, section, value] = ATTRIBUTES[type] ?? [`attribute ${shown(type)}`, "RFC 8489, 14", "hex"];
    return { name, section, value };
}

/**
 * Method and class of a message's type, with their words.
 * @param {number} type
 */
export function typeName(type) {
    const method = (type & 0xf) | ((type >> 1) & 0x70) | ((type >> 2) & 0xf80), messageClass = type & 0x110;
    const [name, section] = METHOD_NAMES[method] ?? [`method ${shown(method)}`, "RFC 8489, 5"];
    return { method, messageClass, name: `${name} ${CLASS_NAMES[messageClass]}`, section };
}

/**
 * The words of an error code (RFC 8489, section 14.8; RFC 8656, section 19; RFC 6062, section 6.3).
 * @param {number} code
 */
export function errorName(code) {
    return { 300: "Try Alternate", 400: "Bad Request", 401: "Unauthenticated", 403: "Forbidden", 420: "Unknown Attribute",
        437: "Allocation Mismatch", 438: "Stale Nonce", 440: "Address Family not Supported", 441: "Wrong Credentials",
        442: "Unsupported Transport Protocol", 443: "Peer Address Family Mismatch", 446: "Connection Already Exists",
        447: "Connection Timeout or Failure", 486: "Allocation Quota Reached", 500: "Server Error",
        508: "Insufficient Capacity" }[code] ?? "";
}
