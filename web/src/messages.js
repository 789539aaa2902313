// STUN messages that the page makes itself: those of somebody else on the network, and those of the server in the page.
import { joined } from "../yarrowdoor/lines/hex.js";

/**
 * An attribute with its padding (RFC 8489, section 14).
 * @param {number} type
 * @param {Uint8Array} value
 */
export const attribute = (type, value) => (
    joined([type >> 8, type & 255, value.length >> 8, value.length & 255], value, new Uint8Array(-value.length & 3)));

/**
 * A message without a signature (RFC 8489, section 5).
 * @param {number} type method and class
 * @param {Uint8Array} id
 * @param {...Uint8Array} attributes
 */
export function message(type, id, ...attributes) {
    const body = joined(...attributes);
    return joined([type >> 8, type & 255, body.length >> 8, body.length & 255, 0x21, 0x12, 0xa4, 0x42], id, body);
}

/**
 * The type of a message: its method, and between the bits of the method those of its class (RFC 8489, section 5). Methods of TURN
 * have fewer than five bits.
 * @param {number} method
 * @param {number} messageClass
 */
export const typeOf = (method, messageClass) => method | messageClass;

/** A text as bytes. */
export const textBytes = (text) => new TextEncoder().encode(text);
