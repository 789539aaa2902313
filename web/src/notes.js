// What a reader wants to know of a message beside its name: the code of an error and what it asks of the client, and data that is text.
import { toHex } from "../yarrowdoor/lines/hex.js";
import { errorName } from "./names.js";

/** The most characters of data that are shown. */
const LONGEST = 32;

/** What an error asks of the client or says to it (RFC 8489, section 14.8; RFC 8656, section 19; RFC 6062, section 6.3). */
const MEANINGS = Object.freeze({
    300: "ask another server", 400: "the request is malformed", 401: "prove who you are", 403: "you may not do that",
    420: "an attribute is not understood", 437: "there is no such allocation, or one already", 438: "sign again with my new nonce",
    440: "no address of that family here", 441: "the allocation is another user's", 442: "that transport is not relayed",
    443: "the peer has an address of the other family", 446: "there is a connection to that peer", 447: "the peer is not reached",
    486: "you have too many allocations", 500: "the server failed, try later", 508: "the server has no room left",
});

/**
 * The code of an ERROR-CODE attribute, or undefined.
 * @param {Uint8Array | undefined} value
 */
export function codeOf(value) {
    return value?.length >= 4 ? (value[2] & 7) * 100 + value[3] : undefined;
}

/**
 * An error in words: `401 Unauthenticated: prove who you are`.
 * @param {Uint8Array | undefined} value of its ERROR-CODE attribute
 */
export function errorNote(value) {
    const code = codeOf(value), meaning = MEANINGS[code];
    return code === undefined ? "" : [`${code} ${errorName(code)}`.trim(), meaning].filter(Boolean).join(": ");
}

/**
 * Data as text where it is ASCII text, and else as digits or, where these are many, as a count.
 * @param {Uint8Array} data
 */
export function dataNote(data) {
    const isText = data.length > 0 && data.every((byte) => byte >= 0x20 && byte < 0x7f);
    if (!isText) {
        return data.length === 0 ? "no data" : data.length <= LONGEST / 4 ? toHex(data) : `(${data.length} bytes)`;
    }
    const text = String.fromCharCode(...data.subarray(0, LONGEST));
    return `"${text}${data.length > LONGEST ? "…" : ""}"`;
}
