// Whether a message is signed with the key of a run, and how it is signed (RFC 8489, sections 9.2.2, 14.5, 14.6 and 18.5.1).
import { joined } from "../yarrowdoor/lines/hex.js";
import { md5 } from "./md5.js";

/** What signs: the attribute's type, name and section, the engine's name of the hash, and the bytes of the value. */
export const SIGNERS = Object.freeze({
    sha1: { type: 0x0008, name: "MESSAGE-INTEGRITY", section: "RFC 8489, 14.5", hash: "SHA-1", size: 20 },
    sha256: { type: 0x001c, name: "MESSAGE-INTEGRITY-SHA256", section: "RFC 8489, 14.6", hash: "SHA-256", size: 32 },
});

const COLON = new TextEncoder().encode(":");

/** Whether the engine can check signatures: pages that came over an insecure way have no `crypto.subtle`. */
export const canSign = () => Boolean(globalThis.crypto?.subtle);

/**
 * The key of the run: what `user:realm:password` is digested to.
 * @param {{ username: Uint8Array, credential: Uint8Array }} head
 * @param {Uint8Array} realm
 * @param {"sha1" | "sha256"} algorithm
 */
export async function keyOf(head, realm, algorithm) {
    const text = joined(head.username, COLON, realm, COLON, head.credential);
    return algorithm === "sha1" ? md5(text) : new Uint8Array(await crypto.subtle.digest("SHA-256", text));
}

/** The bytes that are signed: those before the attribute, with a length that counts up to its end. */
function signedPart(bytes, at, size) {
    const part = bytes.slice(0, at), len = at + 4 + size - 20;
    part[2] = len >> 8;
    part[3] = len & 255;
    return part;
}

/**
 * The value of the integrity that stands, or is to stand, at a place of a message.
 * @param {Uint8Array} bytes
 * @param {number} at
 * @param {Uint8Array} key
 * @param {"sha1" | "sha256"} algorithm
 */
export async function integrityOf(bytes, at, key, algorithm) {
    const { hash, size } = SIGNERS[algorithm];
    const imported = await crypto.subtle.importKey("raw", key, { name: "HMAC", hash }, false, ["sign"]);
    return new Uint8Array(await crypto.subtle.sign("HMAC", imported, signedPart(bytes, at, size)));
}

/**
 * The message signed anew: with its integrity replaced, or with one at its end where it has none.
 * @param {Uint8Array} bytes
 * @param {number | undefined} at where the attribute begins, if it is there
 * @param {Uint8Array} key
 * @param {"sha1" | "sha256"} algorithm
 */
export async function signed(bytes, at, key, algorithm) {
    const { type, size } = SIGNERS[algorithm], place = at ?? bytes.length;
    const value = await integrityOf(bytes, place, key, algorithm);
    const rest = at === undefined ? [] : bytes.slice(at + 4 + size);
    const found = joined(bytes.slice(0, place), [type >> 8, type & 255, 0, size], value, rest);
    const len = found.length - 20;
    found[2] = len >> 8;
    found[3] = len & 255;
    return found;
}
