// What a new client is and does: the settings, checked, and as the library has them.
import { putAddress } from "./address.js";
import { putAhead, putPause } from "./kept.js";
import { SEED_LEN, SETTINGS, SIZE } from "./layout.js";
import { randomBytes } from "./random.js";
import { putTime } from "./time.js";

/** @typedef {import("./client-settings.js").Times} Times */
/** @typedef {import("./client-settings.js").Settings} Settings */

const ALGORITHMS = Object.freeze({ sha1: 1, sha256: 2 }), ANONYMOUS = Object.freeze({ auto: 0, required: 1, disabled: 2 });
const FAMILIES = Object.freeze({ 4: 4, 6: 6 }), LONGEST = 2n ** 64n - 1n;

/** The number of a transport. */
export const TRANSPORT = Object.freeze({ udp: 0, tcp: 1 });

/**
 * The number of a word, or a TypeError.
 * @param {Readonly<Record<string, number>>} words
 * @param {unknown} word
 * @param {string} name
 */
export function numberOf(words, word, name) {
    if ((typeof word === "string" || typeof word === "number") && Object.hasOwn(words, word)) {
        return words[word];
    }
    throw new TypeError(`${name} is one of ${Object.keys(words).join(", ")}, and not ${String(word)}`);
}

/**
 * One or two numbers for words that differ; the second one is 0 where there is one.
 * @param {Readonly<Record<string, number>>} words
 * @param {readonly unknown[]} given
 * @param {string} name
 */
function oneOrTwo(words, given, name) {
    if (!Array.isArray(given) || given.length < 1 || given.length > 2 || given[0] === given[1]) {
        throw new TypeError(`${name} is a list of one or two of ${Object.keys(words).join(", ")}`);
    }
    const numbers = given.map((word) => numberOf(words, word, name));
    return [numbers[0], numbers[1] ?? 0];
}

/**
 * The bytes of user name or password.
 * @param {unknown} given
 * @param {string} name
 * @param {number} least
 * @param {number} most
 */
function credential(given, name, least, most) {
    if (typeof given === "string" && /\p{Surrogate}/u.test(given)) {
        throw new TypeError(`${name} is no text: it has half a character`);
    }
    const bytes = typeof given === "string" ? new TextEncoder().encode(given) : given;
    if (!(bytes instanceof Uint8Array)) {
        throw new TypeError(`${name} is text or a Uint8Array`);
    }
    if (bytes.length < least || bytes.length > most) {
        throw new RangeError(`${name} has ${least} to ${most} bytes, and not ${bytes.length}`);
    }
    return bytes;
}

/** @param {unknown} given */
function seedOf(given) {
    if (given === undefined) {
        return randomBytes(SEED_LEN);
    }
    if (!(given instanceof Uint8Array) || given.length !== SEED_LEN) {
        throw new TypeError(`seed is a Uint8Array of ${SEED_LEN} bytes`);
    }
    return given;
}

/**
 * Writes the settings, and gives the bytes beside them. TypeError and RangeError if one is none.
 * @param {import("./module.js").Module} module
 * @param {Settings} given
 */
export function putSettings(module, given) {
    const user = credential(given.username, "username", 1, 508), password = credential(given.credential, "credential", 0, 65_535);
    const seed = seedOf(given.seed), { settings: at, view, bytes } = module, { maxStaleNonces = 9, transport = "udp" } = given;
    if (!Number.isInteger(maxStaleNonces) || maxStaleNonces < 1 || maxStaleNonces > 65_535) {
        throw new RangeError(`maxStaleNonces is a number from 1 to 65535, and not ${String(maxStaleNonces)}`);
    }
    const way = numberOf(TRANSPORT, transport, "transport"), relay = numberOf(TRANSPORT, given.allocation ?? "udp", "allocation");
    if (relay > way) {
        throw new RangeError('an allocation over "tcp" needs a transport of "tcp" (RFC 6062, section 4.1)');
    }
    bytes.fill(0, at, at + SIZE.SETTINGS);
    putTimes(view, at, given.times);
    const words = [way, relay, ...oneOrTwo(FAMILIES, given.families ?? [4], "families"),
        ...oneOrTwo(ALGORITHMS, given.algorithms ?? ["sha256", "sha1"], "algorithms"),
        numberOf(ANONYMOUS, given.anonymous ?? "auto", "anonymous")];
    words.forEach((word, index) => view.setUint32(at + SETTINGS.TRANSPORT + 4 * index, word, true));
    view.setUint16(at + SETTINGS.MAX_STALE_NONCES, maxStaleNonces, true);
    view.setUint16(at + SETTINGS.TIMED_FROM_SEND, given.timedFromSend ?? true ? 1 : 0, true);
    putAddress(bytes, view, at + SETTINGS.LOCAL, given.local, "local");
    putAddress(bytes, view, at + SETTINGS.REMOTE, given.remote, "remote");
    putPauses(view, at, given);
    return { user, password, seed, isStream: way === TRANSPORT.tcp, relay };
}

/**
 * @param {DataView} view
 * @param {number} at
 * @param {Settings} given
 */
function putPauses(view, at, { pause = 50, keepalive = 0, refreshAhead = 60_000 }) {
    putPause(view, at + SETTINGS.REQUEST_CADENCE, pause);
    putTime(view, at + SETTINGS.KEEPALIVE, keepalive, "keepalive");
    putAhead(view, at + SETTINGS.REFRESH_AHEAD, refreshAhead);
}

/**
 * @param {DataView} view
 * @param {number} at
 * @param {Times | undefined} times
 */
function putTimes(view, at, times) {
    if (times === undefined) {
        return;
    }
    const { initial = 500, longest = 2n ** 62n, last = 8_000, count = 7 } = times;
    if (!Number.isInteger(count) || count < 0 || count >= 2 ** 32) {
        throw new RangeError(`times.count is a number of 32 bits, and not ${String(count)}`);
    }
    putTime(view, at + SETTINGS.WAIT_INITIAL, initial, "times.initial", LONGEST);
    putTime(view, at + SETTINGS.WAIT_MAX, longest, "times.longest", LONGEST);
    putTime(view, at + SETTINGS.WAIT_LAST, last, "times.last", LONGEST);
    view.setUint32(at + SETTINGS.WAIT_COUNT, count, true);
    view.setUint32(at + SETTINGS.HAS_WAITS, 1, true);
}
