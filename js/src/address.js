// IP addresses as text and as the library has them.
import { ADDRESS, SIZE } from "./layout.js";

/**
 * An IP address with its port, as sockets of Node have it. IPv6 addresses are written as RFC 5952 says; `flow` and `scope` are
 * there if they are not 0.
 * @typedef {{ readonly address: string, readonly port: number, readonly family: "IPv4" | "IPv6", readonly flow?: number,
 *     readonly scope?: number }} Address
 */

/**
 * An address that is passed in: an IP address, no name. The family is that of the text.
 * @typedef {{ readonly address: string, readonly port: number, readonly family?: string | number, readonly flow?: number,
 *     readonly scope?: number }} AddressLike
 */

/** So many addresses are kept that were parsed or written. */
const KEPT = 4_096;

/**
 * An IP address that was parsed: its bytes, 16 for both families, and its canonical text, which events and answers have.
 * @typedef {{ family: 4 | 6, bytes: Uint8Array, text: string }} ParsedIp
 */

/** @type {Map<string, ParsedIp>} */
const parsed = new Map();

/**
 * An IP address, or undefined if the text is none.
 * @param {string} text
 * @returns {ParsedIp | undefined}
 */
export function parseIp(text) {
    const before = parsed.get(text);
    if (before) {
        return before;
    }
    const four = typeof text === "string" ? fourBytes(text) : undefined;
    const bytes = four ? [...four, 0, 0, 0, 0, 0, 0, 0, 0, 0, 0, 0, 0] : typeof text === "string" ? sixteenBytes(text) : undefined;
    if (!bytes) {
        return undefined;
    }
    if (parsed.size >= KEPT) {
        parsed.clear();
    }
    const found = four ? parsedFour(text, bytes) : parsedSix(Uint8Array.from(bytes));
    parsed.set(text, found);
    return found;
}

/**
 * The text of an IP address as RFC 5952 writes it.
 * @param {string} text
 */
export function canonicalIp(text) {
    return parseIp(text)?.text ?? text;
}

/**
 * An IPv4 address has one text.
 * @param {string} text
 * @param {number[]} bytes
 * @returns {ParsedIp}
 */
function parsedFour(text, bytes) {
    return { family: 4, bytes: Uint8Array.from(bytes), text };
}

/**
 * @param {Uint8Array} bytes
 * @returns {ParsedIp}
 */
function parsedSix(bytes) {
    return { family: 6, bytes, text: sixAt(new DataView(bytes.buffer), 0) };
}

/** @param {string} text */
function fourBytes(text) {
    const parts = text.split(".");
    const are = parts.length === 4 && parts.every((part) => /^(0|[1-9][0-9]{0,2})$/.test(part) && Number(part) < 256);
    return are ? parts.map(Number) : undefined;
}

/**
 * The 16 bytes of an IPv6 address (RFC 4291, section 2.2).
 * @param {string} text
 */
function sixteenBytes(text) {
    const halves = text.split("::");
    if (halves.length > 2) {
        return undefined;
    }
    const [front, back] = [halves[0], halves[1] ?? ""].map((half, at) => groups(half, at === halves.length - 1));
    const missing = 8 - (front?.length ?? 9) - (back?.length ?? 9);
    if (!front || !back || (halves.length === 2 ? missing < 1 : missing !== 0)) {
        return undefined;
    }
    return [...front, ...Array(missing).fill(0), ...back].flatMap((group) => [group >> 8, group & 255]);
}

/**
 * Groups of 16 bits; the last of them may be an IPv4 address.
 * @param {string} text
 * @param {boolean} isLast
 */
function groups(text, isLast) {
    const parts = text === "" ? [] : text.split(":"), found = [];
    for (const [at, part] of parts.entries()) {
        const four = isLast && at === parts.length - 1 && part.includes(".") ? fourBytes(part) : undefined;
        if (four) {
            found.push((four[0] << 8) | four[1], (four[2] << 8) | four[3]);
        } else if (/^[0-9a-fA-F]{1,4}$/.test(part)) {
            found.push(parseInt(part, 16));
        } else {
            return undefined;
        }
    }
    return found;
}

/** @type {Map<number, string>} */
const written = new Map();

/**
 * The IP address that stands in an address of the library, as text.
 * @param {DataView} view
 * @param {number} place
 */
function ipAt(view, place) {
    if (view.getUint8(place + ADDRESS.FAMILY) !== 4) {
        return sixAt(view, place);
    }
    const bits = view.getUint32(place, false), before = written.get(bits);
    if (before !== undefined) {
        return before;
    }
    if (written.size >= KEPT) {
        written.clear();
    }
    const text = `${bits >>> 24}.${(bits >>> 16) & 255}.${(bits >>> 8) & 255}.${bits & 255}`;
    written.set(bits, text);
    return text;
}

/**
 * An IPv6 address as RFC 5952 writes it: the longest run of two zeros or more as `::`.
 * @param {DataView} view
 * @param {number} place
 */
function sixAt(view, place) {
    const found = Array.from({ length: 8 }, (_, at) => view.getUint16(place + 2 * at, false));
    if (found.slice(0, 5).every((it) => it === 0) && found[5] === 0xffff) {
        return `::ffff:${found[6] >> 8}.${found[6] & 255}.${found[7] >> 8}.${found[7] & 255}`;
    }
    let best = 0, start = -1;
    for (let at = 0; at < 8; at++) {
        let run = 0;
        while (at + run < 8 && found[at + run] === 0) {
            run++;
        }
        if (run > best && run > 1) {
            [best, start] = [run, at];
        }
    }
    const texts = found.map((it) => it.toString(16));
    return start < 0 ? texts.join(":") : `${texts.slice(0, start).join(":")}::${texts.slice(start + best).join(":")}`;
}

/**
 * The address at a place, or undefined if there is none.
 * @param {DataView} view
 * @param {number} place
 * @returns {Address}
 */
export function addressAt(view, place) {
    const family = view.getUint8(place + ADDRESS.FAMILY) === 6 ? "IPv6" : "IPv4";
    const address = ipAt(view, place), port = view.getUint16(place + ADDRESS.PORT, true);
    const flow = view.getUint32(place + ADDRESS.FLOW, true), scope = view.getUint32(place + ADDRESS.SCOPE, true);
    return flow || scope ? { address, port, family, flow, scope } : { address, port, family };
}

/** Addresses that are read one after the other, and mostly are the same one: it is made once. */
export class LastAddress {
    #words = new Int32Array(SIZE.ADDRESS / 4);
    /** Two words of an IPv4 address, of IP address and of port and family, say all of it. For another one the latter is -1. */
    #ip = 0;
    #port = -1;
    /** @type {Address} */
    #found = Object.freeze({ address: "0.0.0.0", port: 0, family: "IPv4" });

    /**
     * The address at a place.
     * @param {DataView} view
     * @param {number} place
     * @returns {Address}
     */
    at(view, place) {
        const isSame = view.getInt32(place + ADDRESS.PORT, true) === this.#port && view.getInt32(place, true) === this.#ip;
        return isSame ? this.#found : this.#read(view, place);
    }

    /**
     * Compares all words, and where one differs reads the address.
     * @param {DataView} view
     * @param {number} place
     */
    #read(view, place) {
        if (this.#words.every((word, at) => view.getInt32(place + 4 * at, true) === word)) {
            return this.#found;
        }
        this.#words.forEach((_, at, words) => (words[at] = view.getInt32(place + 4 * at, true)));
        this.#found = Object.freeze(addressAt(view, place));
        this.#ip = this.#words[0];
        this.#port = this.#found.family === "IPv4" ? this.#words[ADDRESS.PORT / 4] : -1;
        return this.#found;
    }
}

/**
 * Whether an address stands at a place.
 * @param {DataView} view
 * @param {number} place
 */
export function isAddressAt(view, place) {
    return view.getUint8(place + ADDRESS.FAMILY) !== 0;
}

/**
 * Writes an address. TypeError if it is none, RangeError if its port is none.
 * @param {Uint8Array} memory
 * @param {DataView} view
 * @param {number} place
 * @param {AddressLike} address
 * @param {string} name
 */
export function putAddress(memory, view, place, address, name) {
    const found = parseIp(address?.address), { port, flow = 0, scope = 0 } = address ?? {};
    if (!found) {
        throw new TypeError(`${name} is { address, port } with an IP address, and not ${shown(address)}`);
    }
    if (!Number.isInteger(port) || port < 0 || port > 65_535) {
        throw new RangeError(`${name} has a port from 0 to 65535, and not ${String(port)}`);
    }
    if (!isWord(flow) || !isWord(scope) || (found.family === 4 && (flow || scope))) {
        throw new RangeError(`${name} has flow and scope of an IPv6 address, numbers of 32 bits, and not ${flow} and ${scope}`);
    }
    memory.fill(0, place, place + SIZE.ADDRESS);
    memory.set(found.bytes, place);
    view.setUint32(place + ADDRESS.FLOW, flow, true);
    view.setUint32(place + ADDRESS.SCOPE, scope, true);
    view.setUint16(place + ADDRESS.PORT, port, true);
    view.setUint8(place + ADDRESS.FAMILY, found.family);
}

/** @param {number} value */
function isWord(value) {
    return Number.isInteger(value) && value >= 0 && value < 2 ** 32;
}

/** @param {unknown} value */
function shown(value) {
    try {
        return JSON.stringify(value) ?? String(value);
    } catch {
        return String(value);
    }
}
