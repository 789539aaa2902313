// What a relay is opened with, and what its calls are called with, checked.
import dgram from "node:dgram";
import net from "node:net";
import { parseIp } from "../address.js";
import { CLOCK } from "./clock.js";
import { isUsed, lookupAll } from "./servers.js";
import { parseUri } from "./uri.js";

/** @typedef {import("./relay-options.js").RelayOptions} RelayOptions */
/**
 * For tests: another clock, and other addresses of names.
 * @typedef {{ readonly clock?: import("./clock.js").Clock, readonly lookup?: (host: string) => Promise<string[]> }} Hooks
 */
/** @typedef {ReturnType<typeof checkOptions>} Checked */
/**
 * The own address of a socket: any where there is no address, and a port of the system's where it is 0.
 * @typedef {{ readonly address: string | undefined, readonly port: number }} Local
 */

/** The URI of a STUN server (RFC 7064). Services list some beside the TURN servers: a relay needs none. */
const STUN = /^stuns?:/i;

/**
 * A number from `least` on. RangeError if it is none.
 * @param {unknown} value
 * @param {string} name
 * @param {number} least
 */
function numberFrom(value, name, least) {
    if (typeof value !== "number" || !(value >= least) || value > 1e12) {
        throw new RangeError(`${name} is a number from ${least} on, and not ${String(value)}`);
    }
    return value;
}

/**
 * The options with their defaults. TypeError and RangeError if one is none.
 * @param {RelayOptions & Hooks} options
 */
export function checkOptions({ urls, family = 4, queue = 1_024, probe, keepalive = 15_000, pause = 5, refreshAhead = 150_000, ...rest }) {
    const list = typeof urls === "string" ? [urls] : urls;
    if (!Array.isArray(list) || list.length === 0) {
        throw new TypeError("urls is a URI of a TURN server, or a list of them");
    }
    const { allocation = "udp" } = rest, uris = urisFor(list, allocation);
    if (family !== 4 && family !== 6) {
        throw new TypeError(`family is 4 or 6, and not ${String(family)}`);
    }
    const { username, credential, tls, times, anonymous, signal, library, maxStaleNonces = 256, clock = CLOCK, lookup = lookupAll } = rest;
    return {
        uris, family, allocation, local: localOf(rest), socket: socketOf(rest, uris), queue: numberFrom(queue, "queue", 1),
        probe: probe === undefined ? undefined : numberFrom(probe, "probe", 0), username, credential, tls, times, anonymous, signal, library,
        keepalive: numberFrom(keepalive, "keepalive", 0), pause: numberFrom(pause, "pause", 0),
        refreshAhead: numberFrom(refreshAhead, "refreshAhead", 0), maxStaleNonces, clock, lookup,
    };
}

/**
 * The URIs of the servers that can be asked. TypeError if there is none.
 * @param {string[]} list
 * @param {unknown} allocation
 */
function urisFor(list, allocation) {
    if (allocation !== "udp" && allocation !== "tcp") {
        throw new TypeError(`allocation is "udp" or "tcp", and not ${String(allocation)}`);
    }
    const uris = list.filter((url) => !STUN.test(url)).map(parseUri);
    if (uris.length === 0) {
        throw new TypeError("urls has a URI of a TURN server, and not of STUN servers only");
    }
    const fit = uris.filter(({ transport }) => allocation === "udp" || transport === "tcp");
    if (fit.length === 0) {
        throw new TypeError('allocation: "tcp" needs a URI over TCP or TLS: turn:HOST?transport=tcp, or turns:HOST (RFC 6062, section 4.1)');
    }
    return fit;
}

/**
 * The own address of the sockets to the server, where the user says it. TypeError if it is no IP address, RangeError if its port
 * is none.
 * @param {{ readonly localAddress?: string, readonly localPort?: number }} options
 * @returns {Local}
 */
function localOf({ localAddress, localPort = 0 }) {
    if (!Number.isInteger(localPort) || localPort < 0 || localPort > 65_535) {
        throw new RangeError(`localPort is from 0 to 65535, and not ${String(localPort)}`);
    }
    return { address: localAddress === undefined ? undefined : ipOf(localAddress).text, port: localPort };
}

/**
 * The socket of the user. TypeError if it is none for the URI, or has no place beside another URI or an address of its own.
 * @param {{ readonly socket?: unknown, readonly localAddress?: string, readonly localPort?: number }} options
 * @param {import("./uri.js").TurnUri[]} uris
 */
function socketOf({ socket, localAddress, localPort }, uris) {
    if (socket === undefined) {
        return undefined;
    }
    if (uris.length !== 1 || localAddress !== undefined || localPort !== undefined) {
        throw new TypeError("a socket is for one URI, and has an address of its own");
    }
    const isFit = uris[0].transport === "udp" ? socket instanceof dgram.Socket
        : socket instanceof net.Socket && !socket.connecting && socket.readableEncoding === null;
    if (!isFit) {
        const kind = uris[0].transport === "udp" ? "dgram" : "net that is connected, and has no encoding";
        throw new TypeError(`${uris[0].text} needs a socket of ${kind}`);
    }
    if (isUsed(/** @type {object} */ (socket))) {
        throw new TypeError("the socket is that of another relay, or was");
    }
    return /** @type {import("node:dgram").Socket | import("node:net").Socket} */ (socket);
}

/**
 * An IP address with its family and its canonical text. TypeError if it is none.
 * @param {unknown} ip
 */
export function ipOf(ip) {
    const found = typeof ip === "string" ? parseIp(ip) : undefined;
    if (!found) {
        throw new TypeError(`${String(ip)} is no IP address`);
    }
    return found;
}

/**
 * A peer: an IP address, in canonical text (RFC 5952), and a port, or both in an object. TypeError if it is none, RangeError where
 * its port is none.
 * @param {unknown} port
 * @param {unknown} address
 * @returns {import("../address.js").Address}
 */
export function peerOf(port, address) {
    const found = typeof port === "object" && port !== null ? /** @type {{ address?: unknown, port?: unknown }} */ (port) : { port, address };
    const ip = typeof found.address === "string" ? parseIp(found.address) : undefined, number = Number(found.port);
    if (!ip) {
        throw new TypeError(`a peer has an IP address, and not ${String(found.address)}: names are not resolved`);
    }
    if (!Number.isInteger(number) || number < 1 || number > 65_535) {
        throw new RangeError(`a peer has a port from 1 to 65535, and not ${String(found.port)}`);
    }
    return { address: ip.text, port: number, family: ip.family === 4 ? "IPv4" : "IPv6" };
}

/**
 * Data to send as bytes: several parts make one datagram. TypeError if it is none.
 * @param {unknown} data
 * @returns {Uint8Array}
 */
export function dataOf(data) {
    if (typeof data === "string") {
        return new TextEncoder().encode(data);
    }
    if (ArrayBuffer.isView(data)) {
        return data instanceof Uint8Array ? data : new Uint8Array(data.buffer, data.byteOffset, data.byteLength);
    }
    if (Array.isArray(data)) {
        return Buffer.concat(data.map(dataOf));
    }
    throw new TypeError(`data is text, a Buffer or another view of bytes, or a list of those, and not ${typeof data}`);
}

/**
 * What `send` is called with, in one of the forms of `dgram`: data, and its offset and length where it is a part; a port and an IP
 * address, or a peer; and a callback or `{ signal }`. TypeError and RangeError if it is none of them.
 * @param {unknown[]} words
 */
export function sendWords([data, ...rest]) {
    const bytes = dataOf(data), isPart = typeof rest[0] === "number" && typeof rest[1] === "number";
    const [offset, length] = isPart ? rest.splice(0, 2).map(Number) : [0, bytes.length];
    if (!Number.isInteger(offset) || !Number.isInteger(length) || offset < 0 || length < 0 || offset + length > bytes.length) {
        throw new RangeError(`data has ${bytes.length} bytes, and not ${length} from ${offset} on`);
    }
    const [port, address] = typeof rest[0] === "object" ? [rest.shift(), undefined] : rest.splice(0, 2), peer = peerOf(port, address);
    return { data: isPart ? bytes.subarray(offset, offset + length) : bytes, peer, ...howOf(rest) };
}

/**
 * What stands behind the peer: a callback, or `{ signal }`.
 * @param {unknown[]} words
 * @returns {{ callback: ((error: Error | null) => void) | undefined, signal: AbortSignal | undefined }}
 */
function howOf([how]) {
    if (typeof how === "function") {
        return { callback: /** @type {(error: Error | null) => void} */ (how), signal: undefined };
    }
    if (how !== undefined && (typeof how !== "object" || how === null)) {
        throw new TypeError(`behind the peer stands a callback, or { signal }, and not ${String(how)}`);
    }
    return { callback: undefined, signal: how && /** @type {{ signal?: AbortSignal }} */ (how).signal };
}
