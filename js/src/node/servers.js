// A TURN server by its URI: the addresses of its name, and connections to one of them.
import dns from "node:dns/promises";
import net from "node:net";
import { AllocationFailed, YarrowdoorError } from "../errors.js";
import { parseIp } from "../address.js";
import { abortable } from "./deferred.js";
import { DataLink } from "./data-link.js";
import { DatagramLink, StreamLink, remoteOf } from "./link.js";

/** How long an attempt runs before one with the next address begins alongside, in milliseconds (RFC 8305, section 5). */
const STAGGER = 250;

/**
 * The server's IP addresses, in the order in which they are tried: of the family of the own address, where the user says one, and one
 * where the socket is the user's. AllocationFailed if its name has none.
 * @param {import("./uri.js").TurnUri} uri
 * @param {import("./options.js").Checked} options
 */
export async function addressesOf(uri, { lookup, local, socket }) {
    const own = socket && ownRemote(socket);
    if (own) {
        return [own];
    }
    try {
        const found = parseIp(uri.host) ? [uri.host] : await lookup(uri.host), family = familyOf(local.address, socket);
        const fit = interleaved(found).filter((host) => family === undefined || family === (host.includes(":") ? 6 : 4));
        if (fit.length === 0) {
            throw new Error(`${uri.host} has no ${family === undefined ? "address" : `IPv${family} address, as the own one is`}`);
        }
        return socket ? fit.slice(0, 1) : fit;
    } catch (error) {
        throw new AllocationFailed(`no connection to ${uri.text}: ${textOf(error)}`, undefined, error);
    }
}

/**
 * The sockets of users that are, or were, sockets to a server.
 * @type {WeakSet<object>}
 */
const used = new WeakSet();

/**
 * Whether a socket of the user is, or was, one to a server.
 * @param {object} socket
 */
export const isUsed = (socket) => used.has(socket);

/**
 * Closes a socket of the user that was not used.
 * @param {import("node:dgram").Socket | import("node:net").Socket} socket
 */
export function closeUnused(socket) {
    if (!isUsed(socket)) {
        socket instanceof net.Socket ? socket.destroy() : socket.close();
    }
}

/**
 * Where a socket of the user is connected to.
 * @param {import("node:dgram").Socket | import("node:net").Socket} socket
 */
function ownRemote(socket) {
    return socket instanceof net.Socket ? socket.remoteAddress : remoteOf(socket)?.address;
}

/**
 * The family that the server's address has to have.
 * @param {string | undefined} own
 * @param {import("node:dgram").Socket | import("node:net").Socket | undefined} socket
 */
function familyOf(own, socket) {
    const isSix = socket ? /** @type {{ type?: string }} */ (socket).type === "udp6" : own?.includes(":");
    return isSix === undefined ? undefined : isSix ? 6 : 4;
}

/**
 * All addresses of a name, as the system gives them.
 * @param {string} host
 */
export async function lookupAll(host) {
    return (await dns.lookup(host, { all: true, verbatim: true })).map(({ address }) => address);
}

/**
 * A new socket to the server at this address of it.
 * @param {import("./uri.js").TurnUri} uri
 * @param {string} host
 * @param {import("./options.js").Checked} options
 * @param {AbortSignal} signal
 */
export function connect(uri, host, { tls, local, socket }, signal) {
    socket && used.add(socket);
    if (uri.transport === "udp") {
        return DatagramLink.connect(host, uri.port, signal, { local, socket });
    }
    return StreamLink.connect(host, uri.port, secureOf(uri, tls), signal, { local, socket });
}

/**
 * A new data connection to the server, at the address and the port where it is reached already (RFC 6062, section 4.3).
 * @param {import("./uri.js").TurnUri} uri
 * @param {string} host
 * @param {number} port
 * @param {import("./options.js").Checked} options
 * @param {AbortSignal} signal
 */
export function connectData(uri, host, port, { tls, local }, signal) {
    const own = { address: local.address, port: 0 }; // a port that the user has named is that of the first connection
    return /** @type {Promise<DataLink>} */ (DataLink.connect(host, port, secureOf(uri, tls), signal, { local: own }));
}

/**
 * The options of TLS, where the server is reached by it.
 * @param {import("./uri.js").TurnUri} uri
 * @param {import("node:tls").ConnectionOptions | undefined} tls
 */
function secureOf(uri, tls) {
    const named = parseIp(uri.host) ? {} : { servername: uri.host.replace(/\.$/, "") };
    return uri.isSecure ? { ...named, ...tls } : undefined;
}

/**
 * Each address once, and IPv6 and IPv4 by turns, the family of the first one first (RFC 8305, section 4).
 * @param {string[]} hosts
 */
export function interleaved(hosts) {
    const unique = [...new Set(hosts)], isFirst = (/** @type {string} */ host) => host.includes(":") === unique[0].includes(":");
    const columns = [unique.filter(isFirst), unique.filter((host) => !isFirst(host))];
    return unique.flatMap((_, row) => columns.flatMap((column) => column.slice(row, row + 1)));
}

/**
 * Each attempt has failed, for a reason of its own.
 * @template Item
 */
export class NoneSucceeded extends Error {
    /** @param {Map<Item, unknown>} failures */
    constructor(failures) {
        super("no attempt has succeeded");
        this.failures = failures;
    }
}

/**
 * Attempts one after the other, of addresses or of URIs, each 250 ms after the last one began, or at once where that one has failed;
 * only then if they are to run one by one.
 * Gives what the first one found that succeeds; the other attempts are given up, and what one of them finds meanwhile is discarded.
 * NoneSucceeded if all fail.
 * @template T, Item
 * @param {Item[]} items
 * @param {(item: Item, signal: AbortSignal) => Promise<T>} attempt
 * @param {(found: T) => void} discard
 * @param {AbortSignal | undefined} signal
 * @param {boolean} [areAlone]
 * @returns {Promise<T>}
 */
export async function firstOf(items, attempt, discard, signal, areAlone = false) {
    /** @type {Map<Item, unknown>} */
    const failures = new Map();
    /** @type {Map<Item, Promise<{ item: Item, found?: T, error?: unknown }>>} */
    const running = new Map();
    const others = new AbortController(), waiting = [...items];
    try {
        while (waiting.length > 0 || running.size > 0) {
            const item = waiting.shift();
            if (item !== undefined) {
                running.set(item, attempt(item, others.signal).then((found) => ({ item, found }), (error) => ({ item, error })));
            }
            const done = await abortable(soonest([...running.values()], waiting.length > 0 && !areAlone), signal);
            if (done) {
                running.delete(done.item);
                if (!("error" in done)) {
                    return /** @type {T} */ (done.found);
                }
                failures.set(done.item, checked(done.error));
            }
        }
        throw new NoneSucceeded(failures);
    } finally {
        others.abort(new Error("another attempt has succeeded"));
        for (const other of running.values()) {
            other.then((it) => "error" in it || discard(/** @type {T} */ (it.found)));
        }
    }
}

/**
 * What is done first, or undefined if the next attempt is to begin.
 * @template T
 * @param {Promise<T>[]} running
 * @param {boolean} isStaggered
 * @returns {Promise<T | undefined>}
 */
async function soonest(running, isStaggered) {
    /** @type {ReturnType<typeof setTimeout> | undefined} */
    let timer;
    /** @type {Promise<undefined>} */
    const staggered = new Promise((resolve) => {
        timer = isStaggered ? setTimeout(() => resolve(undefined), STAGGER) : undefined;
    });
    try {
        return await Promise.race([...running, staggered]);
    } finally {
        clearTimeout(timer);
    }
}

/**
 * An error that is about an address: of the system, or of a server. Another one is a fault, and thrown.
 * @param {unknown} error
 */
function checked(error) {
    if (error instanceof TypeError || error instanceof RangeError) {
        throw error;
    }
    return error;
}

/** @param {unknown} error */
function textOf(error) {
    return error instanceof Error ? error.message : String(error);
}

/**
 * What says of each address why it could not be used.
 * @param {import("./uri.js").TurnUri} uri
 * @param {Map<string, unknown>} failures
 */
export function unreachable(uri, failures) {
    const last = [...failures.values()].pop();
    if (failures.size === 1 && last instanceof YarrowdoorError) {
        return last;
    }
    const tried = [...failures].map(([host, error]) => (host === uri.host ? textOf(error) : `${host}: ${textOf(error)}`)).join("; ");
    return new AllocationFailed(`no connection to ${uri.text}: ${tried}`, undefined, last);
}
