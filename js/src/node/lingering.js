// When a data connection may be closed: a server drops what it has not passed on when its client closes one.
import { readFile } from "node:fs/promises";
import { CLOCK, pause } from "./clock.js";

/** How long a data connection stays open after its last byte has left, in milliseconds. Whether the peer has all cannot be known. */
export const LINGER = 1_000;
/** How often it is looked whether all bytes have left, in milliseconds. */
const LOOK = 50;

/** @typedef {import("./data-link.js").DataLink} DataLink */

/**
 * Waits until the last byte of a connection has left, and LINGER after it, or until the connection is over.
 * @param {DataLink} link
 */
export async function linger(link) {
    while (!link.isOver && (link.waiting > 0 || (await unconfirmed(link)) > 0)) {
        await pause(CLOCK, LOOK);
    }
    for (const start = CLOCK.now(); !link.isOver && CLOCK.now() - start < LINGER; ) {
        await pause(CLOCK, LOOK);
    }
}

/** @param {number} port */
const hex = (port) => port.toString(16).toUpperCase().padStart(4, "0");

/**
 * How many bytes wait in the system for the server to confirm them, as Linux lists them by sockets; 0 where there is no such list.
 * @param {DataLink} link
 */
async function unconfirmed({ local, remote }) {
    const table = local.address.includes(":") ? "tcp6" : "tcp";
    const ports = new RegExp(`:${hex(local.port)} [0-9A-F]+:${hex(remote.port)} [0-9A-F]{2} ([0-9A-F]+):`, "g");
    try {
        const text = String(await readFile(`/proc/self/net/${table}`));
        return [...text.matchAll(ports)].reduce((sum, [, waiting]) => sum + parseInt(waiting, 16), 0);
    } catch {
        return 0;
    }
}
