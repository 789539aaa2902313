// The state of a session, who learns of it, and who waits for a relayed address.
import { Deferred } from "./deferred.js";

/** @typedef {import("../address.js").Address} Address */
/** @typedef {import("./session.js").Session} Session */
/**
 * Who has a session, and learns what happens: data of peers, what is lost, errors of the socket that do not end it, that there is
 * room again, that a peer has connected, and the end: why, or undefined if the user has closed it.
 * @typedef {{ put(data: Buffer, peer: Address): void, offered(of: Session): void, lost(of: Session, lost: import("./grants.js").Lost): void,
 *     socketError(of: Session, error: Error): void, drained(of: Session): void,
 *     ended(of: Session, why: import("../errors.js").Ended | undefined): void }} SessionUser
 */
/**
 * Opens a data connection to the server, over TLS where the server is reached so.
 * @typedef {(signal: AbortSignal) => Promise<import("./data-link.js").DataLink>} ConnectTo
 */
/**
 * `opening`: the server was asked for a relayed address; `open`: there is one; `leaving`: it is given back; `over`: the client has
 * ended.
 * @typedef {"opening" | "open" | "leaving" | "over"} State
 */

/** How long a signed answer may still come after one that said, unsigned, why it fails, in milliseconds. */
const GRACE = 750;

/** Who waits: whether the server answers at all, and whether it grants a relayed address. What is settled stays so. */
export class Waiting {
    /**
     * Settled when the server has answered anything, or cannot be reached.
     * @type {Deferred<void>}
     */
    heard = new Deferred();
    /**
     * Settled when there is a relayed address, or none.
     * @type {Deferred<void>}
     */
    ready = new Deferred();

    /** There is a relayed address. */
    succeed() {
        this.heard.resolve();
        this.ready.resolve();
    }

    /**
     * There is none.
     * @param {import("../errors.js").AllocationFailed} error
     */
    fail(error) {
        this.heard.reject(error);
        this.ready.reject(error);
    }

    /**
     * There is none, unless a signed answer comes soon.
     * @param {import("../errors.js").AllocationFailed} error
     */
    failSoon(error) {
        setTimeout(() => this.fail(error), GRACE);
    }
}
