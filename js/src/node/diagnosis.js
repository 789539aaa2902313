// Why a client has ended, or has no relayed address: what was received from the server, in words.
import { AllocationFailed, Ended, WrongCredentials } from "../errors.js";
import { METHOD, isAboutCredentials, isChallenge, isForgotten, lifetimeOf, methodKey } from "./reasons.js";

const ALLOCATE = methodKey(METHOD.ALLOCATE), REFRESH = methodKey(METHOD.REFRESH);
/** A refresh that grants less has no effect (RFC 8656, section 7.2), in seconds. */
const MIN_LIFETIME = 600;

/** What was received from a server, and what it means. */
export class Diagnosis {
    /**
     * The error response that is being handled.
     * @type {import("../errors.js").Hint | undefined}
     */
    #errorNow;
    /**
     * The last error of the socket since something was received from the server, or the one that has ended it.
     * @type {unknown}
     */
    socketError;
    /** What has ended the connection, or the path, in words. */
    broken = "";
    #server;
    #maxStaleNonces;
    #clock;
    #requests;
    #library;
    #heard;

    /**
     * @param {string} server
     * @param {number} maxStaleNonces
     * @param {import("./clock.js").Clock} clock
     * @param {import("./requests.js").Requests} requests
     * @param {import("../library.js").Library} library
     */
    constructor(server, maxStaleNonces, clock, requests, library) {
        this.#server = server;
        this.#maxStaleNonces = maxStaleNonces;
        this.#clock = clock;
        this.#requests = requests;
        this.#library = library;
        this.#heard = clock.now();
    }

    /**
     * The server has answered a request of the client, which has taken the answer or ignored it.
     * @param {import("../message.js").Message} message
     * @param {Uint8Array} packet
     * @param {boolean} isIgnored
     */
    hears(message, packet, isIgnored) {
        const asked = this.#requests.answered(message);
        if (!asked) {
            return;
        }
        this.#heard = this.#clock.now();
        asked.took = this.#heard - asked.sent;
        this.socketError = undefined;
        const error = message.class === "error" ? message.error : undefined;
        if (error) {
            this.#errorNow = error;
            if (isIgnored || !isChallenge(error.code)) {
                asked.error = error; // else the client asks again: nothing has failed
            }
        } else if (!isIgnored) {
            [asked.isGranted, asked.error, asked.lifetime] = [true, undefined, lifetimeOf(this.#library, packet)];
        }
    }

    /** A new packet, or a wake-up: no error response is being handled. */
    begins() {
        this.#errorNow = undefined;
    }

    /**
     * The connection has ended, or the path is gone.
     * @param {string} what
     * @param {unknown} error
     */
    breaks(what, error) {
        if (!this.broken) {
            this.broken = what;
            this.socketError = error;
        }
    }

    /** Why the client has ended by itself. */
    ended() {
        return new Ended(this.#why(), this.socketError);
    }

    /** Why there is no relayed address. */
    noAddress() {
        const hint = this.#requests.last(ALLOCATE)?.error;
        if (this.broken) {
            return new AllocationFailed(this.broken, hint, this.socketError);
        }
        if (hint) {
            return refusal(hint);
        }
        if (this.#errorNow) {
            return new AllocationFailed(this.#why());
        }
        const waited = ((this.#clock.now() - this.#heard) / 1_000).toFixed(1);
        return new AllocationFailed(`no answer from ${this.#server} in ${waited} s${this.#socketWords()}`, undefined, this.socketError);
    }

    #socketWords() {
        return this.socketError instanceof Error ? `: ${this.socketError.message}` : "";
    }

    #why() {
        if (this.broken) {
            return this.broken;
        }
        if (this.#errorNow && isChallenge(this.#errorNow.code)) {
            return `the server has challenged over maxStaleNonces: ${this.#maxStaleNonces} requests in a row (${this.#errorNow.code})`;
        }
        const refresh = this.#requests.last(REFRESH);
        if (refresh?.error) {
            const { code, phrase } = refresh.error, why = isForgotten(code) ? ": it no longer knows it, as after a restart" : "";
            return `the server does not renew the relayed address (${`${code} ${phrase}`.trim()})${why}`;
        }
        if (refresh?.isGranted && refresh.lifetime !== undefined && refresh.lifetime < MIN_LIFETIME) {
            return `the server renews the relayed address for ${refresh.lifetime} s only: a refresh for less than ${MIN_LIFETIME} s has ` +
                "no effect (RFC 8656, section 7.2)";
        }
        return `the connection to the server has ended: no answer from ${this.#server} to a refresh${this.#socketWords()}`;
    }
}

/**
 * The failure of an allocation by an error response.
 * @param {import("../errors.js").Hint} hint
 */
export function refusal(hint) {
    return isAboutCredentials(hint.code) ? new WrongCredentials("user name or password are wrong", hint)
        : new AllocationFailed("the server refuses", hint);
}
