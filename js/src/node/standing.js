// Whether a server still knows a relayed address: it is asked for a permission that is of no use.
import { PermissionFailed, YarrowdoorError } from "../errors.js";
import { pause } from "./clock.js";
import { isForgotten, permissionKey } from "./reasons.js";

/** So many addresses that no host has (RFC 5737, RFC 3849) are asked for by turns. A permission for one of them permits no host. */
const NUMBERS = 254;
/** How long the answer is waited for, in milliseconds: as long as that to a Binding request. */
const WAIT = 3_500;

/**
 * Asks by a signed request: a server that was restarted, or a NAT before it with another mapping, answers a Binding request as before.
 * Only a server that knows the relayed address grants or denies a permission.
 */
export class Standing {
    #session;
    #count = 0;

    /** @param {import("./session.js").Session} session */
    constructor(session) {
        this.#session = session;
    }

    /**
     * Whether the server knows the relayed address, or undefined if it does not answer in time, or the client has ended.
     * @returns {Promise<boolean | undefined>}
     */
    async ask() {
        const { clock, over } = this.#session;
        try {
            const ip = this.#unused(), late = pause(clock, WAIT).then(() => this.#unsigned(ip));
            return await Promise.race([this.#asked(ip), late, over.promise.then(() => undefined)]);
        } catch (error) {
            if (error instanceof PermissionFailed) {
                // with another code it is denied, or the server has no room, but there is an allocation
                return error.errorCode === undefined ? undefined : !isForgotten(error.errorCode);
            }
            if (error instanceof YarrowdoorError) {
                return undefined; // it has ended, or there is no memory
            }
            throw error;
        }
    }

    /** @param {string} ip */
    async #asked(ip) {
        const { grants } = this.#session;
        await grants.permit(ip);
        grants.setKept(ip, false);
        return true;
    }

    /**
     * False if an error without a signature says that the server does not know the relayed address: one to a request for another
     * realm has none. A signed answer may follow such an error (RFC 8489, section 9.2.5), so this is for the end of the wait.
     * @param {string} ip
     * @returns {false | undefined}
     */
    #unsigned(ip) {
        const error = this.#session.requests.last(permissionKey(ip))?.error;
        return error && isForgotten(error.code) ? false : undefined;
    }

    /** An address that has no permission, which would not be asked for. */
    #unused() {
        const { address, client } = this.#session, isSix = address?.family === "IPv6";
        let ip = "";
        for (let tries = 0; tries < NUMBERS; tries++) {
            const number = (this.#count++ % NUMBERS) + 1;
            ip = isSix ? `2001:db8::${number.toString(16)}` : `192.0.2.${number}`;
            if (!client.havePermission(ip)) {
                break;
            }
        }
        return ip;
    }
}
