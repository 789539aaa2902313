// Whether the path to the server still carries: it is asked by requests that change nothing, and errors of the socket are counted.
import { randomBytes } from "../random.js";
import { pause } from "./clock.js";
import { Deferred } from "./deferred.js";
import { METHOD, bareRequest, idText } from "./reasons.js";
import { Standing } from "./standing.js";

/** @typedef {import("../address.js").Address} Address */
/**
 * What came of a check: whether the server has answered a Binding request (coturn with `--no-stun` never does); this client's address
 * as the server sees it now; and whether it knows the relayed address, or undefined if it has not answered that. False is a server
 * that was restarted, or one before which a NAT has forgotten the client, as `mapped` says by another address than `mappedAddress()`:
 * the relayed address is lost (RFC 8656, section 3.2), so open a new relay.
 * @typedef {{ isAnswered: boolean, mapped: Address | undefined, isAllocated: boolean | undefined }} Check
 */

/** How long an answer is waited for, after each time that the request was sent, in milliseconds (RFC 8489, section 6.2.1). */
const WAITS = Object.freeze([500, 1_000, 2_000]), ALL_WAITS = Object.freeze([3_500]);
/** This many checks in a row without an answer end the relay, and this many errors in a row, each a second after the last one. */
const RUN = 3, PAUSE = 1_000;

/**
 * What a check is known by.
 * @param {number} method
 * @param {Uint8Array} id
 */
const keyOf = (method, id) => `${method} ${idText(id)}`;

/** The path to the server of a session. */
export class Path {
    /**
     * By their methods and transaction IDs.
     * @type {Map<string, Deferred<Address | undefined>>}
     */
    #checks = new Map();
    #errors = 0;
    #isSuspicious = false;
    #session;
    #standing;

    /** @param {import("./session.js").Session} session */
    constructor(session) {
        this.#session = session;
        this.#standing = new Standing(session);
    }

    /**
     * Asks the server whether it answers, and whether it knows the relayed address. `Ended` if the client has ended.
     * @returns {Promise<Check>}
     */
    async check() {
        const standing = this.#standing.ask(), answer = await this.#ask(METHOD.BINDING);
        return { ...answer, isAllocated: await standing };
    }

    /**
     * Asks by a request of this method, unsigned, and without attributes.
     * @param {number} method
     * @returns {Promise<{ isAnswered: boolean, mapped: Address | undefined }>}
     */
    async #ask(method) {
        const session = this.#session, id = randomBytes(12), key = keyOf(method, id);
        /** @type {Deferred<Address | undefined>} */
        const answer = new Deferred();
        this.#checks.set(key, answer);
        try {
            for (const wait of session.link.isStream ? ALL_WAITS : WAITS) {
                session.usable();
                session.link.send(bareRequest(method, id));
                await Promise.race([answer.promise, session.over.promise, pause(session.clock, wait)]);
                if (answer.isDone) {
                    return { isAnswered: true, mapped: await answer.promise };
                }
            }
            session.usable();
            return { isAnswered: false, mapped: undefined };
        } finally {
            this.#checks.delete(key);
        }
    }

    /**
     * Whether a message of the server is the answer to a check, which then has it.
     * @param {import("../message.js").Message} message
     */
    hears(message) {
        const isResponse = message.class === "success" || message.class === "error";
        const answer = isResponse ? this.#checks.get(keyOf(message.method, message.id)) : undefined;
        answer?.resolve(message.class === "success" ? message.mapped : undefined);
        return answer !== undefined;
    }

    /**
     * Checks the path by itself, at an interval in milliseconds. The relay ends when three checks in a row have no answer, with nothing
     * from the server in between. If one has none, the next one requests a permission for no peer: each TURN server refuses that,
     * also one that answers no Binding request.
     * @param {number} every
     */
    async probe(every) {
        const session = this.#session;
        let method = METHOD.BINDING;
        for (let unanswered = 0, seen = session.count; unanswered < RUN && !session.isOver; ) {
            await Promise.race([pause(session.clock, every), session.over.promise]);
            unanswered = session.count === seen ? unanswered : 0;
            seen = session.count;
            const isAnswered = session.isOver || (await this.#ask(method).catch(() => ({ isAnswered: true }))).isAnswered;
            if (isAnswered || session.count !== seen) {
                unanswered = 0;
            } else {
                unanswered++;
                method = method === METHOD.BINDING ? METHOD.CREATE_PERMISSION : METHOD.BINDING;
            }
            seen = session.count;
        }
        session.breaks(`no answer from ${session.uri.text} to ${RUN} checks in a row`, undefined);
    }

    /**
     * The socket has reported an error. One may pass; several in a row, with nothing from the server between, end the relay.
     * @param {Error} error
     */
    refused(error) {
        this.#errors++;
        if (!this.#isSuspicious) {
            this.#isSuspicious = true;
            this.#suspect(error).finally(() => (this.#isSuspicious = false));
        }
    }

    /** @param {Error} error */
    async #suspect(error) {
        const session = this.#session;
        for (let run = 0; run < RUN && !session.isOver; run++) {
            const seen = session.count, errors = this.#errors;
            session.link.send(bareRequest(METHOD.BINDING, randomBytes(12)));
            await Promise.race([pause(session.clock, PAUSE), session.over.promise]);
            if (session.count !== seen || this.#errors === errors) {
                return;
            }
        }
        session.breaks(error.message, error);
    }
}
