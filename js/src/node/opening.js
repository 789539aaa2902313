// From options to a session with a relayed address: which server, which of its addresses, each beside the ones before that are silent.
import { Client } from "../client.js";
import { AllocationFailed } from "../errors.js";
import { Library } from "../library.js";
import { abortable } from "./deferred.js";
import { NoneSucceeded, addressesOf, closeUnused, connect, connectData, firstOf, unreachable } from "./servers.js";
import { Session } from "./session.js";

/** @typedef {import("./options.js").Checked} Checked */
/** @typedef {import("./state.js").SessionUser} SessionUser */
/** @typedef {import("./uri.js").TurnUri} TurnUri */

/** @param {Session} session */
const discard = (session) => void session.leave();
/**
 * Whether sockets to the server have a port of the user's, so that there is one at a time.
 * @param {Checked} options
 */
const hasPort = ({ local }) => local.port !== 0;

/**
 * A session with a relayed address. The next URI is tried beside the ones before where the server has not answered in 250 ms, and the
 * first that answers is asked; where it refuses, the others are. What a server may have granted to a session that is given up, it is
 * given back. AllocationFailed, WrongCredentials, or the signal's reason.
 * @param {Checked} options
 * @param {SessionUser} user
 */
export async function openSession(options, user) {
    try {
        return await opened(options, user);
    } catch (error) {
        options.socket && closeUnused(options.socket);
        throw error;
    }
}

/**
 * @param {Checked} options
 * @param {SessionUser} user
 */
async function opened(options, user) {
    options.signal?.throwIfAborted();
    const library = options.library ?? await abortable(Library.shared(), options.signal);
    /** @type {Map<TurnUri, AllocationFailed>} */
    const failures = new Map();
    for (let rest = options.uris; rest.length > 0; rest = options.uris.filter((uri) => !failures.has(uri))) {
        const session = await soonest(options, library, rest, user, failures);
        try {
            await abortable(session?.waiting.ready.promise ?? Promise.resolve(), options.signal);
            if (session) {
                return session;
            }
        } catch (error) {
            session && discard(session);
            if (!session || !(error instanceof AllocationFailed) || options.signal?.aborted) {
                throw error;
            }
            failures.set(session.uri, error);
        }
    }
    throw failureOf(options.uris.flatMap((uri) => failures.get(uri) ?? []));
}

/**
 * What is thrown where each URI has failed.
 * @param {AllocationFailed[]} failures
 */
function failureOf(failures) {
    const last = failures[failures.length - 1];
    return failures.length === 1 ? last : new AllocationFailed(failures.map(({ message }) => message).join("; "), undefined, last);
}

/**
 * A session with the server that answers first, or undefined if none does: then the failure of each URI is noted.
 * @param {Checked} options
 * @param {Library} library
 * @param {TurnUri[]} uris
 * @param {SessionUser} user
 * @param {Map<TurnUri, AllocationFailed>} failures
 */
async function soonest(options, library, uris, user, failures) {
    try {
        return await firstOf(uris, (uri, signal) => answering(options, library, uri, user, signal), discard, options.signal, hasPort(options));
    } catch (error) {
        if (!(error instanceof NoneSucceeded)) {
            throw error;
        }
        for (const [uri, failure] of error.failures) {
            if (!(failure instanceof AllocationFailed)) {
                throw failure;
            }
            failures.set(uri, failure);
        }
        return undefined;
    }
}

/**
 * A session with the server of a URI, which has answered.
 * @param {Checked} options
 * @param {Library} library
 * @param {TurnUri} uri
 * @param {SessionUser} user
 * @param {AbortSignal} signal
 */
async function answering(options, library, uri, user, signal) {
    const hosts = await abortable(addressesOf(uri, options), signal);
    /** @type {Session} */
    let session;
    try {
        session = await firstOf(hosts, (host, others) => attempt(options, library, uri, host, user, others), discard, signal,
            hasPort(options));
    } catch (error) {
        throw error instanceof NoneSucceeded ? unreachable(uri, error.failures) : error;
    }
    try {
        await abortable(session.waiting.heard.promise, signal); // of a stream that was connected, too
        return session;
    } catch (error) {
        discard(session);
        throw error;
    }
}

/**
 * A session with the server at one address of it, which has answered, or over TCP was connected to.
 * @param {Checked} options
 * @param {Library} library
 * @param {TurnUri} uri
 * @param {string} host
 * @param {SessionUser} user
 * @param {AbortSignal} signal
 */
async function attempt(options, library, uri, host, user, signal) {
    const link = await connect(uri, host, options, signal);
    let session;
    try {
        const { username, credential, allocation, times, anonymous, maxStaleNonces, pause, keepalive, refreshAhead, clock } = options;
        const client = new Client({
            local: link.local, remote: link.remote, username, credential, transport: uri.transport, allocation, families: [options.family],
            times, anonymous, maxStaleNonces, pause, keepalive, refreshAhead,
        }, library);
        /** @type {import("./state.js").ConnectTo} */
        const connectTo = (given) => connectData(uri, host, link.remote.port, options, given);
        session = new Session(client, link, uri, { library, clock, maxStaleNonces, pause, refreshAhead, connectTo }, user);
        if (!link.isStream) {
            await abortable(session.waiting.heard.promise, signal); // a stream has answered when it was connected
        }
        return session;
    } catch (error) {
        if (session) {
            void session.leave();
        } else {
            link.close();
        }
        throw error;
    }
}
