// The errors of the package, by name. All of them are a YarrowdoorError, and have a reason and a code.

/**
 * What an error response said: its code, and its words.
 * @typedef {{ code: number, phrase: string }} Hint
 */

/** What all errors of the package are. Wrong arguments are a TypeError or a RangeError. */
export class YarrowdoorError extends Error {
    /**
     * @param {string} reason
     * @param {string} message
     * @param {unknown} [cause]
     */
    constructor(reason, message, cause) {
        super(message);
        this.name = new.target.name;
        /** Why, in a word that stays the same. */
        this.reason = reason;
        /** The same as Node's errors have it: `ERR_TURN_PERMISSION_FAILED` of `permission-failed`. */
        this.code = `ERR_TURN_${reason.toUpperCase().replaceAll("-", "_")}`;
        if (cause !== undefined) {
            /**
             * What it comes from, as the error of a socket.
             * @type {unknown}
             */
            this.cause = cause;
        }
    }
}

/** The module is not found, is not one, or was stopped by a fault: `library`. After a fault no client of it can be used. */
export class LibraryError extends YarrowdoorError {
    /**
     * @param {string} message
     * @param {unknown} [cause]
     */
    constructor(message, cause) {
        super("library", message, cause);
    }
}

/**
 * The module's memory is used up, or its limit reached: `out-of-memory`. The client is valid, and may have ended: poll it. What a
 * stream still held is gone.
 */
export class OutOfMemory extends YarrowdoorError {
    /** @param {string} [message] */
    constructor(message = "the module has no memory left") {
        super("out-of-memory", message);
    }
}

/**
 * The client refuses a call, and is as it was (but that `no-allocation` for an allocation past its expiry marks it: it is not used
 * again).
 *
 * `reason` is one of `already-exists` (it is active, or requested already), `no-allocation`, `no-permission` (the peer has none),
 * `no-socket` (there is no data connection to the peer), `expired` (the peer had a channel, and may have another only after
 * `until`; RFC 8656, section 12) and `not-granted` (there is no such permission or channel).
 */
export class Refused extends YarrowdoorError {
    /**
     * @param {string} reason
     * @param {import("./time.js").Time} [until]
     * @param {string} [detail]
     */
    constructor(reason, until = 0, detail = "") {
        super(reason, detail ? `${reason}: ${detail}` : reason);
        /** Of `expired`: the time of the client from which on another channel can be had. */
        this.until = until;
    }
}

/**
 * The client has ended, is being closed, was closed or was not opened: `ended`. The text says why, and `cause` is the error of the
 * socket, if there was one. The relayed address is gone. Make a new client, from another local port.
 */
export class Ended extends YarrowdoorError {
    /**
     * @param {string} message
     * @param {unknown} [cause]
     */
    constructor(message, cause) {
        super("ended", message, cause);
    }
}

/**
 * An error of the server. `errorCode` and `phrase` are what an error response said, if one was seen. Nobody has to have signed that
 * response, so it is a hint: anyone who knows the addresses can send such a packet.
 */
export class ServerError extends YarrowdoorError {
    /**
     * @param {string} reason
     * @param {string} message
     * @param {Hint | undefined} [hint]
     * @param {unknown} [cause]
     */
    constructor(reason, message, hint, cause) {
        super(reason, hint ? `${message} (${`${hint.code} ${hint.phrase}`.trim()})` : message, cause);
        /** The number of the error response (RFC 8656, section 19; RFC 8489, section 14.8), by the name that WebRTC has for it. */
        this.errorCode = hint?.code;
        /** The server's words for it, for people to read. They may be empty. */
        this.phrase = hint?.phrase ?? "";
    }
}

/** The server gives no relayed address, cannot be reached, or does not answer: `allocation-failed`. */
export class AllocationFailed extends ServerError {
    /**
     * @param {string} message
     * @param {Hint | undefined} [hint]
     * @param {unknown} [cause]
     * @param {string} [reason]
     */
    constructor(message, hint, cause, reason = "allocation-failed") {
        super(reason, message, hint, cause);
    }
}

/**
 * The server gives no relayed address, and a packet said that user name or password are wrong: `wrong-credentials`. `errorCode` is
 * 401, or 400 with some servers.
 */
export class WrongCredentials extends AllocationFailed {
    /**
     * @param {string} message
     * @param {Hint | undefined} [hint]
     */
    constructor(message, hint) {
        super(message, hint, undefined, "wrong-credentials");
    }
}

/** The server does not let the peer's IP address send (RFC 8656, section 9), or did not answer: `permission-failed`. */
export class PermissionFailed extends ServerError {
    /**
     * @param {string} message
     * @param {Hint | undefined} [hint]
     */
    constructor(message, hint) {
        super("permission-failed", message, hint);
    }
}

/** The server gives the peer no channel (RFC 8656, section 12), or did not answer: `channel-failed`. */
export class ChannelFailed extends ServerError {
    /**
     * @param {string} message
     * @param {Hint | undefined} [hint]
     */
    constructor(message, hint) {
        super("channel-failed", message, hint);
    }
}

/**
 * There is no connection to the peer over TCP (RFC 6062, section 4.3): the peer refuses it, the server does, or did not answer, or
 * there is no data connection to the server: `connect-failed`.
 */
export class ConnectFailed extends ServerError {
    /**
     * @param {string} message
     * @param {Hint | undefined} [hint]
     * @param {unknown} [cause]
     */
    constructor(message, hint, cause) {
        super("connect-failed", message, hint, cause);
    }
}
