import { AddressLike } from "./address.js";
import { Time } from "./time.js";

/**
 * How long a request waits for its response: by default 39.5 s (RFC 8489, section 6.2.1). Over TCP it is transmitted once, and
 * fails as late as over UDP.
 */
export interface Times {
    /** How long after the first transmission over UDP a request is transmitted again. By default 500 ms. */
    readonly initial?: Time;
    /** The longest wait between two transmissions; each is twice the one before. */
    readonly longest?: Time;
    /** How long after the last transmission the request fails. By default 8 s. */
    readonly last?: Time;
    /** How often a request is transmitted over UDP in all. By default 7. */
    readonly count?: number;
}

/** What a client without I/O is made with. */
export interface Settings {
    /** The address of the socket to the server. */
    readonly local: AddressLike;
    /** The address of the server. */
    readonly remote: AddressLike;
    /** The user name; text is encoded as UTF-8 (typed text has to be prepared before; RFC 8489, section 14.3). */
    readonly username: string | Uint8Array;
    /** The password; text is encoded as UTF-8. */
    readonly credential: string | Uint8Array;
    /** The transport to the server. By default `"udp"`. */
    readonly transport?: "udp" | "tcp";
    /** The transport between server and peers: `"tcp"` (RFC 6062) needs a `transport` of `"tcp"`. By default `"udp"`. */
    readonly allocation?: "udp" | "tcp";
    /** The families of the relayed addresses: 4, 6 or both. By default `[4]`. */
    readonly families?: readonly (4 | 6)[];
    /** What may sign requests (RFC 8489, sections 14.5 and 14.6), by default both: then SHA-256 does if the server offers it. */
    readonly algorithms?: readonly ("sha1" | "sha256")[];
    /**
     * Whether the user name is hidden (RFC 8489, section 14.4): `"required"` always, `"disabled"` never, and `"auto"`, the default,
     * never so far.
     */
    readonly anonymous?: "auto" | "required" | "disabled";
    /** How long a request waits for its response. */
    readonly times?: Times;
    /** How many challenges in a row are answered, 1 to 65,535; the next one ends the client. By default 9. */
    readonly maxStaleNonces?: number;
    /** The least time between two requests; 0: none. By default 50 ms. */
    readonly pause?: Time;
    /** After this long without a packet one is sent, so that a NAT keeps its mapping; 0, the default: never. */
    readonly keepalive?: Time;
    /** How long before its expiry a permission or channel is refreshed, at least a second. By default 60 s. */
    readonly refreshAhead?: Time;
    /**
     * Whether a request waits for its response from when its first packet is taken (RFC 8489, section 6.2.1), as by default. With
     * false it does so from when it is made, also while it is queued.
     */
    readonly timedFromSend?: boolean;
    /** The 32 bytes that transaction IDs are made from, which must be secret. By default random ones. */
    readonly seed?: Uint8Array;
}
