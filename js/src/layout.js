// The numbers of the library, and the places in its structs: those of yarrowdoor.h, with which tools/check/numbers compares them.

/** What a call answers. */
export const KIND = Object.freeze({
    OUT_OF_MEMORY: 1, BAD_TIME: 2, BAD_CALL: 3, BAD_PAYLOAD: 4, UNREAD_BYTES: 5, SMALL_BUFFER: 6, REFUSED: 7, DONE: 8, NOTHING: 9,
    WAIT_UNTIL: 10, ALLOCATE_TCP_SOCKET: 11, TCP_CLOSE: 12, CLOSED: 13, PACKET: 14, HANDLED: 15, IGNORED: 16, PEER_DATA: 17,
    PEER_ICMP: 18, BYTES: 19, ADDRESS: 20, YES: 21, NO: 22, ALLOCATION_CREATED: 23, ALLOCATION_CREATE_FAILED: 24,
    PERMISSION_CREATED: 25, PERMISSION_CREATE_FAILED: 26, CHANNEL_CREATED: 27, CHANNEL_CREATE_FAILED: 28, TCP_CONNECTED: 29,
    TCP_CONNECT_FAILED: 30, BAD_SETTINGS: 31, BAD_CREDENTIALS: 32, BAD_SEED: 33, PEER_DATA_RANGE: 34, MESSAGE: 35,
    CHANNEL_DATA: 36, NO_FRAME: 37,
});

/** The calls. */
export const CALL = Object.freeze({
    DELETE: 1, CREATE_PERMISSION: 2, BIND_CHANNEL: 3, TCP_CONNECT: 4, ALLOCATED_TCP_SOCKET: 5, TCP_CLOSED: 6, SEND_TO: 7, RECV: 8,
    POLL_RECV: 9, POLL: 10, POLL_TRANSMIT: 11, POLL_EVENT: 12, PROTOCOL_ERROR: 13, RELAYED_ADDRESSES: 14, PERMISSIONS: 15,
    HAVE_PERMISSION: 16, READ: 17, SET_PERMISSION_KEPT: 18, SET_CHANNEL_KEPT: 19, SEND_HEAD: 20, ABANDON: 21,
    NEXT_PERMISSION: 22,
});

/** The reasons of a refusal, by their numbers from 1 on. */
export const REASONS = Object.freeze([
    "", "already-exists", "no-allocation", "no-permission", "no-socket", "expired", "not-granted",
]);

/**
 * The transports by their numbers.
 * @type {readonly ("udp" | "tcp")[]}
 */
export const TRANSPORTS = ["udp", "tcp"];

/** Bytes of each struct. */
export const SIZE = Object.freeze({ ADDRESS: 28, SETTINGS: 160, REQUEST: 136, ANSWER: 160, MESSAGE: 112, LOAD: 24 });

/** Places in an address. */
export const ADDRESS = Object.freeze({ IP: 0, FLOW: 16, SCOPE: 20, PORT: 24, FAMILY: 26 });

/** Places in the settings. */
export const SETTINGS = Object.freeze({
    WAIT_INITIAL: 0, WAIT_MAX: 8, WAIT_LAST: 16, WAIT_COUNT: 24, HAS_WAITS: 28, TRANSPORT: 32, ALLOCATION_TRANSPORT: 36, FAMILY: 40,
    OTHER_FAMILY: 44, ALGORITHM: 48, OTHER_ALGORITHM: 52, ANONYMOUS: 56, MAX_STALE_NONCES: 60, TIMED_FROM_SEND: 62, LOCAL: 64,
    REMOTE: 92, REQUEST_CADENCE: 120, KEEPALIVE: 128, REFRESH_AHEAD: 136,
});

/** Places in a request. */
export const REQUEST = Object.freeze({ TIME: 0, KIND: 8, ID: 12, TRANSPORT: 16, FROM: 24, TO: 52, PEER: 80, LOCAL: 108 });

/** Places in an answer. */
export const ANSWER = Object.freeze({
    KIND: 0, ERROR: 4, TIME: 8, LEN: 16, START: 24, LEFT: 32, ID: 40, TRANSPORT: 44, FAMILY: 48, ICMP_DATA: 52, ICMP_TYPE: 56,
    ICMP_CODE: 57, FROM: 60, TO: 88, PEER: 116,
});

/** Places in what a message says. */
export const MESSAGE = Object.freeze({
    LEN: 0, KIND: 8, METHOD: 12, MESSAGE_CLASS: 14, ID: 16, CHANNEL: 28, CODE: 30, REASON_AT: 32, REASON_LEN: 36, REALM_AT: 40,
    REALM_LEN: 44, MAPPED: 48, ALTERNATE: 76,
});

/** Places in what takes time beside refreshes. */
export const LOAD = Object.freeze({ LATE: 0, DELAY: 8, SLOTS: 16, EXTRAS: 20 });

/** A buffer of this many bytes holds each packet that is not data. */
export const MAX_PACKET = 65_556;
/** What a packet may have beyond its data, in bytes. */
export const MAX_OVERHEAD = 64;
/** The most data over UDP, in bytes. */
export const MAX_PAYLOAD = 65_504;
/** The bytes of a seed. */
export const SEED_LEN = 32;
/** No pause between two requests. */
export const NO_PAUSE = 2n ** 64n - 1n;
