// What the calls of a client answer, and the events that it reports, as plain objects.
import { addressAt } from "./address.js";
import { ANSWER, KIND, TRANSPORTS } from "./layout.js";
import { timeAt } from "./time.js";

/** @typedef {import("./address.js").Address} Address */
/** @typedef {import("./time.js").Time} Time */
/** @typedef {"udp" | "tcp"} Transport */

/**
 * Nothing is due before `until`, which is in the unit of the time that was passed in. Any other call may make it earlier.
 * @template {Time} [T=Time]
 * @typedef {{ kind: "wait-until", until: import("./time.js").UnitOf<T> }} WaitUntil
 */
/**
 * Open a connection to `remote` for data of `peer`, and pass it to `allocatedTcpSocket`.
 * @typedef {{ kind: "allocate-tcp-socket", id: number, transport: Transport, local: Address, remote: Address,
 *     peer: Address }} AllocateTcpSocket
 */
/**
 * Close the connection from `local` to `remote`.
 * @typedef {{ kind: "tcp-close", local: Address, remote: Address }} TcpClose
 */
/**
 * The client has ended. An event may be left, that says so.
 * @typedef {{ kind: "closed" }} Closed
 */
/**
 * What is to be done next.
 * @template {Time} [T=Time]
 * @typedef {WaitUntil<T> | AllocateTcpSocket | TcpClose | Closed} Poll
 */

/**
 * Send these bytes over `transport`, from the socket at `local` to `remote`.
 * @typedef {{ data: Uint8Array, transport: Transport, local: Address, remote: Address }} Packet
 */

/**
 * The bytes were for the client itself: poll it.
 * @typedef {{ kind: "handled" }} Handled
 */
/**
 * The bytes were not for this client, or nothing shows that the server sent them.
 * @typedef {{ kind: "ignored" }} Ignored
 */
/**
 * `peer` sent `data` over `transport`: what was passed in, from `start` on, or where `start` is undefined what came in pieces.
 * @typedef {{ kind: "peer-data", data: Uint8Array, peer: Address, transport: Transport, start: number | undefined }} PeerData
 */
/**
 * Data of a peer that came in pieces, or behind another message, in bytes of its own.
 * @typedef {{ kind: "peer-data", data: Uint8Array, peer: Address, transport: Transport, start: undefined }} PiecedData
 */
/**
 * An ICMP packet came for data to `peer` (RFC 8656, section 18.13).
 * @typedef {{ kind: "peer-icmp", peer: Address, transport: Transport, type: number, code: number, data: number }} PeerIcmp
 */
/**
 * What passing in bytes comes to.
 * @typedef {Handled | Ignored | PeerData | PeerIcmp} Received
 */
/**
 * What passing in a part of a buffer comes to.
 * @typedef {Handled | Ignored | import("./places.js").DataInBuffer | PiecedData | PeerIcmp} ReceivedInBuffer
 */

/**
 * The server relays this address.
 * @typedef {{ kind: "allocation-created", address: Address, transport: Transport }} AllocationCreated
 */
/**
 * There is no relayed address of this family.
 * @typedef {{ kind: "allocation-create-failed", family: 4 | 6 }} AllocationCreateFailed
 */
/**
 * This IP address has a permission.
 * @typedef {{ kind: "permission-created", ip: string, transport: Transport }} PermissionCreated
 */
/**
 * This IP address got no permission, or has it no longer.
 * @typedef {{ kind: "permission-create-failed", ip: string, transport: Transport }} PermissionCreateFailed
 */
/**
 * This peer has a channel.
 * @typedef {{ kind: "channel-created", peer: Address, transport: Transport }} ChannelCreated
 */
/**
 * This peer got no channel, or has it no longer.
 * @typedef {{ kind: "channel-create-failed", peer: Address, transport: Transport }} ChannelCreateFailed
 */
/**
 * There is a data connection to this peer.
 * @typedef {{ kind: "tcp-connected", peer: Address }} TcpConnected
 */
/**
 * There is no data connection to this peer.
 * @typedef {{ kind: "tcp-connect-failed", peer: Address }} TcpConnectFailed
 */
/**
 * What a client reports without being asked.
 * @typedef {AllocationCreated | AllocationCreateFailed | PermissionCreated | PermissionCreateFailed | ChannelCreated |
 *     ChannelCreateFailed | TcpConnected | TcpConnectFailed} Event
 */

/**
 * @param {DataView} view
 * @param {number} answer
 */
export function transportAt(view, answer) {
    return TRANSPORTS[view.getUint32(answer + ANSWER.TRANSPORT, true)];
}

/**
 * @template {Time} T
 * @param {number} kind
 * @param {DataView} view
 * @param {number} answer
 * @param {T} now
 * @returns {Poll<T>}
 */
export function pollOf(kind, view, answer, now) {
    if (kind === KIND.WAIT_UNTIL) {
        return { kind: "wait-until", until: timeAt(view, answer + ANSWER.TIME, now) };
    }
    if (kind === KIND.CLOSED) {
        return { kind: "closed" };
    }
    const local = addressAt(view, answer + ANSWER.FROM), remote = addressAt(view, answer + ANSWER.TO);
    if (kind === KIND.TCP_CLOSE) {
        return { kind: "tcp-close", local, remote };
    }
    const id = view.getUint32(answer + ANSWER.ID, true), transport = transportAt(view, answer);
    return { kind: "allocate-tcp-socket", id, transport, local, remote, peer: addressAt(view, answer + ANSWER.PEER) };
}

/**
 * @param {number} kind
 * @param {DataView} view
 * @param {number} answer
 * @returns {Event | undefined}
 */
export function eventOf(kind, view, answer) {
    if (kind === KIND.NOTHING) {
        return undefined;
    }
    if (kind === KIND.ALLOCATION_CREATE_FAILED) {
        const family = view.getUint32(answer + ANSWER.FAMILY, true) === 6 ? 6 : 4;
        return { kind: "allocation-create-failed", family };
    }
    const peer = addressAt(view, answer + ANSWER.PEER), transport = transportAt(view, answer);
    switch (kind) {
        case KIND.ALLOCATION_CREATED: return { kind: "allocation-created", address: peer, transport };
        case KIND.PERMISSION_CREATED: return { kind: "permission-created", ip: peer.address, transport };
        case KIND.PERMISSION_CREATE_FAILED: return { kind: "permission-create-failed", ip: peer.address, transport };
        case KIND.CHANNEL_CREATED: return { kind: "channel-created", peer, transport };
        case KIND.CHANNEL_CREATE_FAILED: return { kind: "channel-create-failed", peer, transport };
        case KIND.TCP_CONNECTED: return { kind: "tcp-connected", peer };
        default: return { kind: "tcp-connect-failed", peer };
    }
}

/**
 * Data of a peer that came in pieces, or behind another message.
 * @param {import("./calls.js").Calls} calls
 * @returns {PiecedData}
 */
export function dataOf(calls) {
    const { view, answer } = calls.module, peer = addressAt(view, answer + ANSWER.PEER), transport = transportAt(view, answer);
    return { kind: "peer-data", data: calls.fetched(), peer, transport, start: undefined };
}

/**
 * @param {DataView} view
 * @param {number} answer
 * @returns {PeerIcmp}
 */
export function icmpAt(view, answer) {
    const type = view.getUint8(answer + ANSWER.ICMP_TYPE), code = view.getUint8(answer + ANSWER.ICMP_CODE);
    const data = view.getUint32(answer + ANSWER.ICMP_DATA, true);
    return { kind: "peer-icmp", peer: addressAt(view, answer + ANSWER.PEER), transport: transportAt(view, answer), type, code, data };
}
