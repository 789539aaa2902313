// The client without I/O: the caller has the sockets and the clock.
import { addressAt } from "./address.js";
import { dataOf, eventOf, icmpAt, pollOf, transportAt } from "./answers.js";
import { checkApart, partOf } from "./buffer.js";
import { checkBytes, taken } from "./bytes.js";
import { Calls, hostOf } from "./calls.js";
import { DISPOSE } from "./dispose.js";
import { ANSWER, CALL, KIND, MAX_OVERHEAD, TRANSPORTS } from "./layout.js";
import { Library, moduleOf } from "./library.js";
import { DataInBuffer, PacketInBuffer } from "./places.js";

/** @typedef {import("./address.js").Address} Address */
/** @typedef {import("./address.js").AddressLike} AddressLike */
/** @typedef {import("./answers.js").Transport} Transport */
/** @typedef {import("./time.js").Time} Time */

/** @type {import("./answers.js").Handled} */
const HANDLED = Object.freeze({ kind: "handled" });
/** @type {import("./answers.js").Ignored} */
const IGNORED = Object.freeze({ kind: "ignored" });

/**
 * A TURN client (RFC 8656, 6062 and 6156). It opens nothing and has no timer: it is passed bytes and times, and gives packets to
 * send, data of peers, events, and the time at which to call again.
 *
 *     for (;;) {
 *         for (const packet of client.packets(now())) { socket.send(packet.data); }
 *         for (const event of client.events()) { ... }      // request permissions and channels, send data
 *         const rest = client.poll(now());                  // { kind: "wait-until", until }
 *         ...                                               // wait for a packet up to then
 *         const answer = client.recv(data, now());          // { kind: "peer-data", data, peer }, or another
 *     }
 *
 * Errors: TypeError and RangeError if the arguments are no call, `Refused` if the client refuses one, `OutOfMemory`, `Ended`
 * after `close`, and `LibraryError` after a fault of the module. A client that nothing refers to any more is freed.
 */
export class Client {
    #calls;
    /** @type {DataInBuffer | undefined} */
    #received;
    /** @type {PacketInBuffer | undefined} */
    #sent;

    /**
     * A client over the library that is shared, which is loaded. LibraryError.
     * @param {import("./settings.js").Settings} settings
     */
    static async create(settings) {
        return new Client(settings, await Library.shared());
    }

    /**
     * @param {import("./settings.js").Settings} settings
     * @param {Library} library
     */
    constructor(settings, library) {
        if (!(library instanceof Library)) {
            throw new TypeError("a client needs a library: new Client(settings, await Library.load()), or await Client.create(settings)");
        }
        const module = moduleOf(library);
        this.#calls = new Calls(settings, module);
        module.watch(this, this.#calls.held);
    }

    /** Frees the client. It sends nothing: `delete` gives the allocation back to the server before. Later calls are `Ended`. */
    close() {
        this.#calls.module.free(this.#calls.held);
    }

    /** The same as `close`, for `using`. */
    [DISPOSE]() {
        this.close();
    }

    // What is due

    /**
     * What is to be done next. While an event is to be polled, it is to wait until `now`. `until` is in the unit of `now`.
     * @template {Time} T
     * @param {T} now
     * @returns {import("./answers.js").Poll<T>}
     */
    poll(now) {
        const kind = this.#calls.poll(now), { view, answer } = this.#calls.module;
        return pollOf(kind, view, answer, now);
    }

    /**
     * The next packet that is due.
     * @param {Time} now
     * @returns {import("./answers.js").Packet | undefined}
     */
    pollTransmit(now) {
        return this.#packetOf(CALL.POLL_TRANSMIT, now);
    }

    /**
     * The packet that a call gives, if it gives one.
     * @param {number} call
     * @param {Time} now
     * @returns {import("./answers.js").Packet | undefined}
     */
    #packetOf(call, now) {
        if (this.#calls.fetch(call, now) !== KIND.PACKET) {
            return undefined;
        }
        const { transport, local, remote } = this.#way();
        return { data: this.#calls.fetched(), transport, local, remote };
    }

    /** What a packet says of its way. */
    #way() {
        const { view, answer } = this.#calls.module;
        const [local, remote] = [ANSWER.FROM, ANSWER.TO].map((at) => addressAt(view, answer + at));
        return { transport: transportAt(view, answer), local, remote };
    }

    /**
     * All packets that are due.
     * @param {Time} now
     * @returns {Generator<import("./answers.js").Packet, void, void>}
     */
    *packets(now) {
        for (let packet; (packet = this.pollTransmit(now)) !== undefined; ) {
            yield packet;
        }
    }

    /**
     * The next event.
     * @returns {import("./answers.js").Event | undefined}
     */
    pollEvent() {
        const kind = this.#calls.ask(CALL.POLL_EVENT, 0n), { view, answer } = this.#calls.module;
        return eventOf(kind, view, answer);
    }

    /**
     * All events.
     * @returns {Generator<import("./answers.js").Event, void, void>}
     */
    *events() {
        for (let event; (event = this.pollEvent()) !== undefined; ) {
            yield event;
        }
    }

    // Data

    /**
     * Passes in one datagram, or what one read of a stream gave, or no bytes if the stream has ended. `remote` and `local` are
     * the addresses of the socket that had it, unless it is the one to the server. Over TCP call `pollRecv` afterwards, until it
     * gives nothing. Data of a peer is a part of the bytes that were passed in, where it lies in them as a whole.
     *
     * Bytes that lie in the memory of the library are not copied.
     * @param {Uint8Array} data
     * @param {Time} now
     * @param {{ transport?: Transport, remote?: AddressLike, local?: AddressLike }} [from]
     * @returns {import("./answers.js").Received}
     */
    recv(data, now, from) {
        checkBytes(data);
        const { module } = this.#calls, isThere = data.buffer === module.bytes.buffer, place = module.put(data);
        const kind = this.#calls.recv(place, data.length, now, from);
        if (kind !== KIND.PEER_DATA_RANGE) {
            return this.#withoutRange(kind);
        }
        const { view, answer, bytes } = module;
        const start = view.getUint32(answer + ANSWER.START, true), end = start + view.getUint32(answer + ANSWER.LEN, true);
        const found = isThere ? new Uint8Array(bytes.buffer, place + start, end - start) : data.subarray(start, end);
        const peer = this.#calls.peers.at(view, answer + ANSWER.PEER);
        return { kind: "peer-data", data: found, peer, transport: transportAt(view, answer), start };
    }

    /**
     * What passing in bytes comes to, unless they have data of a peer as a whole.
     * @param {number} kind
     */
    #withoutRange(kind) {
        const { view, answer } = this.#calls.module;
        switch (kind) {
            case KIND.HANDLED: return HANDLED;
            case KIND.IGNORED: return IGNORED;
            case KIND.PEER_ICMP: return icmpAt(view, answer);
            default: return dataOf(this.#calls);
        }
    }

    /**
     * A buffer in the memory of the library, for `recvFrom` and `sendFrom`. It is kept until its `free`, longer than the client.
     * RangeError, `OutOfMemory`.
     * @param {number} length
     */
    buffer(length) {
        return this.#calls.module.buffer(length);
    }

    /**
     * As `recv`, for `length` bytes of a buffer from `offset` on, without a copy and without an object for each packet: data of a
     * peer is described by one object, which the client's next `recvFrom` overwrites. Its `start` is in the buffer.
     * @param {import("./buffer.js").ModuleBuffer} buffer
     * @param {number} offset
     * @param {number} length
     * @param {Time} now
     * @param {{ transport?: Transport, remote?: AddressLike, local?: AddressLike }} [from]
     * @returns {import("./answers.js").ReceivedInBuffer}
     */
    recvFrom(buffer, offset, length, now, from) {
        const calls = this.#calls, { module } = calls, place = partOf(buffer, module, offset, length, "buffer");
        const kind = calls.recv(place, length, now, from);
        if (kind !== KIND.PEER_DATA_RANGE) {
            return this.#withoutRange(kind);
        }
        const { view, answer } = module, start = offset + view.getUint32(answer + ANSWER.START, true);
        const peer = calls.peers.at(view, answer + ANSWER.PEER), received = (this.#received ??= new DataInBuffer(buffer, peer));
        return received.set(buffer, start, view.getUint32(answer + ANSWER.LEN, true), peer, transportAt(view, answer));
    }

    /**
     * The next data of peers in the streams that were passed in. Over UDP there is none.
     * @param {Time} now
     * @returns {import("./answers.js").PeerData | undefined}
     */
    pollRecv(now) {
        return this.#calls.fetch(CALL.POLL_RECV, now) === KIND.PEER_DATA ? dataOf(this.#calls) : undefined;
    }

    /**
     * The packet that carries data to `peer`, which needs a permission, and over TCP a data connection too. It is put into `into`,
     * which has 64 bytes more than the data, or into bytes of its own. `Refused`: `no-permission`, `no-socket`. RangeError for over
     * 65,504 bytes if the allocation is over UDP.
     * @param {AddressLike} peer
     * @param {Uint8Array} data
     * @param {Time} now
     * @param {{ transport?: Transport, into?: Uint8Array }} how
     * @returns {import("./answers.js").Packet}
     */
    sendTo(peer, data, now, { transport, into } = {}) {
        checkBytes(data);
        const { module, isStream, local, remote } = this.#calls, room = data.length + MAX_OVERHEAD;
        if (into !== undefined && !(into instanceof Uint8Array && into.length >= room)) {
            throw new RangeError(`into is a Uint8Array with ${room} bytes or more`);
        }
        const { length } = data, place = module.put(data), isThere = into !== undefined && into.buffer === module.bytes.buffer;
        const buffer = isThere ? into.byteOffset : module.outputOf(room).place; // where this lets the memory grow, data is empty
        checkApart(place, length, buffer, room);
        this.#calls.sendTo(peer, place, length, buffer, now, transport);
        const end = buffer + module.view.getUint32(module.answer + ANSWER.LEN, true);
        const found = new Uint8Array(module.bytes.buffer, buffer, end - buffer), bytes = isThere ? found : taken(found, into);
        return isStream ? { data: bytes, ...this.#way() } : { data: bytes, transport: "udp", local, remote };
    }

    /**
     * As `sendTo`, for `length` bytes of a buffer from `offset` on: the packet is put to the front of the buffer `into`, which has 64
     * bytes more, and is described by one object, which the client's next `sendFrom` overwrites. RangeError also where both overlap.
     * @param {AddressLike} peer
     * @param {import("./buffer.js").ModuleBuffer} buffer
     * @param {number} offset
     * @param {number} length
     * @param {Time} now
     * @param {import("./buffer.js").ModuleBuffer} into
     * @param {Transport} [transport]
     */
    sendFrom(peer, buffer, offset, length, now, into, transport) {
        const calls = this.#calls, { module } = calls, place = partOf(buffer, module, offset, length, "buffer");
        const room = length + MAX_OVERHEAD, to = partOf(into, module, 0, room, "into");
        checkApart(place, length, to, room);
        calls.sendTo(peer, place, length, to, now, transport);
        const sent = (this.#sent ??= new PacketInBuffer(into, calls.local, calls.remote));
        if (calls.isStream) {
            const way = this.#way();
            sent.setWay(way.transport, way.local, way.remote);
        }
        return sent.set(into, module.view.getUint32(module.answer + ANSWER.LEN, true));
    }

    // Requests

    /**
     * Requests a permission for an IP address (RFC 8656, section 9). An event reports the outcome. `Refused`: `no-allocation`,
     * `already-exists`.
     * @param {string} ip
     * @param {Time} now
     * @param {{ transport?: Transport }} how
     */
    createPermission(ip, now, { transport } = {}) {
        this.#calls.ask(CALL.CREATE_PERMISSION, now, { transport: this.#relay(transport), peer: hostOf(ip) });
    }

    /**
     * Requests a channel, and with it a permission (RFC 8656, section 12). An event reports the outcome. `Refused`: `no-allocation`;
     * `already-exists`, also if all 4,096 numbers are taken; `expired`, up to `until`.
     * @param {AddressLike} peer
     * @param {Time} now
     * @param {{ transport?: Transport }} how
     */
    bindChannel(peer, now, { transport } = {}) {
        this.#calls.ask(CALL.BIND_CHANNEL, now, { transport: this.#relay(transport), peer });
    }

    /**
     * Says whether the permission of an IP address is refreshed, as each is at first. One that is not ends by itself, with its event.
     * `Refused` (`not-granted`) if there is none.
     * @param {string} ip
     * @param {boolean} isKept
     * @param {{ transport?: Transport }} how
     */
    setPermissionKept(ip, isKept, { transport } = {}) {
        this.#calls.ask(CALL.SET_PERMISSION_KEPT, 0n, { transport: this.#relay(transport), peer: hostOf(ip), id: isKept ? 1 : 0 });
    }

    /**
     * Says whether the channel of a peer is refreshed, as each is at first. One that is not ends by itself, with its event; its
     * permission is another grant. `Refused` (`not-granted`) if there is none.
     * @param {AddressLike} peer
     * @param {boolean} isKept
     * @param {{ transport?: Transport }} how
     */
    setChannelKept(peer, isKept, { transport } = {}) {
        this.#calls.ask(CALL.SET_CHANNEL_KEPT, 0n, { transport: this.#relay(transport), peer, id: isKept ? 1 : 0 });
    }

    /**
     * Requests that the server connect to `peer`, which needs a permission (RFC 6062, section 4.3). `poll` asks for a data
     * connection then, or an event says that it failed. `Refused`: `no-allocation`, `no-permission`, `already-exists`.
     * @param {AddressLike} peer
     * @param {Time} now
     */
    tcpConnect(peer, now) {
        this.#calls.ask(CALL.TCP_CONNECT, now, { peer });
    }

    /**
     * Passes in the connection that `poll` asked for, by its local address, or undefined if there is none. An event says that it
     * is bound, or that it failed; there is none without an address, nor if the connection ends before. `Refused`: `no-allocation`
     * if no such connection is offered, `already-exists` if another has this address.
     * @param {{ id: number, transport: Transport, local: AddressLike, remote: AddressLike, peer: AddressLike }} wanted
     * @param {AddressLike | undefined} local
     * @param {Time} now
     */
    allocatedTcpSocket({ id, transport, local: from, remote: to, peer }, local, now) {
        this.#calls.ask(CALL.ALLOCATED_TCP_SOCKET, now, { id, transport, from, to, peer, local });
    }

    /**
     * Reports that the data connection from `local` to `remote` was closed, or broke. Unless the client has ended, `poll` answers
     * `tcp-close` for it then.
     * @param {AddressLike} local
     * @param {AddressLike} remote
     * @param {Time} now
     */
    tcpClosed(local, remote, now) {
        this.#calls.ask(CALL.TCP_CLOSED, now, { from: local, to: remote });
    }

    /**
     * Requests that the server delete the allocations (RFC 8656, section 8): poll and transmit until `closed`, for as long as you
     * care to wait: where the server answers with an error other than 437 it does not come. `Refused`: `no-allocation`.
     * @param {Time} now
     */
    delete(now) {
        this.#calls.ask(CALL.DELETE, now);
    }

    /**
     * Ends the client at once, for a caller that closes its socket right away. The packet that it gives deletes the allocation (RFC
     * 8656, section 8), past the pause and past what waits to be sent: send it, and wait for no answer. Undefined where nothing was
     * granted, or it had ended. `OutOfMemory`: nothing has changed. One that waits for the answer calls `delete`.
     * @param {Time} now
     * @returns {import("./answers.js").Packet | undefined}
     */
    abandon(now) {
        return this.#packetOf(CALL.ABANDON, now);
    }

    /**
     * Reports an error of a layer between client and server, as TLS: each family that is still requested fails, and the client has
     * ended.
     */
    protocolError() {
        this.#calls.ask(CALL.PROTOCOL_ERROR, 0n);
    }

    // What there is

    /**
     * Whether an IP address has an active permission.
     * @param {string} ip
     * @param {{ transport?: Transport }} how
     */
    havePermission(ip, { transport } = {}) {
        return this.#calls.look(CALL.HAVE_PERMISSION, { transport: this.#relay(transport), peer: hostOf(ip) }) === KIND.YES;
    }

    /**
     * The relayed addresses, with their transports.
     * @returns {{ address: Address, transport: Transport }[]}
     */
    relayedAddresses() {
        return this.#list(CALL.RELAYED_ADDRESSES, {}, (view, answer) => (
            { address: addressAt(view, answer + ANSWER.PEER), transport: transportAt(view, answer) }));
    }

    /**
     * The IP addresses that have an active permission in the allocation of this relayed address.
     * @param {AddressLike} relayed
     * @param {{ transport?: Transport }} how
     * @returns {string[]}
     */
    permissions(relayed, { transport } = {}) {
        const fields = { transport: this.#relay(transport), from: relayed };
        return this.#list(CALL.NEXT_PERMISSION, fields, (view, answer) => addressAt(view, answer + ANSWER.PEER).address,
            (_count, view, answer) => view.getUint32(answer + ANSWER.ID, true));
    }

    /**
     * What looks of a kind find, one after the other: at the place that the last one found was followed by, or by their numbers.
     * @template Item
     * @param {number} kind
     * @param {import("./calls.js").Fields} fields
     * @param {(view: DataView, answer: number) => Item} make
     * @param {(count: number, view: DataView, answer: number) => number} next
     * @returns {Item[]}
     */
    #list(kind, fields, make, next = (count) => count) {
        const found = [];
        let id = 0;
        while (this.#calls.look(kind, { ...fields, id }) === KIND.ADDRESS) {
            const { view, answer } = this.#calls.module;
            found.push(make(view, answer));
            id = next(found.length, view, answer);
        }
        return found;
    }

    /**
     * The transport between server and peers, unless another is given.
     * @param {Transport | undefined} transport
     */
    #relay(transport) {
        return transport ?? TRANSPORTS[this.#calls.relay];
    }
}
