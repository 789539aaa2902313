// One client over one link: it transmits, takes what comes, passes on the events, and sets the timer. Its state is one word.
import { AllocationFailed, Ended, LibraryError, OutOfMemory, YarrowdoorError } from "../errors.js";
import { MAX_OVERHEAD } from "../layout.js";
import { moduleOf } from "../library.js";
import { parse } from "../message.js";
import { Alarm } from "./clock.js";
import { Deferred, within } from "./deferred.js";
import { Diagnosis } from "./diagnosis.js";
import { CHANNELS, publishMessage } from "./diagnostics.js";
import { Grants } from "./grants.js";
import { Hearing } from "./hearing.js";
import { Keeping } from "./keeping.js";
import { Path } from "./path.js";
import { channelKey, permissionKey } from "./reasons.js";
import { Requests } from "./requests.js";
import { SHORTAGE_WAIT, Shortage } from "./shortage.js";
import { Streams } from "./streams.js";
import { Waiting } from "./state.js";

/** @typedef {import("../address.js").Address} Address */
/** @typedef {import("./state.js").SessionUser} SessionUser */

/** How long the server's answer to a delete is waited for, in milliseconds. */
const DELETE_WAIT = 2_000;
/** The part of it for which streams may still send what was written, in milliseconds. */
const CLOSING = 1_500;
/** A datagram carries so many bytes, and coturn reads no longer message of a stream. */
const MAX_MESSAGE = 65_507;

/**
 * Bytes of their own as a Buffer, which users of sockets expect.
 * @param {Uint8Array} bytes
 */
const bufferOf = (bytes) => Buffer.from(bytes.buffer, bytes.byteOffset, bytes.byteLength);

/** A client over a link to the server, which asks for a relayed address at once. */
export class Session {
    /** @type {import("./state.js").State} */
    state = "opening";
    /** Who waits for a relayed address. */
    waiting = new Waiting();
    /**
     * Settled when the client has ended.
     * @type {Deferred<void>}
     */
    over = new Deferred();
    /**
     * The relayed address, or the last one.
     * @type {Address | undefined}
     */
    address;
    /**
     * This client's address as the server saw it at the beginning.
     * @type {Address | undefined}
     */
    mapped;
    /** How many packets, or pieces of the stream, have come. */
    count = 0;
    /** @type {Ended | undefined} */
    #why;
    #shortage = new Shortage();
    #module;
    #isDriving = false;
    /** When the timer is to come. */
    #due = 0;

    /**
     * @param {import("../client.js").Client} client
     * @param {import("./link.js").Link} link
     * @param {import("./uri.js").TurnUri} uri
     * @param {{ library: import("../library.js").Library, clock: import("./clock.js").Clock, maxStaleNonces: number, pause: number,
     *     refreshAhead: number, connectTo: import("./state.js").ConnectTo }} what
     * @param {SessionUser} user
     */
    constructor(client, link, uri, { library, clock, maxStaleNonces, connectTo, ...pauses }, user) {
        this.client = client;
        this.link = link;
        this.uri = uri;
        this.library = library;
        this.#module = moduleOf(library);
        this.clock = clock;
        this.user = user;
        this.alarm = new Alarm(clock, () => this.#wake());
        this.requests = new Requests(library, clock);
        this.keeping = new Keeping(library, pauses);
        this.diagnosis = new Diagnosis(uri.text, maxStaleNonces, clock, this.requests, library);
        this.grants = new Grants(() => this.usable(), () => this.drive(), clock, this.requests, (lost) => this.user.lost(this, lost));
        this.streams = new Streams(this, connectTo);
        this.path = new Path(this);
        this.hearing = new Hearing(this);
        link.user = this;
        this.drive();
    }

    get isOver() {
        return this.state === "over";
    }

    // The link

    /** @param {Buffer} data */
    received(data) {
        if (this.isOver) {
            return;
        }
        this.count++;
        try {
            this.#receive(data);
        } catch (error) {
            this.#stopped(error);
        }
    }

    /**
     * Passes in bytes by a buffer that all relays of the library share.
     * @param {Uint8Array} data
     */
    #passIn(data) {
        try {
            return this.client.recvFrom(this.#module.inputOf(data), 0, data.length, this.clock.now());
        } catch (error) {
            return this.#shortage.note(error);
        }
    }

    /** @param {Buffer} data */
    #receive(data) {
        const answer = this.#passIn(data);
        if (answer?.kind === "peer-data") {
            const { start } = answer, isWhole = start !== undefined;
            this.user.put(isWhole ? data.subarray(start, start + answer.length) : bufferOf(answer.data), answer.peer);
            // A datagram, or a piece that is one ChannelData message, has nothing else in it. Data makes nothing due.
            if (!this.link.isStream || (isWhole && start === 4 && this.hearing.isOne(data, answer.length))) {
                return;
            }
        }
        this.hearing.hear(data, answer?.kind === "ignored");
        if (this.link.isStream) {
            this.#takeRest();
        }
        this.drive();
    }

    /** Takes all data that the stream still has. */
    #takeRest() {
        for (let more; !this.isOver && (more = this.#shortage.guarded(() => this.client.pollRecv(this.clock.now()))); ) {
            if (more.transport === "tcp") {
                this.streams.feed(bufferOf(more.data), more.peer);
                continue;
            }
            this.user.put(bufferOf(more.data), more.peer);
        }
    }

    // Data connections

    /**
     * Passes in what came over a data connection. If the module has no memory for it, its stream has lost it, and ends.
     * @param {import("./connection.js").Connection} connection
     * @param {Buffer} data
     */
    receivedOver(connection, data) {
        const { link, isBound, frames } = connection;
        this.isOver || this.#orEnd(() => {
            const answer = this.#shortage.guarded(() => this.client.recv(data, this.clock.now(), { remote: link.remote, local: link.local }));
            if (!answer) {
                connection.lose(new OutOfMemory());
            } else if (answer.kind === "peer-data") {
                this.streams.feed(bufferOf(answer.data), answer.peer);
            }
            isBound || this.hearing.hear(data, answer?.kind === "ignored", frames);
            this.#takeRest();
            this.drive();
        });
    }

    /**
     * A data connection has ended.
     * @param {import("./data-link.js").DataLink} link
     */
    endedOver({ local, remote }) {
        this.#orEnd(() => {
            this.#shortage.guarded(() => this.client.recv(new Uint8Array(), this.clock.now(), { remote, local }));
            this.#takeRest();
            this.#shortage.guarded(() => this.client.tcpClosed(local, remote, this.clock.now()));
            this.drive();
        });
    }

    /**
     * Does something, or ends if the module has stopped.
     * @param {() => void} what
     */
    #orEnd(what) {
        try {
            what();
        } catch (error) {
            this.#stopped(error);
        }
    }

    /**
     * Ends if the module has stopped. Another error is thrown again.
     * @param {unknown} error
     */
    #stopped(error) {
        if (!(error instanceof LibraryError)) {
            throw error;
        }
        this.end(new Ended(error.message, error));
    }

    /** @param {Error} error */
    refused(error) {
        if (this.isOver) {
            return;
        }
        this.diagnosis.socketError = error;
        this.user.socketError(this, error);
        if (this.state === "opening") {
            this.failSoon(new AllocationFailed(`no answer from ${this.uri.text}: ${error.message}`, undefined, error));
        } else {
            this.path.refused(error);
        }
    }

    /** @param {Error | undefined} error */
    ended(error) {
        if (this.isOver) {
            return;
        }
        if (this.link.isStream) {
            this.#orEnd(() => {
                this.#shortage.guarded(() => this.client.recv(new Uint8Array(), this.clock.now()));
                this.#takeRest();
            });
        }
        this.breaks(error?.message ?? (this.link.isStream ? "the server closed it" : "its socket was closed"), error);
    }

    drained() {
        this.user.drained(this);
    }

    /**
     * Sends data to a peer that has a permission, or drops it if the socket is full, and says whether it was handed over.
     * RangeError if the message is longer than a datagram.
     * @param {Uint8Array} data
     * @param {Address} peer
     */
    sendData(data, peer) {
        const { clock } = this, module = this.#module, { length } = data, input = module.inputOf(data);
        const packet = this.client.sendFrom(peer, input, 0, length, clock.now(), module.outputOf(length + MAX_OVERHEAD));
        if (packet.length > MAX_MESSAGE) {
            throw new RangeError(`the message to ${peer.address} has ${packet.length} bytes with its header, and at most ${MAX_MESSAGE} fit`);
        }
        return this.link.room.trySend(Buffer.from(packet.data)); // the socket may send it later
    }

    /**
     * The connection has ended, or the path to the server is gone: nothing can be done any more.
     * @param {string} what
     * @param {unknown} error
     */
    breaks(what, error) {
        if (!this.isOver) {
            this.diagnosis.breaks(`the connection to the server has ended: ${what}`, error);
            this.#orEnd(() => this.client.protocolError());
            this.drive();
        }
    }

    // The client

    /** Does all that is due, and sets the timer for the next time. */
    drive() {
        if (this.#isDriving) {
            return;
        }
        this.#isDriving = true;
        try {
            this.#orEnd(() => {
                while (!this.isOver && this.#step()) {
                    // until it is to wait
                }
            });
        } finally {
            this.#isDriving = false;
        }
    }

    /** Does what is due now, and says whether more may be. */
    #step() {
        const now = this.clock.now();
        for (let packet; !this.isOver && (packet = this.#shortage.guarded(() => this.client.pollTransmit(now))); ) {
            this.#transmit(packet);
        }
        this.#takeEvents();
        const rest = this.isOver ? undefined : this.#shortage.guarded(() => this.client.poll(now)), shortage = this.#shortage.take();
        if (rest?.kind === "closed") {
            this.#takeEvents();
            this.diagnosis.breaks(shortage?.message ?? "", shortage);
            this.end(this.state === "leaving" ? undefined : this.diagnosis.ended());
            return false;
        }
        if (rest?.kind === "allocate-tcp-socket") {
            void this.streams.open(rest);
        } else if (rest?.kind === "tcp-close") {
            this.streams.drop(rest.local);
        }
        const until = shortage ? now + SHORTAGE_WAIT : rest?.kind === "wait-until" ? Number(rest.until) : now;
        if (until > now) {
            this.#due = until;
            this.alarm.set(until);
        }
        return until <= now;
    }

    /**
     * Sends a packet over the connection that it is for. One for a data connection that is closed is dropped.
     * @param {import("../answers.js").Packet} packet
     */
    #transmit({ data, local }) {
        const message = parse(this.library, data);
        if (message?.kind === "message") {
            this.requests.sent(data, message);
        }
        publishMessage(CHANNELS.sent, this.uri, data);
        const link = local.port === this.link.local.port ? this.link : this.streams.at(local)?.link;
        link?.send(data);
    }

    #wake() {
        this.keeping.woke(this.clock.now() - this.#due);
        this.diagnosis.begins();
        this.drive();
    }

    #takeEvents() {
        for (let event; !this.isOver && (event = this.client.pollEvent()); ) {
            this.#takeEvent(event);
        }
    }

    /** @param {import("../answers.js").Event} event */
    #takeEvent(event) {
        switch (event.kind) {
            case "allocation-created": return this.#allocated(event.address);
            case "allocation-create-failed": return this.waiting.fail(this.diagnosis.noAddress());
            case "permission-created": return this.#granted(permissionKey(event.ip));
            case "permission-create-failed": return this.#lost(permissionKey(event.ip));
            case "channel-created": return this.#granted(channelKey(event.peer));
            case "channel-create-failed": return this.#lost(channelKey(event.peer));
            case "tcp-connected": return this.streams.connected(event.peer);
            case "tcp-connect-failed": return this.streams.connecting.failed(event.peer);
        }
    }

    /** @param {Address} address */
    #allocated(address) {
        if (this.state === "leaving") {
            this.#delete();
        } else if (this.state === "opening") {
            this.address = address;
            this.state = "open";
            this.waiting.succeed();
        }
    }

    /** @param {import("./reasons.js").Key} key */
    #granted(key) {
        this.grants.created(key);
        this.keeping.granted(this.requests.last(key)?.took ?? 0);
        this.keeping.check(this.grants.count + 1); // the relayed address is one, too
    }

    /** @param {import("./reasons.js").Key} key */
    #lost(key) {
        if (this.grants.failed(key) && this.link.isStream) {
            // TCP repeats what is lost, so the server does not read, or its answers do not come
            this.breaks(`no answer from ${this.uri.text} to a refresh`, undefined);
        }
    }

    // The end

    /**
     * Gives up the allocation, unless a signed answer comes soon.
     * @param {AllocationFailed} error
     */
    failSoon(error) {
        if (this.state === "opening") {
            this.waiting.failSoon(error);
        }
    }

    /** Gives the relayed address back to the server, and ends when it has answered, or after two seconds. */
    async leave() {
        if (this.state === "opening" && this.requests.allocates < 2) {
            this.end(undefined); // no signed request has left, so that the server cannot have granted one
        } else if (this.state === "opening" || this.state === "open") {
            const wasOpen = this.state === "open";
            this.waiting.fail(new AllocationFailed("the client was closed"));
            this.state = "leaving";
            const closing = wasOpen ? this.streams.close() : undefined;
            if (closing) {
                void within(closing, CLOSING).then(() => this.#deleteLate());
            } else if (wasOpen) {
                this.#delete();
            }
            this.drive();
        }
        await within(this.over.promise, DELETE_WAIT);
        this.end(undefined);
    }

    /**
     * Gives the relayed address back by one packet, and ends at once: no answer is waited for. If the module has no memory for it,
     * the server keeps it until it expires.
     */
    abandon() {
        if (!this.isOver) {
            this.#orEnd(() => {
                const packet = this.#shortage.guarded(() => this.client.abandon(this.clock.now()));
                packet && this.#transmit(packet);
            });
            this.end(undefined);
        }
    }

    /** Gives the relayed address back when its streams are gone: a server ends those that there are with it. */
    #deleteLate() {
        if (!this.isOver) {
            this.#orEnd(() => this.#delete());
            this.drive();
        }
    }

    #delete() {
        try {
            this.client.delete(this.clock.now());
        } catch (error) {
            if (!(error instanceof YarrowdoorError)) {
                throw error;
            }
            this.end(undefined); // there is nothing to give back, or no way
        }
    }

    /**
     * Closes all, with why it has ended by itself, or undefined if the user has closed it.
     * @param {Ended | undefined} why
     */
    end(why) {
        if (this.isOver) {
            return;
        }
        this.waiting.fail(why ? this.diagnosis.noAddress() : new AllocationFailed("the client was closed"));
        this.state = "over";
        this.#why = why;
        this.alarm.clear();
        this.link.close();
        this.client.close();
        this.requests.end(() => this.ending());
        this.streams.end(() => why && this.ending());
        this.over.resolve();
        this.user.ended(this, why);
    }

    /** The client, for a call of the user. `Ended` if it has ended, or gives its relayed address back. */
    usable() {
        if (this.state === "leaving" || this.state === "over") {
            throw this.ending();
        }
        return this.client;
    }

    /** Why a call is not made any more, as a new error for each. */
    ending() {
        return this.#why ? new Ended(this.#why.message, this.#why.cause) : new Ended("the client was closed");
    }
}
