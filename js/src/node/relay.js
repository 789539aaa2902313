// A relayed address for Node, used like a socket of dgram.
import { ASYNC_DISPOSE } from "../dispose.js";
import { Ended, Refused } from "../errors.js";
import { abortable } from "./deferred.js";
import { CHANNELS } from "./diagnostics.js";
import { openSession } from "./opening.js";
import { checkOptions, dataOf, ipOf, peerOf } from "./options.js";
import { Sending } from "./sending.js";

/** @typedef {import("../address.js").Address} Address */
/** @typedef {import("../address.js").AddressLike} AddressLike */
/** @typedef {import("./session.js").Session} Session */

/** How often the path is checked over TCP and TLS, in milliseconds: what is dropped there in silence, the system reports too late. */
const STREAM_PROBE = 15_000;
/** So many losses are kept. */
const MOST_LOST = 1_024;

/**
 * A relayed address of a TURN server: peers send to it, and see data come from it.
 *
 *     const relay = await Relay.open({ urls: "turn:turn.example.org", username: "user", credential: "pass" });
 *     relay.on("message", (data, { address, port }) => { ... });
 *     await relay.send("hello", 9000, "192.0.2.7");
 *     await relay.close();
 *
 * Peers are IP addresses with ports; names are not resolved. Permissions and channels are refreshed until they are released, or the
 * relay ends. Events:
 *
 * - `message` (data, peer): a peer sent data, a Buffer. Without a listener it waits for `for await`.
 * - `error` (an `Ended`): the relay has ended by itself. As with all emitters it is thrown without a listener, unless a
 *   `for await` is under way, which has it.
 * - `close`: it has ended, by `close` or by itself. Nothing follows.
 * - `lost` (`{ what, ip }` or `{ what, peer }`): the server no longer renews a permission or a channel. It may have been restarted.
 * - `socketError` (an error): of a socket over UDP, which does not end the relay, such as a lost network.
 * - `connection` (a `PeerStream`): a permitted peer has connected, over TCP. Without a listener up to 64 wait for one.
 * - `drain`: the socket was full, so that `sendTo` dropped data, and is no longer.
 */
export class Relay extends Sending {
    /**
     * The last 1,024 permissions and channels that the server no longer renews.
     * @type {import("./grants.js").Lost[]}
     */
    lost = [];
    /** How many packets of `sendTo` the socket did not take. Losses further on are not counted. */
    unsent = 0;
    #family;
    #allocation;
    /** @type {Session | undefined} */
    #session;
    /** How much had come when `send` was called last. */
    #count = -1;

    /**
     * Connects to the server, and waits for a relayed address. TypeError and RangeError for invalid options; AllocationFailed
     * if there is no relayed address, and WrongCredentials if that is for user name or password; the reason of `signal`, after
     * which what the server may have granted is deleted.
     * @param {import("./options.js").RelayOptions} options
     */
    static async open(options) {
        const checked = checkOptions(options), relay = new Relay(checked);
        const session = await openSession(checked, relay.#user());
        relay.#session = session;
        const every = checked.probe ?? (session.link.isStream ? STREAM_PROBE : 0);
        if (every > 0) {
            void session.path.probe(every);
        }
        if (session.isOver) {
            throw session.ending();
        }
        CHANNELS.open.publish({ relay });
        return relay;
    }

    /**
     * Use `Relay.open`.
     * @param {{ queue: number, family: 4 | 6, allocation: "udp" | "tcp" }} options
     */
    constructor({ queue, family, allocation }) {
        super(queue);
        this.#family = family;
        this.#allocation = allocation;
        this.on("newListener", (name) => name === "connection" && process.nextTick(() => this.#emitConnections()));
    }

    /**
     * What its session reports. A session that was given up reports nothing.
     * @returns {import("./state.js").SessionUser}
     */
    #user() {
        return {
            put: (data, peer) => this.put(data, peer),
            offered: (of) => of === this.#session && process.nextTick(() => this.#emitConnections()),
            lost: (of, lost) => this.#tellLost(of, lost),
            socketError: (of, error) => this.#tell(of, "socketError", error),
            drained: (of) => this.#tell(of, "drain"),
            ended: (of, why) => of === this.#session && this.#end(why),
        };
    }

    /**
     * @param {Session} of
     * @param {import("./grants.js").Lost} lost
     */
    #tellLost(of, lost) {
        this.lost.push(lost);
        if (this.lost.length > MOST_LOST) {
            this.lost.shift();
        }
        this.#tell(of, "lost", lost);
        CHANNELS.lost.publish({ relay: this, lost });
    }

    /** Emits the streams of peers that wait, each by itself: what a listener throws keeps none from the others. */
    #emitConnections() {
        const stream = this.listenerCount("connection") > 0 ? this.#session?.streams.accept() : undefined;
        if (stream) {
            process.nextTick(() => this.#emitConnections());
            this.emit("connection", stream);
        }
    }

    /** @param {Ended | undefined} why */
    #end(why) {
        this.end(why);
        CHANNELS.end.publish({ relay: this, error: why });
    }

    /**
     * Emits an event of its session.
     * @template {keyof import("./events.js").RelayEvents} Name
     * @param {Session} of
     * @param {Name} name
     * @param {Parameters<import("./events.js").RelayEvents[Name]>} words
     */
    #tell(of, name, ...words) {
        if (of === this.#session) {
            this.emitLater(name, ...words);
        }
    }

    #open() {
        if (!this.#session) {
            throw new Ended("the client was not opened");
        }
        this.#session.usable();
        return this.#session;
    }

    // What there is

    /**
     * The relayed address: peers send to it, and see data come from it. It stays what it was after the end.
     * @returns {Address}
     */
    address() {
        if (!this.#session?.address) {
            throw new Ended("the client was not opened");
        }
        return this.#session.address;
    }

    /** This client's own address as the server saw it at the beginning, if it said it (RFC 8489, section 14.2). */
    mappedAddress() {
        return this.#session?.mapped;
    }

    /** The address of the socket to the server. */
    localAddress() {
        return this.#open().link.local;
    }

    /** Whether the relay has ended, by `close` or by itself. */
    get closed() {
        return this.#session?.isOver ?? true;
    }

    // Requests

    /**
     * Lets an IP address send to the relayed address, and get data (RFC 8656, section 9). Waits for the server's answer.
     * PermissionFailed, `Ended`; TypeError if it is no IP address; `Refused` (`no-allocation`) if it has another family than
     * the relayed address. A signal gives up the waiting.
     * @param {string} ip
     * @param {{ signal?: AbortSignal }} how
     */
    async permit(ip, { signal } = {}) {
        const session = this.#open();
        this.#checkFamily(ip);
        await abortable(session.grants.permit(ip), signal);
    }

    /**
     * Gives a peer a channel, and a permission: its packets then have 4 bytes of header (RFC 8656, section 12). Waits for the
     * server's answer. ChannelFailed, PermissionFailed, `Ended`; `Refused` if the peer's earlier channel is still reserved
     * (`expired`), if all 4,096 numbers are taken (`already-exists`), and if it has another family than the relayed address
     * (`no-allocation`). A signal gives up the waiting.
     * @param {number | AddressLike} port
     * @param {string} [address]
     * @param {{ signal?: AbortSignal }} how
     */
    async bind(port, address, { signal } = {}) {
        const peer = peerOf(port, address), session = this.#open();
        this.#checkAllocation("udp");
        this.#checkFamily(peer.address);
        await abortable(session.grants.bind(peer), signal);
    }

    /**
     * Has the server connect to a peer over TCP (RFC 6062, section 4.3), which is permitted, and gives the stream to it when it is
     * connected. TypeError if the relay was not opened with `allocation: "tcp"`. ConnectFailed if the peer or the server refuses
     * it, or no data connection to the server can be opened; PermissionFailed, `Ended`; `Refused` if there is a stream to this peer,
     * or one is being opened (`already-exists`), and if it has another family than the relayed address (`no-allocation`). A signal
     * gives it up.
     * @param {number | AddressLike} port
     * @param {string} [address]
     * @param {{ signal?: AbortSignal }} how
     */
    async connect(port, address, { signal } = {}) {
        const peer = peerOf(port, address), session = this.#open();
        this.#checkAllocation("tcp");
        this.#checkFamily(peer.address);
        return session.streams.connecting.connect(peer, signal);
    }

    /**
     * Lets go what a peer was granted: of an IP address its permission, of a peer its channel. It is used as before, and refreshed
     * no more, so that it ends after 5 or 10 minutes, which `lost` does not report. `Refused` (`not-granted`) if there is none.
     * @param {string | AddressLike} about
     */
    release(about) {
        this.#open().grants.setKept(typeof about === "string" ? ipOf(about).text : peerOf(about, undefined), false);
    }

    /**
     * Takes `release` back, while the grant has not ended. `Refused` (`not-granted`) if there is none.
     * @param {string | AddressLike} about
     */
    keep(about) {
        this.#open().grants.setKept(typeof about === "string" ? ipOf(about).text : peerOf(about, undefined), true);
    }

    /**
     * Asks the server whether it answers, and this client's address as it sees it now, by a Binding request (RFC 8489, section 3),
     * which is sent three times over UDP; and whether it knows the relayed address, by a permission for an address that no host has.
     * What is unanswered after 3.5 s is said to be. `Ended`.
     */
    check() {
        return this.#open().path.check();
    }

    // Data

    /**
     * @param {Uint8Array} data
     * @param {Address} peer
     * @param {AbortSignal | undefined} signal
     * @protected
     */
    async sendWhenPermitted(data, peer, signal) {
        try {
            await this.#send(data, peer, signal);
        } catch (error) {
            CHANNELS.sendFailed.hasSubscribers && CHANNELS.sendFailed.publish({ relay: this, peer, error });
            throw error;
        }
    }

    /**
     * @param {Uint8Array} data
     * @param {Address} peer
     * @param {AbortSignal | undefined} signal
     */
    async #send(data, peer, signal) {
        const session = this.#open();
        if (this.#count === session.count) {
            await new Promise((resolve) => setImmediate(resolve));
        }
        this.#count = session.count;
        try {
            await this.#sendInRoom(data, peer, session, signal);
        } catch (error) {
            if (!(error instanceof Refused) || error.reason !== "no-permission") {
                throw error;
            }
            await abortable(session.grants.permitToSend(peer.address), signal);
            await this.#sendInRoom(data, peer, session, signal);
        }
    }

    /**
     * Sends data to a peer that has a permission, when there is room in the socket.
     * @param {Uint8Array} bytes
     * @param {Address} peer
     * @param {Session} session
     * @param {AbortSignal | undefined} signal
     */
    async #sendInRoom(bytes, peer, session, signal) {
        do {
            await abortable(session.link.room.wait(), signal);
        } while (!this.#sendNow(bytes, peer));
    }

    /**
     * Sends data to a peer that has a permission, at once, as a datagram: where the socket is full, it is dropped and counted, and
     * false is returned. With its header a message has at most 65,507 bytes: data has up to 65,500 for a peer with a channel, else
     * 65,468, and for an IPv6 peer 65,456. `Refused` (`no-permission`; `no-allocation` for another family), `Ended`; RangeError.
     * @param {import("./sending.js").Data} data
     * @param {number | AddressLike} port
     * @param {string} [address]
     */
    sendTo(data, port, address) {
        const isSent = this.#sendNow(dataOf(data), peerOf(port, address));
        this.unsent += isSent ? 0 : 1;
        return isSent;
    }

    /**
     * @param {Uint8Array} bytes
     * @param {Address} peer
     */
    #sendNow(bytes, peer) {
        const session = this.#open();
        this.#checkAllocation("udp");
        this.#checkFamily(peer.address);
        return session.sendData(bytes, peer);
    }

    /**
     * Refuses a call that the transport between server and peers has not.
     * @param {"udp" | "tcp"} needed
     */
    #checkAllocation(needed) {
        if (this.#allocation !== needed) {
            throw new TypeError(needed === "tcp" ? 'streams need a relay that was opened with allocation: "tcp" (RFC 6062)'
                : 'a relay with allocation: "tcp" has no datagrams: use connect, and what it gives');
        }
    }

    /**
     * Refuses a peer that the relayed address cannot reach.
     * @param {string} ip
     */
    #checkFamily(ip) {
        const found = ipOf(ip);
        if (found.family !== this.#family) {
            const detail = `the relayed address is IPv${this.#family}, and ${ip} is IPv${found.family}`;
            throw new Refused("no-allocation", 0, `${detail} (family: ${found.family} gets such an address)`);
        }
    }

    // The end

    /**
     * Gives the relayed address back, closes the socket, and returns when the server has answered, or after two seconds. A second
     * time it waits for the first. A callback is called then, too, as with `dgram`. TypeError if it is no function.
     * @param {() => void} [callback]
     */
    async close(callback) {
        if (callback !== undefined && typeof callback !== "function") {
            throw new TypeError(`callback is a function, and not ${typeof callback}`);
        }
        await this.#session?.leave();
        callback && process.nextTick(callback);
    }

    /**
     * Gives the relayed address back by one packet, and closes the socket at once, for a program that ends now: no answer is waited for,
     * and over UDP that packet may be lost, after which the server keeps the relayed address until it expires. After `close` was called
     * it ends the waiting of that. It throws nothing.
     */
    abandon() {
        this.#session?.abandon();
    }

    /** The same as `close`, for `await using`. */
    [ASYNC_DISPOSE]() {
        return this.close();
    }

    /** Has the relay keep the program running, as it does at first. */
    ref() {
        this.#session?.link.setKept(true);
        return this;
    }

    /** Lets the program end although the relay is open. The server then keeps the relayed address for up to ten minutes. */
    unref() {
        this.#session?.link.setKept(false);
        return this;
    }
}
