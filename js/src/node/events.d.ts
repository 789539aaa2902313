import { Address } from "../address.js";
import { Ended } from "../errors.js";
import { Lost } from "./grants.js";
import { RemoteInfo } from "./inbox.js";
import { PeerStream } from "./peer-stream.js";

/** The events of a relay, each with what its listeners are. */
export interface RelayEvents {
    /** A peer sent data. Without a listener it waits for `for await`. */
    message: (data: Buffer, peer: RemoteInfo) => void;
    /** The relay has ended by itself. Without a listener it is thrown, unless a `for await` is under way, which has it. */
    error: (error: Ended) => void;
    /** The relay has ended, by `close` or by itself. Nothing follows. */
    close: () => void;
    /** The server no longer renews a permission or a channel. It may have been restarted. */
    lost: (lost: Lost) => void;
    /** An error of a socket over UDP, which does not end the relay, such as a lost network. */
    socketError: (error: Error) => void;
    /**
     * A permitted peer has connected to the relayed address of a relay over TCP (RFC 6062). Without a listener up to 64 wait for one,
     * and a further one is refused.
     */
    connection: (stream: PeerStream) => void;
    /** The socket was full, so that `sendTo` dropped data, and is no longer. */
    drain: () => void;
}

/** The events of a relay, and those that each emitter has. */
interface Events extends RelayEvents {
    /** A listener is added. */
    newListener: (name: string | symbol, listener: (...words: any[]) => void) => void;
    /** A listener was taken away. */
    removeListener: (name: string | symbol, listener: (...words: any[]) => void) => void;
}

/** An `EventEmitter` of Node whose events are those of a relay: the name of no event is an error of the types. */
export class RelayEmitter {
    /** Has a listener called with each event of this name, after those that are there. */
    on<N extends keyof Events>(name: N, listener: Events[N]): this;
    /** The same as `on`. */
    addListener<N extends keyof Events>(name: N, listener: Events[N]): this;
    /** Has a listener called with the next event of this name. */
    once<N extends keyof Events>(name: N, listener: Events[N]): this;
    /** As `on`, before those that are there. */
    prependListener<N extends keyof Events>(name: N, listener: Events[N]): this;
    /** As `once`, before those that are there. */
    prependOnceListener<N extends keyof Events>(name: N, listener: Events[N]): this;
    /** Takes a listener away, which was added last, if it was added several times. */
    off<N extends keyof Events>(name: N, listener: Events[N]): this;
    /** The same as `off`. */
    removeListener<N extends keyof Events>(name: N, listener: Events[N]): this;
    /** Takes all listeners away, or those of an event. */
    removeAllListeners(name?: keyof Events): this;
    /** Calls the listeners of an event, and says whether there were any. The relay does so: a program rarely has to. */
    emit<N extends keyof Events>(name: N, ...words: Parameters<Events[N]>): boolean;
    /** How many listeners an event has. */
    listenerCount(name: keyof Events): number;
    /** The listeners of an event. */
    listeners<N extends keyof Events>(name: N): Events[N][];
    /** The listeners of an event, those of `once` as they are called. */
    rawListeners<N extends keyof Events>(name: N): Events[N][];
    /** The events that have listeners. */
    eventNames(): (keyof Events)[];
    /** From how many listeners of an event on Node warns of a leak: 10 at first, and never with 0. */
    setMaxListeners(count: number): this;
    /** What `setMaxListeners` has set. */
    getMaxListeners(): number;
}
