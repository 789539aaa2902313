// What the pieces of streams are: frames, parts of frames, or data of a peer on a data connection that is bound (RFC 8656, section
// 12.5; RFC 6062, section 4.3). It is read off the packets alone.
import { joined } from "../yarrowdoor/lines/hex.js";
import { decode } from "./decode.js";
import { CLASS, METHOD } from "./names.js";

/** What is known of one direction of one connection. */
function fresh() {
    return { rest: new Uint8Array(), isData: false };
}

/** The connections of a run, piece by piece. */
export class Streams {
    #control;
    /** @type {Map<string, ReturnType<typeof fresh>>} */
    #ways = new Map();

    /** @param {string} control the client's address of the control connection */
    constructor(control) {
        this.#control = control;
    }

    #way(from, to) {
        const name = `${from} ${to}`;
        if (!this.#ways.has(name)) {
            this.#ways.set(name, fresh());
        }
        return this.#ways.get(name);
    }

    /**
     * The frames of the next packet.
     * @param {{ bytes: Uint8Array, transport: string, from: string, to: string }} packet
     */
    decode({ bytes, transport, from, to }) {
        if (transport !== "tcp") {
            return decode(bytes, { transport });
        }
        const way = this.#way(from, to);
        if (way.isData) {
            return decode(bytes, { transport, isData: true });
        }
        const all = decode(joined(way.rest, bytes), { transport }), first = all[0], before = way.rest.length;
        const skip = before === 0 ? 0 : first?.kind === "bytes" && all.length === 1 ? bytes.length : first.end - before;
        const last = all.at(-1), isPart = last?.title === "the beginning of a frame";
        way.rest = isPart ? joined(way.rest, bytes).slice(last.start) : new Uint8Array();
        this.#bind(all, from, to);
        return decode(bytes, { transport, skip });
    }

    /** Where a ConnectionBind succeeded, both directions of a connection other than the control connection carry data. */
    #bind(frames, from, to) {
        const isBound = frames.some((frame) => frame.method === METHOD.CONNECTION_BIND && frame.messageClass === CLASS.SUCCESS);
        if (isBound && to !== this.#control) {
            this.#way(from, to).isData = this.#way(to, from).isData = true;
        }
    }
}
