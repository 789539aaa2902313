// What the server's messages say beside what the client makes of them: that it answers, who it sees, and why it refuses.
import { parse } from "../message.js";
import { refusal } from "./diagnosis.js";
import { CHANNELS, publishMessage } from "./diagnostics.js";
import { Frames, METHOD } from "./reasons.js";

/** What a session receives from a server. */
export class Hearing {
    #frames = new Frames();
    #session;

    /** @param {import("./session.js").Session} session */
    constructor(session) {
        this.#session = session;
    }

    /**
     * Whether a piece of a stream is one ChannelData message with so many bytes of data, and nothing else, so that nothing is said.
     * @param {Uint8Array} piece
     * @param {number} len
     */
    isOne(piece, len) {
        return this.#frames.isOne(piece, len);
    }

    /**
     * Reads what messages say, after the client has taken them, or ignored the first one.
     * @param {Uint8Array} data
     * @param {boolean} isIgnored
     * @param {Frames} frames those of the connection that they came over
     */
    hear(data, isIgnored, frames = this.#frames) {
        const session = this.#session, { library, link, path } = session;
        session.diagnosis.begins();
        for (const { message, packet } of link.isStream ? frames.messages(library, data) : this.#oneOf(data)) {
            publishMessage(CHANNELS.received, session.uri, packet);
            if (!path.hears(message)) {
                this.#hearOne(message, packet, isIgnored);
            }
            if (message.method === METHOD.CONNECTION_BIND && message.class === "success") {
                break; // what comes behind it is the peer's
            }
        }
    }

    /** @param {Uint8Array} packet */
    #oneOf(packet) {
        const message = parse(this.#session.library, packet);
        return message?.kind === "message" ? [{ message, packet }] : [];
    }

    /**
     * @param {import("../message.js").Message} message
     * @param {Uint8Array} packet
     * @param {boolean} isIgnored
     */
    #hearOne(message, packet, isIgnored) {
        const session = this.#session, asked = session.requests.answered(message);
        if (!asked) {
            return;
        }
        session.diagnosis.hears(message, packet, isIgnored);
        session.waiting.heard.resolve();
        if (asked.key.method !== METHOD.ALLOCATE) {
            return;
        }
        if (message.class === "error" && message.error && isIgnored) {
            session.failSoon(refusal(message.error));
        } else if (message.class === "success" && !isIgnored) {
            session.mapped = message.mapped;
        }
    }
}
