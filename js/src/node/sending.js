// `send` in the forms of dgram. Its types are in sending.d.ts, since a comment gives a function no more than one.
import { Messages } from "./messages.js";
import { sendWords } from "./options.js";

/** What sends data of a user. */
export class Sending extends Messages {
    /**
     * @param {unknown[]} words
     * @returns {Promise<void> | undefined}
     */
    send(...words) {
        const { data, peer, signal, callback } = sendWords(words), sent = this.sendWhenPermitted(data, peer, signal);
        if (callback) {
            sent.then(() => process.nextTick(callback, null), (error) => process.nextTick(callback, error));
            return undefined;
        }
        sent.catch(() => {}); // who does not wait for it is not ended by it, as with a datagram that is lost
        return sent;
    }

    /**
     * Sends bytes when there is a permission, and room in the socket: a relay has it.
     * @abstract
     * @param {Uint8Array} _data
     * @param {import("../address.js").Address} _peer
     * @param {AbortSignal | undefined} _signal
     * @protected
     */
    async sendWhenPermitted(_data, _peer, _signal) {}
}
