// A connection to the server for the data of one peer: as one to the server, and with back-pressure.
import { StreamLink } from "./link.js";

/** How long a connection that is closed may take for what waits in it, in milliseconds. */
const CLOSE_WAIT = 1_000;

/** A data connection (RFC 6062, section 3), over TCP or TLS. */
export class DataLink extends StreamLink {
    #socket;

    /** @param {import("node:net").Socket} socket */
    constructor(socket) {
        super(socket);
        this.#socket = socket;
    }

    /** How many bytes wait in this program to be handed to the system. */
    get waiting() {
        return this.#socket.writableLength;
    }

    /**
     * Sends bytes. `done` is called when the system has them, with an error if it does not take them.
     * @param {Uint8Array} data
     * @param {(error?: Error | null) => void} done
     */
    write(data, done) {
        this.#socket.write(data, done);
    }

    /** Takes nothing more for now, so that the server waits in the end. */
    pause() {
        this.#socket.pause();
    }

    /** Takes what has come, and comes. */
    resume() {
        this.#socket.resume();
    }

    /** Closes it when what was written has left this program. `ended` of its user is called then. */
    close() {
        if (!this.isOver) {
            this.#socket.destroySoon();
            setTimeout(() => this.#socket.destroy(), CLOSE_WAIT).unref();
        }
    }

    /** Closes it at once, and drops what waits in it. `ended` is not called. */
    destroy() {
        this.isOver = true;
        this.#socket.destroy();
    }
}
