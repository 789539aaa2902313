// Calls for which the module has no memory: nothing is lost by them, and they are made again a little later.
import { OutOfMemory } from "../errors.js";

/** How long a call that found no memory is put off, in milliseconds. */
export const SHORTAGE_WAIT = 100;

/** Whether the module had no memory for a call of a client. */
export class Shortage {
    /** @type {OutOfMemory | undefined} */
    #error;

    /**
     * What a call gives, or undefined if the module has no memory left: the client may have ended then, which its `poll` says.
     * @template T
     * @param {() => T} call
     */
    guarded(call) {
        try {
            return call();
        } catch (error) {
            return this.note(error);
        }
    }

    /**
     * Keeps the error of a call that found no memory. Another one is thrown again.
     * @param {unknown} error
     * @returns {undefined}
     */
    note(error) {
        if (!(error instanceof OutOfMemory)) {
            throw error;
        }
        this.#error = error;
        return undefined;
    }

    /** The error of the last call that found none, since it was asked last. */
    take() {
        const error = this.#error;
        this.#error = undefined;
        return error;
    }
}
