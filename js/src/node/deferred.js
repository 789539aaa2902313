// What somebody waits for, and waiting that can be given up.

/**
 * A promise that is settled from outside, once.
 * @template T
 */
export class Deferred {
    /** Whether it is settled. */
    isDone = false;
    /** @type {(value: T) => void} */
    #resolve = () => {};
    /** @type {(error: unknown) => void} */
    #reject = () => {};

    constructor() {
        /** @type {Promise<T>} */
        this.promise = new Promise((resolve, reject) => {
            this.#resolve = resolve;
            this.#reject = reject;
        });
        this.promise.catch(() => {}); // it need not be awaited
    }

    /**
     * Settles it, and says whether it was not settled before.
     * @param {T} value
     */
    resolve(value) {
        const isFirst = !this.isDone;
        this.isDone = true;
        this.#resolve(value);
        return isFirst;
    }

    /**
     * Settles it by an error, and says whether it was not settled before.
     * @param {unknown} error
     */
    reject(error) {
        const isFirst = !this.isDone;
        this.isDone = true;
        this.#reject(error);
        return isFirst;
    }
}

/**
 * Waits for a promise, or until a signal gives it up: then its reason is thrown.
 * @template T
 * @param {Promise<T>} promise
 * @param {AbortSignal | undefined} signal
 * @returns {Promise<T>}
 */
export async function abortable(promise, signal) {
    if (!signal) {
        return promise;
    }
    promise.catch(() => {});
    signal.throwIfAborted();
    const aborted = new Deferred(), onAbort = () => aborted.reject(signal.reason);
    signal.addEventListener("abort", onAbort, { once: true });
    try {
        return await Promise.race([promise, /** @type {Promise<never>} */ (aborted.promise)]);
    } finally {
        signal.removeEventListener("abort", onAbort);
    }
}

/**
 * Waits for a promise, or for this many milliseconds.
 * @param {Promise<unknown>} promise
 * @param {number} milliseconds
 */
export async function within(promise, milliseconds) {
    /** @type {ReturnType<typeof setTimeout> | undefined} */
    let timer;
    /** @type {Promise<void>} */
    const late = new Promise((resolve) => {
        timer = setTimeout(() => resolve(), milliseconds);
    });
    try {
        await Promise.race([promise, late]);
    } finally {
        clearTimeout(timer);
    }
}
