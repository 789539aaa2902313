// The clock of a relay: what time it is, and a wake-up. Tests have one of their own.

/**
 * Times in milliseconds, of a clock that never goes back.
 * @typedef {{ now(): number, rate: number }} Clock
 */

/**
 * The engine's own.
 * @type {Clock}
 */
export const CLOCK = Object.freeze({ now: () => performance.now(), rate: 1 });

/** A timer waits no longer at a time. */
const LONGEST = 2 ** 31 - 1;

/** A wake-up, which is set anew each time. It keeps no program from its end: the socket does. */
export class Alarm {
    /** @type {ReturnType<typeof setTimeout> | undefined} */
    #timer;
    #clock;
    #wake;

    /**
     * @param {Clock} clock
     * @param {() => void} wake
     */
    constructor(clock, wake) {
        this.#clock = clock;
        this.#wake = wake;
    }

    /** @param {number} until */
    set(until) {
        clearTimeout(this.#timer);
        const wait = Math.ceil((until - this.#clock.now()) / this.#clock.rate);
        this.#timer = setTimeout(this.#wake, Math.max(0, Math.min(wait, LONGEST)));
        this.#timer.unref();
    }

    clear() {
        clearTimeout(this.#timer);
    }
}

/**
 * Waits until this many milliseconds of a clock have passed.
 * @param {Clock} clock
 * @param {number} milliseconds
 */
export async function pause(clock, milliseconds) {
    const due = clock.now() + milliseconds;
    for (let rest; (rest = due - clock.now()) > 0; ) {
        const wait = Math.min(Math.ceil(rest / clock.rate), LONGEST);
        await new Promise((resolve) => setTimeout(resolve, wait).unref());
    }
}
