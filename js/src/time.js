// Times: milliseconds as numbers, or nanoseconds as bigints. The client has nanoseconds.

/**
 * A time of a clock that never goes back: milliseconds as `performance.now()` gives them, or nanoseconds as a bigint, as
 * `process.hrtime.bigint()` does. Each is at most 2^62 ns, 146 years. What a call answers is in the unit of its time.
 * @typedef {number | bigint} Time
 */

/**
 * The unit of a time, in which a call answers: milliseconds or nanoseconds.
 * @template {Time} T
 * @typedef {T extends bigint ? bigint : number} UnitOf
 */

const NANOSECONDS = 1e6, HIGH = 2 ** 32, EXACT = 2 ** 53, MOST = 2 ** 62;
/** The same as a bigint, made once: a default value would be computed in each call. */
const LATEST = 2n ** 62n;

/**
 * Writes a time, or a length of time up to `most`, as a number of 64 bits. RangeError if it is none.
 * @param {DataView} view
 * @param {number} place
 * @param {Time} time
 * @param {string} [name]
 * @param {bigint} [most]
 */
export function putTime(view, place, time, name = "now", most = LATEST) {
    if (typeof time === "number") {
        const nanoseconds = Math.round(time * NANOSECONDS);
        if (nanoseconds >= 0 && nanoseconds <= MOST) {
            view.setUint32(place, nanoseconds, true); // its lower 32 bits
            view.setUint32(place + 4, nanoseconds / HIGH, true);
            return;
        }
    } else if (typeof time === "bigint") {
        if (time >= 0n && time <= most) {
            view.setBigUint64(place, time, true);
            return;
        }
    } else {
        throw new TypeError(`${name} is milliseconds as a number, or nanoseconds as a bigint, and not ${String(time)}`);
    }
    throw new RangeError(`${name} is no time from 0 to 2^62 ns: ${time}`);
}

/**
 * A time as the module takes it with a call: nanoseconds, or where a number cannot have them less than 0, and they are written to a
 * place as a number of 64 bits. RangeError if it is no time.
 * @param {DataView} view
 * @param {number} place
 * @param {Time} time
 */
export function passTime(view, place, time) {
    const nanoseconds = typeof time === "number" ? Math.round(time * NANOSECONDS) : -1;
    if (nanoseconds >= 0 && nanoseconds <= MOST) {
        return nanoseconds;
    }
    putTime(view, place, time);
    return -1;
}

/**
 * Reads a time, in the unit of another one. In milliseconds it is not before the time that stands there.
 * @template {Time} T
 * @param {DataView} view
 * @param {number} place
 * @param {T} like
 * @returns {UnitOf<T>}
 */
export function timeAt(view, place, like) {
    return /** @type {UnitOf<T>} */ (typeof like === "bigint" ? view.getBigUint64(place, true) : millisecondsAt(view, place));
}

/**
 * @param {DataView} view
 * @param {number} place
 */
function millisecondsAt(view, place) {
    const nanoseconds = view.getUint32(place + 4, true) * HIGH + view.getUint32(place, true);
    return nanoseconds < EXACT ? milliseconds(nanoseconds) : milliseconds(above(view.getBigUint64(place, true)));
}

/**
 * The least number of milliseconds that is so many nanoseconds or more again.
 * @param {number} nanoseconds
 */
function milliseconds(nanoseconds) {
    let time = nanoseconds / NANOSECONDS;
    while (Math.round(time * NANOSECONDS) < nanoseconds) {
        time += time * Number.EPSILON;
    }
    return time;
}

/**
 * The least number that is at least this bigint.
 * @param {bigint} value
 */
function above(value) {
    let number = Number(value);
    while (BigInt(number) < value) {
        number += number * Number.EPSILON;
    }
    return number;
}
