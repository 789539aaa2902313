// How many grants a client keeps whose caller is late by so much, and with how long a pause.
import { LOAD, NO_PAUSE, SIZE } from "./layout.js";
import { moduleOf } from "./library.js";
import { putTime, timeAt } from "./time.js";

/** @typedef {import("./time.js").Time} Time */
/**
 * What takes time before the expiry of grants that are all to be refreshed at one time, besides their refreshes: an allocation counts
 * as a grant, and so does each permission and each channel. `late` is how much too late a timer wakes the caller at most, and `delay`
 * how long the server's success takes at most, from when a request was made. `slots` packets are queued at most when the first refresh
 * is due, 1 by default, and `extras` are retransmissions, and requests that are made again, within `refreshAhead` at most, 0 by default.
 * `pause` and `refreshAhead` are those of the client's settings, with their defaults there: 50 ms and 60 s. A relay has 5 ms and 150 s.
 * @typedef {{ readonly late: Time, readonly delay: Time, readonly slots?: number, readonly extras?: number, readonly pause?: Time,
 *     readonly refreshAhead?: Time }} Load
 */

/**
 * How many grants a client keeps with this load: if the server answers, none of that many is lost, but one more may be. 0: there is
 * room for none. Infinity: there is no pause, and the caller is never late. A permission lasts 300 s and is refreshed after half of
 * that at the earliest, so that a `refreshAhead` over 150 s counts as 150 s; if the server grants an allocation for under 300 s, pass
 * half of that. TypeError and RangeError for an invalid load.
 * @param {import("./library.js").Library} library
 * @param {Load} load
 */
export function keptGrants(library, load) {
    const module = moduleOf(library), behind = putLoad(module, load);
    putPause(module.view, behind, load.pause ?? 50);
    putAhead(module.view, behind + 8, load.refreshAhead ?? 60_000);
    const count = module.keptGrants();
    return count === NO_PAUSE ? Infinity : Number(count);
}

/**
 * The longest `pause` with which a client keeps `count` grants with this load, in milliseconds: 0 if only without a pause, and
 * undefined if they are too many even so. TypeError and RangeError for an invalid load or count.
 * @param {import("./library.js").Library} library
 * @param {number} count
 * @param {Load} load
 */
export function longestPause(library, count, load) {
    const module = moduleOf(library), behind = putLoad(module, load);
    module.view.setBigUint64(behind, BigInt(numberIn(count, "count", 1, Number.MAX_SAFE_INTEGER)), true);
    putAhead(module.view, behind + 8, load.refreshAhead ?? 60_000);
    const pause = module.longestCadence();
    if (pause === 0n) {
        return undefined;
    }
    return pause === NO_PAUSE ? 0 : timeAt(module.view, module.load, 0);
}

/**
 * Writes a load, and gives the place behind it.
 * @param {import("./module.js").Module} module
 * @param {Load} load
 */
function putLoad({ view, load: at }, { late, delay, slots = 1, extras = 0 }) {
    putTime(view, at + LOAD.LATE, late, "late");
    putTime(view, at + LOAD.DELAY, delay, "delay");
    view.setUint32(at + LOAD.SLOTS, numberIn(slots, "slots", 0, 2 ** 32 - 1), true);
    view.setUint32(at + LOAD.EXTRAS, numberIn(extras, "extras", 0, 2 ** 32 - 1), true);
    return at + SIZE.LOAD;
}

/**
 * Writes the pause of settings, where 0 is none.
 * @param {DataView} view
 * @param {number} place
 * @param {Time} pause
 */
export function putPause(view, place, pause) {
    putTime(view, place, pause, "pause");
    if (Number(pause) === 0) {
        view.setBigUint64(place, NO_PAUSE, true);
    }
}

/**
 * Writes how long before its expiry a grant is refreshed, where 0 is just before.
 * @param {DataView} view
 * @param {number} place
 * @param {Time} refreshAhead
 */
export function putAhead(view, place, refreshAhead) {
    putTime(view, place, refreshAhead, "refreshAhead");
    if (Number(refreshAhead) === 0) {
        view.setBigUint64(place, 1n, true);
    }
}

/**
 * A whole number, or a RangeError.
 * @param {number} value
 * @param {string} name
 * @param {number} least
 * @param {number} most
 */
function numberIn(value, name, least, most) {
    if (!Number.isInteger(value) || value < least || value > most) {
        throw new RangeError(`${name} is a whole number from ${least} to ${most}, and not ${String(value)}`);
    }
    return value;
}
