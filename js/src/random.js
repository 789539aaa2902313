// The engine's random numbers.

/** @type {Crypto | undefined} */
let found = globalThis.crypto;

/**
 * Has these random numbers used where the engine has none of its own: Node 18 has them in a module, which a page has not.
 * @param {Crypto} crypto
 */
export function useRandom(crypto) {
    found ??= crypto;
}

/**
 * Secret random bytes. TypeError in an engine that has none.
 * @param {number} len
 */
export function randomBytes(len) {
    if (!found) {
        throw new TypeError("this engine has no crypto.getRandomValues: pass in a seed");
    }
    return found.getRandomValues(new Uint8Array(len));
}
