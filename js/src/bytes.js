// Bytes that are passed in and taken out.

/**
 * A copy of bytes of the module, in bytes of its own or at the front of others.
 * @param {Uint8Array} bytes
 * @param {Uint8Array | undefined} into
 */
export function taken(bytes, into) {
    if (into === undefined) {
        return bytes.slice();
    }
    into.set(bytes);
    return into.subarray(0, bytes.length);
}

/**
 * TypeError if it is no Uint8Array, or lies in memory that is gone, as that of the module before it has grown.
 * @param {unknown} data
 */
export function checkBytes(data) {
    if (!(data instanceof Uint8Array)) {
        throw new TypeError(`data is a Uint8Array, as a Buffer is, and not ${typeof data}`);
    }
    if (data.length === 0) {
        checkAttached(data);
    }
}

/**
 * Bytes whose memory is gone look like none, and none would end a stream.
 * @param {Uint8Array} data
 */
function checkAttached(data) {
    try {
        new Uint8Array(data.buffer);
    } catch {
        throw new TypeError("data lies in memory that is gone: where the module's memory has grown, ask for the bytes anew");
    }
}
