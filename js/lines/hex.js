// Bytes as hexadecimal digits.

/**
 * The digits of bytes, two for each, in lower case.
 * @param {Uint8Array} bytes
 */
export function toHex(bytes) {
    return Array.from(bytes, (byte) => byte.toString(16).padStart(2, "0")).join("");
}

/**
 * The bytes of digits, or undefined where the text is none: in lower case, two for each byte.
 * @param {string} text
 */
export function fromHex(text) {
    if (text.length % 2 || /[^0-9a-f]/.test(text)) {
        return undefined;
    }
    return Uint8Array.from({ length: text.length / 2 }, (_, at) => parseInt(text.slice(2 * at, 2 * at + 2), 16));
}

/**
 * The bytes of a line's field, where `-` is none.
 * @param {string} text
 */
export function fromField(text) {
    return text === "-" ? new Uint8Array() : text === "" ? undefined : fromHex(text);
}

/**
 * The field for bytes.
 * @param {Uint8Array} bytes
 */
export function toField(bytes) {
    return toHex(bytes) || "-";
}

/**
 * Bytes one after the other.
 * @param {...(Uint8Array | number[])} parts
 */
export function joined(...parts) {
    return Uint8Array.from(parts.flatMap((part) => [...part]));
}
