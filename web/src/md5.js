// MD5 (RFC 1321), of which the key of long-term credentials is made (RFC 8489, section 9.2.2). Engines have SHA-1 and SHA-256, and
// not this. It protects nothing here: the page checks what the client has answered.

const SHIFTS = [[7, 12, 17, 22], [5, 9, 14, 20], [4, 11, 16, 23], [6, 10, 15, 21]];
const CONSTANTS = Array.from({ length: 64 }, (_, at) => Math.floor(Math.abs(Math.sin(at + 1)) * 2 ** 32) | 0);
/** The function and the word of each round (RFC 1321, section 3.4). */
const ROUNDS = [
    { mix: (b, c, d) => (b & c) | (~b & d), word: (at) => at },
    { mix: (b, c, d) => (b & d) | (c & ~d), word: (at) => (5 * at + 1) % 16 },
    { mix: (b, c, d) => b ^ c ^ d, word: (at) => (3 * at + 5) % 16 },
    { mix: (b, c, d) => c ^ (b | ~d), word: (at) => (7 * at) % 16 },
];

function padded(bytes) {
    const room = new Uint8Array(((bytes.length + 8) >> 6 << 6) + 64), view = new DataView(room.buffer);
    room.set(bytes);
    room[bytes.length] = 0x80;
    view.setBigUint64(room.length - 8, BigInt(bytes.length) * 8n, true);
    return view;
}

function mixed(state, view, block) {
    let [a, b, c, d] = state;
    for (let at = 0; at < 64; at++) {
        const { mix, word } = ROUNDS[at >> 4], shift = SHIFTS[at >> 4][at & 3];
        const sum = (a + mix(b, c, d) + CONSTANTS[at] + view.getUint32(block + 4 * word(at), true)) | 0;
        [a, d, c, b] = [d, c, b, (b + ((sum << shift) | (sum >>> (32 - shift)))) | 0];
    }
    return [a, b, c, d].map((value, at) => (value + state[at]) | 0);
}

/**
 * The 16 bytes of the digest.
 * @param {Uint8Array} bytes
 */
export function md5(bytes) {
    const view = padded(bytes), digest = new DataView(new ArrayBuffer(16));
    let state = [0x67452301, 0xefcdab89 | 0, 0x98badcfe | 0, 0x10325476];
    for (let block = 0; block < view.byteLength; block += 64) {
        state = mixed(state, view, block);
    }
    state.forEach((value, at) => digest.setInt32(4 * at, value, true));
    return new Uint8Array(digest.buffer);
}
