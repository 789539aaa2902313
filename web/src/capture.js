// The packets of a run as a capture that Wireshark opens, byte by byte what tools/draw/lines-to-pcap writes: the format of libpcap with
// raw IP packets (LINKTYPE_RAW). No packet in it was seen on a network; the headers are made of the addresses.
import { joined } from "../yarrowdoor/lines/hex.js";

const UDP = 17, TCP = 6, TTL = 64, MAX_PIECE = 65_000, SYN = 2, PUSH = 8, ACK = 16;
const bytes16 = (...numbers) => numbers.flatMap((number) => [(number >> 8) & 255, number & 255]);
const bytes32 = (...numbers) => bytes16(...numbers.flatMap((number) => [number >>> 16, number & 0xffff]));

/** The Internet checksum (RFC 1071). */
function checksum(bytes) {
    let sum = 0;
    for (let at = 0; at < bytes.length; at += 2) {
        sum += (bytes[at] << 8) | (bytes[at + 1] ?? 0);
    }
    while (sum > 0xffff) {
        sum = (sum & 0xffff) + (sum >>> 16);
    }
    return ~sum & 0xffff;
}

/** The bytes of an address of the lines, and its port. */
function end(text) {
    const [, six, four, port] = /^(?:\[([0-9a-f]{32})\]|([0-9.]+)):([0-9]+)$/.exec(text);
    return { ip: six ? six.match(/../g).map((digits) => parseInt(digits, 16)) : four.split(".").map(Number), port: Number(port) };
}

function ipHeader(source, destination, protocol, size) {
    if (source.ip.length === 16) {
        return [...bytes32(6 << 28), ...bytes16(size), protocol, TTL, ...source.ip, ...destination.ip];
    }
    const front = [0x45, 0, ...bytes16(20 + size, 0, 0x4000), TTL, protocol], ends = [...source.ip, ...destination.ip];
    return [...front, ...bytes16(checksum([...front, 0, 0, ...ends])), ...ends];
}

/** Writes the packets one after the other. */
class Capture {
    parts = [Uint8Array.from([...bytes32(0xa1b2c3d4), ...bytes16(2, 4), ...bytes32(0, 0, 0x40000, 101)])];
    /** How many bytes went from one end of a connection to the other. */
    #sent = new Map();
    #opened = new Set();

    write(from, to, protocol, head, checksumAt, data, time) {
        const [source, destination] = [end(from), end(to)], size = head.length + data.length;
        const pseudo = [...source.ip, ...destination.ip, ...bytes32(size, protocol)];
        const sum = checksum(joined(pseudo, head, data)) || 0xffff, ip = ipHeader(source, destination, protocol, size);
        const body = joined(ip, head.slice(0, checksumAt), bytes16(sum), head.slice(checksumAt + 2), data);
        // Times are microseconds here, as of a number of seconds that has no more digits.
        const micros = Math.trunc((Number(time) / 1e9) * 1e6);
        this.parts.push(joined(bytes32(Math.floor(micros / 1e6), micros % 1_000_000, body.length, body.length), body));
    }

    datagram(from, to, data, time) {
        this.write(from, to, UDP, bytes16(end(from).port, end(to).port, 8 + data.length, 0), 6, data, time);
    }

    #segment(from, to, data, flags, time) {
        const number = this.#sent.get(`${from} ${to}`) ?? 0, seen = flags & ACK ? this.#sent.get(`${to} ${from}`) ?? 0 : 0;
        this.#sent.set(`${from} ${to}`, number + data.length + (flags & SYN ? 1 : 0));
        const head = [...bytes16(end(from).port, end(to).port), ...bytes32(number, seen), 0x50, flags, ...bytes16(65_535, 0, 0)];
        this.write(from, to, TCP, head, 16, data, time);
    }

    piece(from, to, data, time) {
        const name = [from, to].sort().join(" ");
        if (!this.#opened.has(name)) {
            this.#opened.add(name);
            this.#segment(from, to, [], SYN, time);
            this.#segment(to, from, [], SYN | ACK, time);
            this.#segment(from, to, [], ACK, time);
        }
        for (let start = 0; start < data.length; start += MAX_PIECE) {
            this.#segment(from, to, data.slice(start, start + MAX_PIECE), PUSH | ACK, time);
        }
    }
}

/**
 * The capture of a run, or undefined where no packet is in it.
 * @param {import("./story.js").Story} story
 */
export function captureOf({ steps }) {
    const capture = new Capture();
    for (const { packet, time, isDropped } of steps) {
        if (packet && !isDropped) {
            const { from, to, bytes, transport } = packet;
            transport === "udp" ? capture.datagram(from, to, bytes, time) : capture.piece(from, to, bytes, time);
        }
    }
    return capture.parts.length > 1 ? joined(...capture.parts) : undefined;
}
