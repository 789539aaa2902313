// A client whose channel 4000 to 10.0.0.3:9000 is bound, by the lines of a handshake.
import { answerTo } from "../lines/answers.js";
import { Client, OutOfMemory } from "../src/index.js";
import { parseTrace } from "./trace.js";

const [LOCAL, SERVER] = ["192.168.0.1:1000", "10.0.0.2:2000"];

export const LOCAL_ADDRESS = { address: "192.168.0.1", port: 1000 }, SERVER_ADDRESS = { address: "10.0.0.2", port: 2000 };
export const PEER = Object.freeze({ address: "10.0.0.3", port: 9000, family: "IPv4" });
export const NOW = 100_000_000n;

export const HANDSHAKE = `udp ${LOCAL} ${SERVER} udp 4 sha1 auto 75736572 70617373 ${"0".repeat(64)}
0 transmit
0 recv udp ${SERVER} ${LOCAL} 011300202112a44276b8e0ada0f13d90405d6ae50009000400000401001400057265616c6d000000001500056e6f6e6365000000
50000000 transmit
50000000 recv udp ${SERVER} ${LOCAL} 0103002c2112a4425386bd28bdd219b8a08ded1a001600080001bd522b12a446000d0004000003e80008001473ab3a7f1f80782b83e3ea333b6d47e608f296b7
50000000 bind udp 10.0.0.3:9000
100000000 transmit
100000000 recv udp ${SERVER} ${LOCAL} 010900182112a442a836efcc8b770dc7da41597c00080014dd9a056be4781bb64f769e71f37f90df2533e857
100000000 event
100000000 event
100000000 event
`;

/** A new client with the channel, and with more settings. OutOfMemory. */
export function boundClient(library, more = {}) {
    const { head, calls } = parseTrace(HANDSHAKE), client = new Client({ ...head, ...more }, library);
    const lines = calls.map((call) => answerTo(client, call)), last = lines.slice(-3).join(", ");
    if (lines.includes("no memory")) {
        throw new OutOfMemory();
    }
    if (last !== "allocated udp 10.0.0.4:40000, permitted udp 10.0.0.3, bound udp 10.0.0.3:9000") {
        throw new Error(`the handshake ended with ${last}`);
    }
    return client;
}

/** ChannelData with so many bytes, in the channel of that client. */
export function channelData(len, byte = 0x55) {
    return Uint8Array.of(0x40, 0, len >> 8, len & 255, ...new Uint8Array(len).fill(byte));
}
