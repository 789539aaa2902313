// Runs a client by the calls of a trace, and prints its answers as turn_replay does.
import { isDeepStrictEqual } from "node:util";
import { MAKERS, answerTo, lineOf, packetLine } from "../lines/answers.js";
import { Client, OutOfMemory } from "../src/index.js";
import { parseTrace } from "./trace.js";

/** What makes each call: what came to the client's own socket from its server is passed in without addresses. */
const BY_OWN = {
    ...MAKERS,
    recv: (client, { now, data, isOwn, ...from }) => lineOf(client.recv(data, now, isOwn ? undefined : from)),
};

/** Bytes at the front of a buffer that are not passed in. */
const OFFSET = 8;

/** Does something with bytes in a buffer of their own, which is freed then. */
function withBuffer(client, bytes, run) {
    const buffer = client.buffer(OFFSET + bytes.length);
    try {
        buffer.bytes.set(bytes, OFFSET);
        return run(buffer);
    } finally {
        buffer.free();
    }
}

/** What makes each call, those for data by buffers in the memory of the module. */
export const IN_PLACE = {
    ...MAKERS,
    recv: (client, { now, data, isOwn, ...from }) => withBuffer(client, data,
        (buffer) => lineOf(client.recvFrom(buffer, OFFSET, data.length, now, isOwn ? undefined : from))),
    send: (client, { now, peer, data, transport }) => withBuffer(client, data, (buffer) => withBuffer(client, new Uint8Array(data.length + 64),
        (into) => packetLine(client.sendFrom(peer, buffer, OFFSET, data.length, now, into, transport)))),
};

/** Whether bytes came to the socket of the client from its server. */
const isOwn = (head, call) => ["transport", "local", "remote"].every((name) => isDeepStrictEqual(call[name], head[name]));

/** What is printed for a trace. */
export function replay(library, text, makers = BY_OWN) {
    const { head, calls, bad } = parseTrace(text), lines = [];
    let client;
    try {
        client = head && new Client(head, library);
        if (bad) {
            return `${bad}\n`;
        }
        // As turn_replay, it ends where memory does.
        for (let i = 0; i < calls.length && lines.at(-1) !== "no memory"; i++) {
            lines.push(answerTo(client, { ...calls[i], isOwn: isOwn(head, calls[i]) }, makers));
        }
    } catch (error) {
        if (client || error instanceof OutOfMemory) {
            lines.push(error instanceof OutOfMemory ? "no memory" : error.stack);
        } else {
            return "line 1: bad head\n";
        }
    } finally {
        client?.close();
    }
    return lines.map((line) => `${line}\n`).join("");
}
