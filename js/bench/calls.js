// Times calls of the client from JavaScript, as bench/library/driver.c does from C: node bench/calls.js [ROUNDS]
//
// A row's figure is the least of its batches, of which each takes 2 ms or more and ROUNDS (80 unless told otherwise) are made: in
// each round one of each row, so that other work on the machine is spread over all rows. The length of what a call answers is read,
// as in C: one that is wrong ends the program.
import { NOW, PEER, boundClient, channelData } from "../test/handshake.js";
import { newLibrary } from "../test/module.js";

const LEN = 1_200, LEAST_BATCH = 2, ROUNDS = Number(process.argv[2] ?? 80);
const library = await newLibrary(), client = boundClient(library), frame = channelData(LEN), data = frame.slice(4);
const input = client.buffer(2_048), output = client.buffer(2_048), into = new Uint8Array(LEN + 64), how = { into };
const milliseconds = Number(NOW) / 1e6;
input.bytes.set(frame);

const ROWS = [
    ["poll, nothing to be done", () => client.poll(milliseconds).kind === "wait-until"],
    ["the same, by nanoseconds", () => client.poll(NOW).kind === "wait-until"],
    ["channel frame of 1,200 bytes in, in place (recvFrom)", () => client.recvFrom(input, 0, LEN + 4, milliseconds).length === LEN],
    ["the same, and its data as a Uint8Array", () => client.recvFrom(input, 0, LEN + 4, milliseconds).data.length === LEN],
    ["channel frame of 1,200 bytes in, copied (recv)", () => client.recv(frame, milliseconds).data.length === LEN],
    ["frame of 1,200 bytes out, in place (sendFrom)", () => client.sendFrom(PEER, input, 4, LEN, milliseconds, output).length === LEN + 4],
    ["the same, and the packet as a Uint8Array", () => client.sendFrom(PEER, input, 4, LEN, milliseconds, output).data.length === LEN + 4],
    ["frame of 1,200 bytes out, copied in and out (sendTo)", () => client.sendTo(PEER, data, milliseconds, how).data.length === LEN + 4],
];

/** Each row has a loop of its own, as a program has: one that all share would call what it does not know. */
function loopOf(isRight) {
    return new Function("isRight", `return (turns) => {
        for (let at = 0; at < turns; at++) {
            if (!isRight()) {
                throw new Error("a call answers otherwise");
            }
        }
    }`)(isRight);
}

/** The loop of each row, how many turns its batch has, and the least that a turn took, in nanoseconds. */
const found = ROWS.map(([name, isRight]) => ({ name, loop: loopOf(isRight), turns: 1_000, least: Infinity }));

/** Runs a batch. One that was too short is not counted, and the next one is longer. */
function batch(row) {
    const start = performance.now();
    row.loop(row.turns);
    const spent = performance.now() - start;
    if (spent < LEAST_BATCH) {
        row.turns *= 2;
    } else {
        row.least = Math.min(row.least, spent * 1e6 / row.turns);
    }
}

for (let round = 0; round < ROUNDS; round++) {
    found.forEach(batch);
}
console.log(`from JavaScript, node ${process.version}: nanoseconds, with 1 channel`);
found.forEach(({ name, least }) => console.log(`${name.padEnd(52)} ${least.toFixed(0).padStart(9)}`));
