// The calls of a caller to whom nothing comes: it polls at each wake-up time, and takes the events and packets that wait.
import { lineOf, packetLine } from "../yarrowdoor/lines/answers.js";
import { clientAfter } from "./replay.js";

/** The most lines that are made. */
const MOST = 400;

/** The calls at one time, up to an answer of `poll` that says to wait for a later one. */
function callsAt(client, now, lines) {
    for (;;) {
        const calls = { event: () => lineOf(client.pollEvent()), transmit: () => packetLine(client.pollTransmit(now)) };
        for (const [name, call] of Object.entries(calls)) {
            do {
                lines.push(`${now} ${name}`);
            } while (call() !== "none" && lines.length < MOST);
        }
        lines.push(`${now} poll`);
        const answer = client.poll(now);
        if (answer.kind !== "wait-until" || answer.until > now || lines.length >= MOST) {
            return answer;
        }
    }
}

/**
 * The lines of what a caller does for so many nanoseconds after these lines, while nothing comes.
 * @param {import("../yarrowdoor/src/library.js").Library} library
 * @param {string} head
 * @param {readonly string[]} before
 * @param {bigint} start
 * @param {bigint} duration
 */
export function linesOfSilence(library, head, before, start, duration) {
    const { client } = clientAfter(library, head, before), lines = [];
    try {
        for (let now = start; ; ) {
            const answer = callsAt(client, now, lines);
            if (answer.kind !== "wait-until" || answer.until > start + duration || lines.length >= MOST) {
                return lines;
            }
            now = answer.until;
        }
    } finally {
        client.close();
    }
}
