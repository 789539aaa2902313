// A run with its edits as the page shows it: each step with the answer that the module gives to it, and what differs from the
// original run.
import { fromField } from "../yarrowdoor/lines/hex.js";
import { parseHead } from "../yarrowdoor/lines/lines.js";
import { bytesOfLine, edited, timeOf } from "./edits.js";
import { answersTo } from "./replay.js";
import { HEAD, simulated } from "./simulation.js";
import { Streams } from "./streams.js";

/**
 * A packet of a step: the bytes that go over the network, and where.
 * @typedef {{ bytes: Uint8Array, transport: string, from: string, to: string, isReceived: boolean,
 *     frames: import("./decode.js").Frame[] }} Packet
 */
/**
 * A step as it is shown. `answer` is undefined where the step is left out; `before` is the answer of the original run, where it is
 * another one. `isEdited` says that the step is new, or has another line than in the original run.
 * @typedef {{ index: number, line: string, name: string, time: bigint, words: string[], answer: string | undefined,
 *     before: string | undefined, origin: number | undefined, isEdited: boolean, isDropped: boolean,
 *     packet: Packet | undefined, number?: number, isLost?: boolean }} Shown
 * In a run with the page's server `number` is that of the packet, and `isLost` says that it did not arrive.
 */
/** @typedef {{ head: string, calls: [string, string][] }} Case */
/**
 * `isLive` says that the page's server answers, so that a run cannot be changed but by losing packets.
 * @typedef {{ head: string, settings: ReturnType<typeof parseHead>, steps: Shown[], isOriginal: boolean, differs: number,
 *     isLive: boolean }} Story
 */

/**
 * The packet of a step: what is passed in by `recv`, or what the answer is to be sent.
 * @param {string[]} words
 * @param {string | undefined} answer
 */
function packetOf(words, answer) {
    const given = answer?.split(" ") ?? [];
    if (words[1] === "recv") {
        return { transport: words[2], from: words[3], to: words[4], bytes: bytesOfLine(words.join(" ")), isReceived: true };
    }
    if (given[0] === "send") {
        return { transport: given[1], from: given[2], to: given[3], bytes: fromField(given[4]), isReceived: false };
    }
    return undefined;
}

function shownStep(step, index, answer, original, streams) {
    const words = step.line.split(" "), was = step.origin === undefined ? undefined : original.calls[step.origin];
    const packet = packetOf(words, answer);
    return {
        index, line: step.line, name: words[1], time: timeOf(step.line), words, answer, origin: step.origin,
        before: was && answer !== undefined && was[1] !== answer ? was[1] : undefined,
        isEdited: !was || was[0] !== step.line, isDropped: Boolean(step.isDropped),
        packet: packet && { ...packet, frames: streams.decode(packet) },
    };
}

/**
 * The run with these edits, as the module answers it. BadEdit where one does not fit; BadLine where the original run is none.
 * @param {import("../yarrowdoor/src/library.js").Library} library
 * @param {Case} original
 * @param {readonly string[]} edits
 * @returns {Story}
 */
export function tell(library, original, edits) {
    /** @type {import("./edits.js").Run} */
    let run = { head: original.head, steps: original.calls.map(([line], origin) => ({ line, origin })) };
    for (const edit of edits) {
        run = edited(run, edit);
    }
    const made = run.steps.filter((step) => !step.isDropped), streams = new Streams(run.head.split(" ")[1]);
    const answers = answersTo(library, run.head, made.map((step) => step.line));
    const answerOf = new Map(made.map((step, at) => [step, answers[at]]));
    const steps = run.steps.map((step, index) => shownStep(step, index, answerOf.get(step), original, streams));
    return {
        head: run.head, settings: parseHead(run.head), steps, isOriginal: edits.length === 0, isLive: false,
        differs: steps.filter((step) => step.before !== undefined).length,
    };
}

/**
 * The run with the page's server, in which these edits lose packets. BadEdit.
 * @param {import("../yarrowdoor/src/library.js").Library} library
 * @param {readonly string[]} edits
 * @returns {Promise<Story>}
 */
export async function tellLive(library, edits) {
    const made = await simulated(library, edits), streams = new Streams(HEAD.split(" ")[1]);
    const steps = made.map(({ line, answer, number, isLost }, index) => {
        const words = line.split(" "), packet = packetOf(words, answer);
        return {
            index, line, name: words[1], time: timeOf(line), words, answer, before: undefined, origin: undefined, number, isLost,
            isEdited: false, isDropped: isLost && words[1] === "recv", packet: packet && { ...packet, frames: streams.decode(packet) },
        };
    });
    return { head: HEAD, settings: parseHead(HEAD), steps, isOriginal: edits.length === 0, isLive: true, differs: 0 };
}

/**
 * The lines of the calls that are made, up to a step and with it.
 * @param {Story} story
 * @param {number} index
 */
export function linesUpTo({ steps }, index) {
    return steps.slice(0, index + 1).filter((step) => !step.isDropped).map((step) => step.line);
}

/**
 * How many calls are made, up to a step and with it.
 * @param {Story} story
 * @param {number} index
 */
export function madeUpTo(story, index) {
    return linesUpTo(story, index).length;
}
