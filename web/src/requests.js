// The requests of a run and their responses, read off the packets: which transaction IDs are outstanding, and until when.
import { toHex } from "../yarrowdoor/lines/hex.js";
import { attributeOf } from "./decode.js";
import { ATTRIBUTE, CLASS } from "./names.js";

/**
 * A request that the client sent: its transaction ID, the step that sent it first and how often it was sent, and the step that got
 * its response, if the client took one.
 * @typedef {{ id: string, method: number, title: string, step: number, time: bigint, sent: number, isSigned: boolean,
 *     realm: Uint8Array | undefined, algorithm: "sha1" | "sha256" | undefined, channel: string | undefined,
 *     answered: number | undefined, timedOut: bigint }} Request
 */

/** A request waits at most about so long for the pause between two of them, in nanoseconds. */
const QUEUED = 1_000_000_000n;

/** How long a request is outstanding (RFC 8489, section 6.2.1), by the times of the run's head, in nanoseconds. */
export function lifeOf({ times }) {
    const { initial = 500_000_000n, longest = 2n ** 62n, last = 8_000_000_000n, count = 7 } = times ?? {};
    let sum = last;
    // Waits that are longer than all time need no adding up.
    for (let at = 0, wait = initial; at + 1 < Math.min(count, 64); at++, wait *= 2n) {
        sum += wait < longest ? wait : longest;
    }
    return sum;
}

/**
 * When a request was made that a step sends first: one that waits for the pause counts from the call that made it, or from the
 * challenge. A refresh is made when it is sent.
 */
function madeAt(steps, { index, time }) {
    const cause = steps.slice(0, index).findLast((step) => step.answer === "ok" || step.answer === "handled");
    return cause && time - cause.time < QUEUED && time >= cause.time ? cause.time : time;
}

function requestOf(frame, step, steps, life) {
    const field = (type) => attributeOf(frame, type)?.attribute.value, time = madeAt(steps, step);
    const sha1 = field(ATTRIBUTE.MESSAGE_INTEGRITY) ? "sha1" : undefined;
    const algorithm = field(ATTRIBUTE.MESSAGE_INTEGRITY_SHA256) ? "sha256" : sha1;
    return { id: toHex(frame.id), method: frame.method, title: frame.title, step: step.index, time, sent: 1, answered: undefined,
        isSigned: algorithm !== undefined, realm: field(ATTRIBUTE.REALM), algorithm, timedOut: time + life,
        channel: attributeOf(frame, ATTRIBUTE.CHANNEL_NUMBER)?.value };
}

function note(found, step, steps, frame, life) {
    const id = toHex(frame.id), before = found.get(id);
    if (!step.packet.isReceived && frame.messageClass === CLASS.REQUEST) {
        if (before) {
            before.sent += 1;
        } else {
            found.set(id, requestOf(frame, step, steps, life));
        }
    } else if (step.packet.isReceived && before && before.answered === undefined && step.answer !== "ignored") {
        before.answered = step.index;
    }
}

/**
 * The requests by their IDs, as they are before a step.
 * @param {import("./story.js").Story} story
 * @param {number} index
 * @returns {Map<string, Request>}
 */
export function requestsBefore({ steps, settings }, index) {
    const found = new Map(), life = lifeOf(settings);
    for (const step of steps.slice(0, index)) {
        const frames = step.isDropped ? [] : step.packet?.frames ?? [];
        frames.filter((frame) => frame.kind === "message").forEach((frame) => note(found, step, steps, frame, life));
    }
    return found;
}

/**
 * Those of them that wait for a response at a time.
 * @param {Map<string, Request>} requests
 * @param {bigint} now
 */
export function outstanding(requests, now) {
    return [...requests.values()].filter((request) => request.answered === undefined && now < request.timedOut);
}

/**
 * The realm and the algorithm that the client signs by: those of its last signed request.
 * @param {Map<string, Request>} requests
 */
export function signerOf(requests) {
    const signed = [...requests.values()].filter((request) => request.realm && request.algorithm);
    const { realm, algorithm } = signed.at(-1) ?? {};
    return realm && algorithm ? { realm, algorithm } : undefined;
}

/**
 * How often requests are sent again in these steps.
 * @param {readonly import("./story.js").Shown[]} steps
 */
export function sentAgain(steps) {
    const sent = steps.filter(({ packet }) => packet && !packet.isReceived).flatMap(({ packet }) => packet.frames);
    const ids = sent.filter(({ messageClass }) => messageClass === CLASS.REQUEST).map(({ id }) => toHex(id));
    return ids.length - new Set(ids).size;
}
