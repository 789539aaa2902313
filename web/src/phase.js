// The phase of a client (docs/rattle/MACHINE.md, "Phases"), which no call tells: read off its state and the packets.
import { attributeOf } from "./decode.js";
import { ATTRIBUTE } from "./names.js";
import { outstanding, requestsBefore } from "./requests.js";

const ALLOCATE = 3;

/**
 * @param {import("./story.js").Story} story
 * @param {number} index
 * @param {import("./state.js").State} state
 */
export function phaseAfter(story, index, state) {
    if (state.isClosed) {
        return "Closed";
    }
    if (state.grants.some(({ kind }) => kind === "allocation")) {
        return "Allocated";
    }
    const requests = [...requestsBefore(story, index + 1).values()].filter(({ method }) => method === ALLOCATE);
    const isChallenged = requests.some(({ isSigned, answered }) => isSigned || answered !== undefined);
    return isChallenged ? "Authenticating" : requests.length ? "Requesting" : "New";
}

/**
 * The requests that wait for a response after a step.
 * @param {import("./story.js").Story} story
 * @param {number} index
 */
export function outstandingAfter(story, index) {
    const now = story.steps[index]?.time ?? 0n;
    return outstanding(requestsBefore(story, index + 1), now);
}

/** Which kinds of grants a success of a method prolongs, and for how many seconds; an allocation for its LIFETIME. */
const LIFETIMES = Object.freeze({ 3: {}, 4: {}, 8: { permission: 300 }, 9: { permission: 300, channel: 600 } });

/**
 * Times at which grants may end, from what the server answered (RFC 8656, sections 3.2, 9 and 12).
 * @param {import("./story.js").Story} story
 * @param {number} index
 */
export function possibleEnds(story, index) {
    const found = { allocation: [], permission: [], channel: [] };
    for (const { isDropped, time, packet } of story.steps.slice(0, index + 1)) {
        for (const frame of (!isDropped && packet?.isReceived && packet.frames) || []) {
            const lifetime = attributeOf(frame, ATTRIBUTE.LIFETIME), of = LIFETIMES[frame.method] ?? {};
            const allocation = lifetime && parseInt(lifetime.value, 10);
            for (const [kind, seconds] of Object.entries({ ...of, allocation })) {
                found[kind].push(...(seconds ? [time + BigInt(seconds) * 1_000_000_000n] : []));
            }
        }
    }
    return found;
}
