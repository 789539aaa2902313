// Starting points: questions to a client, each as a run, edits of it and the step to look at.
import { toHex } from "../yarrowdoor/lines/hex.js";
import { linesOfSilence } from "./caller.js";
import { withBytes } from "./edits.js";
import { keyOf, signed } from "./integrity.js";
import { LIVE } from "./live.js";
import { attribute, message, textBytes } from "./messages.js";
import { ATTRIBUTE, CLASS, METHOD } from "./names.js";
import { signerOf, requestsBefore } from "./requests.js";
import { linesUpTo } from "./story.js";
import { writeValue } from "./values.js";

/**
 * `ask` gives the edits, and the step that shows the answer; `why` is said of the answer.
 * @typedef {{ name: string, about: string, why?: string, run: string,
 *     ask(story: import("./story.js").Story, told: (edits: string[]) => Promise<import("./story.js").Story>,
 *         library: import("../yarrowdoor/src/library.js").Library): Promise<{ edits: string[], step: number }> }} Question
 */

const EXCHANGE = "exchange/data_is_delivered_and_answered", STREAM = "exchange/data_goes_both_ways_over_a_stream";
const LATER = 50_000_000n, MINUTE = 60_000_000_000n;

/** The step that passes in a message of this kind. */
function received({ steps }, method, messageClass) {
    return steps.find(({ packet, isDropped }) => !isDropped && packet?.isReceived
        && packet.frames.some((frame) => frame.method === method && frame.messageClass === messageClass));
}

const idOf = (step) => step.packet.frames[0].id;

async function forge(story) {
    const reply = received(story, METHOD.ALLOCATE, CLASS.SUCCESS), id = idOf(reply);
    const relayed = attribute(ATTRIBUTE.XOR_RELAYED_ADDRESS, writeValue("address", "203.0.113.66:6666", id));
    const lifetime = attribute(ATTRIBUTE.LIFETIME, writeValue("seconds", "3600", id));
    const forged = message(METHOD.ALLOCATE | CLASS.SUCCESS, id, relayed, lifetime);
    return { edits: [`add ${reply.index} ${withBytes(reply.line, forged)}`], step: reply.index };
}

/** Flips the last bit of a reply, which is one of its signature. */
const flip = (method) => async (story) => {
    const { index, packet } = received(story, method, CLASS.SUCCESS), at = packet.bytes.length - 1;
    return { edits: [`set ${index} ${at} ${toHex([packet.bytes[at] ^ 1])}`], step: index };
};

/** Another seed is another day: the challenge is today's, and the reply behind it yesterday's, signed with the same key. */
async function yesterday(story, told) {
    const edits = [`seed ${"07".repeat(32)}`], challenge = received(story, METHOD.ALLOCATE, CLASS.ERROR);
    const today = (await told(edits)).steps.find(({ packet }) => packet && !packet.isReceived);
    edits.push(`set ${challenge.index} 8 ${toHex(idOf(today))}`);
    return { edits, step: received(story, METHOD.ALLOCATE, CLASS.SUCCESS).index };
}

async function stale(story, told) {
    const reply = received(story, METHOD.CREATE_PERMISSION, CLASS.SUCCESS);
    const { realm, algorithm } = signerOf(requestsBefore(story, reply.index));
    const error = attribute(ATTRIBUTE.ERROR_CODE, writeValue("error", "438 Stale Nonce", idOf(reply)));
    const challenge = message(METHOD.CREATE_PERMISSION | CLASS.ERROR, idOf(reply), error, attribute(ATTRIBUTE.REALM, realm),
        attribute(ATTRIBUTE.NONCE, textBytes("fresh")));
    const at = reply.index, then = reply.time + LATER;
    const edits = [`add ${at} ${withBytes(reply.line, challenge)}`, `later ${at + 2} ${LATER}`, `add ${at + 2} ${then} transmit`];
    const again = (await told(edits)).steps[at + 2], key = await keyOf(story.settings, realm, algorithm);
    const grant = await signed(message(METHOD.CREATE_PERMISSION | CLASS.SUCCESS, idOf(again)), undefined, key, algorithm);
    edits.push(`add ${at + 3} ${withBytes(`${then}${reply.line.slice(reply.line.indexOf(" "))}`, grant)}`);
    return { edits, step: at };
}

async function silence(story, told, library) {
    const reply = received(story, METHOD.ALLOCATE, CLASS.SUCCESS);
    const rest = story.steps.slice(reply.index).map(({ index }) => `drop ${index}`);
    const lines = linesOfSilence(library, story.head, linesUpTo(story, reply.index - 1), reply.time, MINUTE);
    const edits = [...rest, ...lines.map((line, at) => `add ${story.steps.length + at} ${line}`)], failed = (await told(edits)).steps;
    const end = failed.find(({ answer }) => answer === "closed" || answer?.startsWith("allocate-failed"));
    return { edits, step: end.index };
}

async function elsewhere(story) {
    const { index, words } = received(story, METHOD.ALLOCATE, CLASS.SUCCESS);
    return { edits: [`line ${index} ${[...words.slice(0, 3), "203.0.113.66:2000", ...words.slice(4)].join(" ")}`], step: index };
}

async function stranger(story) {
    const data = received(story, METHOD.DATA, CLASS.INDICATION), id = idOf(data);
    const peer = attribute(ATTRIBUTE.XOR_PEER_ADDRESS, writeValue("address", "203.0.113.66:6666", id));
    const sent = message(METHOD.DATA | CLASS.INDICATION, id, peer, attribute(ATTRIBUTE.DATA, textBytes("let me in")));
    return { edits: [`add ${data.index} ${withBytes(data.line, sent)}`], step: data.index };
}

async function pieces(story) {
    const { index, packet } = received(story, METHOD.ALLOCATE, CLASS.SUCCESS);
    return { edits: [`cut ${index} ${packet.bytes.length >> 1}`], step: index };
}

/** The success of the allocation does not arrive. */
async function lose(story) {
    const { index, number } = received(story, METHOD.ALLOCATE, CLASS.SUCCESS);
    return { edits: [`lose ${number}`], step: index };
}

/** @type {readonly Question[]} */
export const QUESTIONS = Object.freeze([
    { name: "Forge a success", run: EXCHANGE, ask: forge,
        about: "Somebody who saw the request is quicker than the server, and grants an address of their own." },
    { name: "Flip one bit", run: EXCHANGE, ask: flip(METHOD.CREATE_PERMISSION),
        about: "The last bit of the server's success for a permission arrives as the other one." },
    { name: "Spoil the allocation", run: EXCHANGE, ask: flip(METHOD.ALLOCATE),
        about: "The same for the success of the allocation: nothing is granted either, and the client ends.",
        why: "That ending is our choice. RFC 8489, section 9.2.5, would have the client discard the reply and wait for another. But nothing "
            + "is granted yet, and so the caller learns at once, and not after 39.5 s, that a reply was spoilt or the key is another one. The "
            + "price: whoever spoils one datagram ends the client (docs/SECURITY.md)." },
    { name: "Replay yesterday's reply", run: EXCHANGE, ask: yesterday,
        about: "A reply that the server signed with the same key, in a session of the day before." },
    { name: "Let the nonce go stale", run: EXCHANGE, ask: stale,
        about: "The server wants another nonce; the request is made again, and the late reply to the first one no longer counts." },
    { name: "Lose a packet", run: LIVE.name, ask: lose,
        about: "A server in the page answers by itself. A packet is lost; the client sends its request again, and recovers." },
    { name: "Be silent for a minute", run: EXCHANGE, ask: silence,
        about: "The server answers no more. The request goes out seven times, and then the client ends." },
    { name: "Answer from elsewhere", run: EXCHANGE, ask: elsewhere,
        about: "The server's own signed success, byte by byte, comes from another address." },
    { name: "Send data as a stranger", run: EXCHANGE, ask: stranger,
        about: "Data of a peer that was never permitted." },
    { name: "Cut a stream", run: STREAM, ask: pieces,
        about: "Over TCP a reply comes in two pieces. The client waits for the rest, and then does the same." },
]);
