// What the page can check of a packet that was passed in: rules of docs/rattle/MACHINE.md and docs/rattle/PROTOCOL.md, each met or not, by which
// it says why a packet may have been ignored. The client decides by more than these: they are hints.
import { toHex } from "../yarrowdoor/lines/hex.js";
import { attributeOf } from "./decode.js";
import { SIGNERS, canSign, integrityOf, keyOf } from "./integrity.js";
import { ATTRIBUTE, CLASS, METHOD } from "./names.js";
import { codeOf } from "./notes.js";
import { requestsBefore, signerOf } from "./requests.js";
import { hasEnded, hasPermission } from "./state.js";
import { madeUpTo } from "./story.js";

/**
 * A rule: whether it is met, or undefined where that cannot be told; what was found; and the section that has the rule.
 * @typedef {{ isMet: boolean | undefined, text: string, section: string }} Check
 */

const check = (isMet, text, section) => ({ isMet, text, section });

function source({ from, to, transport }, { head }) {
    const [way, local, remote] = head.split(" "), section = "RFC 8489, 6.3";
    if (transport !== way) {
        return check(false, `it came over ${transport}, and the client is reached over ${way}`, section);
    }
    if (from !== remote) {
        return check(false, `it came from ${from}, and the server is ${remote}`, section);
    }
    const isRight = to === local || way === "tcp";
    return check(isRight, isRight ? `it came from the server, ${remote}` : `it came to ${to}, and the client is at ${local}`, section);
}

function asks(request) {
    return `step ${request.step + 1} (${request.title})`;
}

function transaction(frame, requests, now) {
    const request = requests.get(toHex(frame.id)), section = "RFC 8489, 6.3";
    if (!request) {
        return check(false, "no request of this client has its transaction ID", section);
    }
    if (request.answered !== undefined) {
        const by = `which step ${request.answered + 1} has answered: a response counts once`;
        return check(false, `it answers ${asks(request)}, ${by}`, section);
    }
    return now < request.timedOut ? check(true, `it answers ${asks(request)}, which is outstanding`, section)
        : check(false, `it answers ${asks(request)}, which has timed out`, section);
}

/** Whether the attribute that signs is there, and right under the key of the run. */
async function integrity(packet, frame, { realm, algorithm }, settings) {
    const { type, name, section } = SIGNERS[algorithm], field = attributeOf(frame, type);
    if (!field) {
        return check(false, `it is not signed: there is no ${name}`, section);
    }
    if (!canSign()) {
        return check(undefined, "it is signed; whether rightly, this page can say only over https or from this machine", section);
    }
    const message = packet.bytes.slice(frame.start, frame.end), key = await keyOf(settings, realm, algorithm);
    const wanted = await integrityOf(message, field.start - frame.start, key, algorithm);
    const isRight = toHex(wanted) === toHex(field.attribute.value);
    return check(isRight, isRight ? "it is signed with the key that client and server share"
        : "its signature is wrong: the key, or a byte before it, is another one", section);
}

/** The code and the realm of an error response that may be a challenge, or undefined (docs/rattle/PROTOCOL.md, "Integrity"). */
function challengeIn(frame) {
    const value = (type) => attributeOf(frame, type)?.attribute.value;
    const [error, realm, nonce] = [ATTRIBUTE.ERROR_CODE, ATTRIBUTE.REALM, ATTRIBUTE.NONCE].map(value);
    const code = codeOf(error);
    const isOne = frame.messageClass === CLASS.ERROR && (code === 401 || code === 438) && realm?.length && nonce?.length;
    return isOne ? { code, realm } : undefined;
}

/** Whether a challenge counts, which is decided before any signature is checked: the first one fixes the realm. */
function challenge({ code, realm }, signer) {
    if (signer && toHex(realm) !== toHex(signer.realm)) {
        return check(false, "it is a challenge for another realm than that of the first one", "RFC 8489, 9.2.5");
    }
    return signer && code === 401 ? check(false, "it is a 401, which is a challenge only before a request was signed", "RFC 8489, 9.2.5")
        : check(true, "it is a challenge, which nobody has to have signed", "RFC 8489, 9.2.4");
}

async function response(packet, frame, step, story) {
    const requests = requestsBefore(story, step.index), signer = signerOf(requests), isChallenge = challengeIn(frame);
    const found = [transaction(frame, requests, step.time)];
    if (isChallenge && (!signer || isChallenge.code === 438)) {
        return [...found, challenge(isChallenge, signer)];
    }
    const isFirst = check(undefined, "nothing was signed yet: but for a challenge, any response ends the client", "RFC 8489, 9.2.5");
    return [...found, signer ? await integrity(packet, frame, signer, story.settings) : isFirst];
}

/** Of requests, and of indications but for data, a client takes only a ConnectionAttempt, and that not always. */
function attempt({ method, title }) {
    const section = "RFC 6062, 4.4";
    return method === METHOD.CONNECTION_ATTEMPT
        ? check(undefined, "it offers a connection of a peer, which may have one already", section)
        : check(false, `it is a ${title}, which no server sends to a client`, section);
}

/** Data of a peer (RFC 8656, section 11.6): its last peer counts, and the client itself says whether that has a permission. */
function indication(frame, step, story, timeline) {
    if (frame.method !== METHOD.DATA) {
        return [attempt(frame)];
    }
    const values = (type) => frame.fields.filter(({ attribute }) => attribute?.counts && attribute.type === type);
    const peer = values(ATTRIBUTE.XOR_PEER_ADDRESS).at(-1)?.value, section = "RFC 8656, 11.6";
    const data = check(values(ATTRIBUTE.DATA).length + values(ATTRIBUTE.ICMP).length > 0, "it carries data, or an ICMP report", section);
    if (peer === undefined || peer.startsWith("malformed")) {
        return [check(false, "it names no peer", section), data];
    }
    const isPermitted = hasPermission(timeline, madeUpTo(story, step.index - 1), story.head, peer);
    return [check(isPermitted, `its peer, ${peer}, has ${isPermitted ? "a" : "no"} permission`, section),
        data.isMet ? data : check(false, "it carries neither data nor an ICMP report", section)];
}

/** The step that bound a channel (RFC 8656, section 12.2), by the packets: what the client has bound no call tells. */
function channel({ channel: number }, step, story) {
    const shown = number.toString(16), requests = [...requestsBefore(story, step.index).values()];
    const bound = requests.findLast((request) => request.answered !== undefined && request.channel === shown);
    return check(Boolean(bound), bound ? `step ${bound.answered + 1} answered the request for channel ${shown}`
        : `no answer of the server has bound channel ${shown}`, "RFC 8656, 12.6");
}

function fingerprint(packet, frame) {
    const field = attributeOf(frame, ATTRIBUTE.FINGERPRINT);
    if (!field) {
        return [];
    }
    const isRight = crc32(packet.bytes.slice(frame.start, field.start)) === parseInt(toHex(field.attribute.value), 16);
    const text = `its FINGERPRINT is ${isRight ? "right" : "wrong"}, which this client does not look at`;
    return [check(undefined, text, "RFC 8489, 14.7")];
}

/** The checksum of a FINGERPRINT (RFC 8489, section 14.7): CRC-32 of ITU V.42, XORed with `STUN`. */
export function crc32(bytes) {
    let sum = -1;
    for (const byte of bytes) {
        sum ^= byte;
        for (let bit = 0; bit < 8; bit++) {
            sum = (sum >>> 1) ^ (sum & 1 ? 0xedb88320 : 0);
        }
    }
    return (~sum ^ 0x5354554e) >>> 0;
}

async function frameChecks(packet, frame, step, story, timeline) {
    if (frame.fault) {
        return [check(false, frame.fault, "RFC 8489, 5")];
    }
    if (frame.kind === "channel") {
        return [channel(frame, step, story)];
    }
    if (frame.kind === "bytes") {
        return [];
    }
    if (frame.messageClass === CLASS.INDICATION) {
        return indication(frame, step, story, timeline);
    }
    if (frame.messageClass === CLASS.REQUEST) {
        return [attempt(frame)];
    }
    return [...await response(packet, frame, step, story), ...fingerprint(packet, frame)];
}

/**
 * What the page finds of a packet that was passed in.
 * @param {import("./timeline.js").Timeline} timeline that of the story
 * @param {import("./story.js").Story} story
 * @param {number} index
 * @returns {Promise<Check[]>}
 */
export async function checksOf(timeline, story, index) {
    const step = story.steps[index], { packet } = step;
    if (!packet?.isReceived || step.isDropped) {
        return [];
    }
    const isOver = hasEnded(timeline, madeUpTo(story, index - 1), step.time);
    const over = check(false, "the client had ended before: it takes no message any more", "docs/rattle/MACHINE.md");
    const frames = await Promise.all(packet.frames.map((frame) => frameChecks(packet, frame, step, story, timeline)));
    return [...(isOver ? [over] : []), source(packet, story), ...frames.flat()];
}
