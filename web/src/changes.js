// Edits that take more than the step at which they are made: a signature, and silence.
import { toHex } from "../yarrowdoor/lines/hex.js";
import { linesOfSilence } from "./caller.js";
import { attributeOf } from "./decode.js";
import { BadEdit } from "./edits.js";
import { SIGNERS, canSign, keyOf, signed } from "./integrity.js";
import { requestsBefore, signerOf } from "./requests.js";
import { linesUpTo } from "./story.js";

/**
 * The edit that signs the message of a step as the server would. BadEdit where no key is known, or this page cannot sign.
 * @param {import("./story.js").Story} story
 * @param {number} index
 */
export async function signingEdit(story, index) {
    const { packet } = story.steps[index], signer = signerOf(requestsBefore(story, index));
    if (!signer || !canSign()) {
        throw new BadEdit(signer ? "this page signs only over https or from this machine"
            : "no key is known before the client has signed a request");
    }
    const key = await keyOf(story.settings, signer.realm, signer.algorithm);
    const field = attributeOf(packet.frames[0], SIGNERS[signer.algorithm].type);
    return `bytes ${index} ${toHex(await signed(packet.bytes, field?.start, key, signer.algorithm))}`;
}

/**
 * The edits by which nothing comes for so many nanoseconds behind a step, and the step that is the last of them.
 * @param {import("../yarrowdoor/src/library.js").Library} library
 * @param {import("./story.js").Story} story
 * @param {number} index
 * @param {bigint} duration
 */
export function silenceEdits(library, story, index, duration) {
    const lines = linesOfSilence(library, story.head, linesUpTo(story, index), story.steps[index].time, duration);
    const later = index + 1 < story.steps.length ? [`later ${index + 1} ${duration}`] : [];
    return { edits: [...later, ...lines.map((line, at) => `add ${index + 1 + at} ${line}`)], step: index + lines.length };
}
