// A step in words, for the ladder and for screen readers.
import { fromField } from "../yarrowdoor/lines/hex.js";
import { seconds } from "./dom.js";
import { dataNote } from "./notes.js";

/** What frames a packet has, each with its note: `Allocate success`, `2 frames: ..`. */
function framesText({ frames }) {
    const titles = frames.map(({ title, note }) => (note ? `${title} ${note}` : title));
    return titles.length > 1 ? `${titles.length} frames: ${titles.join(", ")}` : titles[0] ?? "";
}

/**
 * A text with the IPv6 addresses of lines as RFC 5952 writes them.
 * @param {string} text
 */
export function readable(text) {
    return text.replace(/\[([0-9a-f]{32})\]/g, (_, digits) => new URL(`http://[${digits.match(/.{4}/g).join(":")}]`).hostname);
}

/** The same, with bytes as a count, where they are many. */
export function shortened(text) {
    return readable(text).replace(/\b[0-9a-f]{25,}\b/g, (digits) => `(${digits.length / 2} bytes)`);
}

/**
 * A call or an answer in words, with data of peers as text where it is text.
 * @param {string[]} words a call without its time, or an answer
 */
export function lineText(words) {
    const isData = words.length === 4 && (words[0] === "send" || words[0] === "data"), data = isData && fromField(words[3]);
    return data ? `${shortened(words.slice(0, 3).join(" "))} ${dataNote(data)}` : shortened(words.join(" "));
}

/** An answer in words: times in seconds, data as text where it is text, long bytes as their count. */
export function answerText(answer) {
    if (answer === undefined) {
        return "not made";
    }
    const words = answer.split(" ");
    return words[0] === "wait" ? `wait until ${seconds(BigInt(words[1]))}` : lineText(words);
}

const LOST = "lost on its way";

/**
 * What a step is, and its answer, apart: for a packet the packet, and what came of it.
 * @param {import("./story.js").Shown} step
 */
export function stepText({ name, packet, words, answer, isDropped, isLost }) {
    if (packet?.isReceived) {
        return { what: framesText(packet), answer: isLost ? LOST : isDropped ? "left out" : answerText(answer) };
    }
    if (packet) {
        return { what: `${name === "send" ? "send: " : ""}${framesText(packet)}`, answer: isLost ? LOST : "" };
    }
    return { what: lineText(words.slice(1)), answer: isDropped ? "left out" : answerText(answer) };
}

/**
 * The signs of a step, each with its words: whether it is new or left out, and whether its answer differs.
 * @param {import("./story.js").Shown} step
 * @returns {[string, string][]}
 */
export function signsOf({ isEdited, isDropped, isLost, before, origin }) {
    return [
        ...(isLost ? [["−", LOST]] : isDropped ? [["−", "left out"]] : isEdited ? [["+", origin === undefined ? "new" : "changed"]] : []),
        ...(before === undefined ? [] : [["≠", `differs: it was ${answerText(before)}`]]),
    ];
}

/**
 * All of a step in one sentence.
 * @param {import("./story.js").Shown} step
 */
export function sentence(step) {
    const { what, answer } = stepText(step), { packet } = step;
    const way = !packet ? "" : packet.isReceived ? `received from ${readable(packet.from)}: ` : `sent to ${readable(packet.to)}: `;
    const signs = signsOf(step).map(([, words]) => words).filter((words) => words !== answer).join(", ");
    return [`Step ${step.index + 1}, at ${seconds(step.time)}`, `${way}${what}`, answer, signs].filter(Boolean).join("; ");
}
