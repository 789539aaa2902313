// The edits of a run. Each is a line of words, so that a list of them stands in a link:
//
//     set STEP PLACE BYTES    these bytes stand at a place of the packet      drop STEP         the step is not made
//     bytes STEP BYTES        the packet has these bytes                      repeat STEP       it is made once more, at once
//     cut STEP PLACE          the piece of a stream comes in two              swap STEP         it changes places with the next one
//     delay STEP TIME         it alone comes later, behind others             later STEP TIME   it and all behind it come later
//     line STEP LINE          it is another call                              add STEP LINE     a call before this step
//     seed DIGITS             the client has another seed
//
// STEP counts all steps from 0 on, also those that were dropped, and is the number of steps for the place behind them. A link is
// written by anybody: an edit that is none, or does not fit the run, is a BadEdit, and never changes a run halfway.
import { fromField, fromHex, toField } from "../yarrowdoor/lines/hex.js";
import { BadLine, parseCall, parseHead } from "../yarrowdoor/lines/lines.js";

/**
 * A step of a run: its line, the number of the step of the original run that it was, if it was one, and whether it is left out.
 * @typedef {{ readonly line: string, readonly origin?: number, readonly isDropped?: boolean }} Step
 */
/** @typedef {{ readonly head: string, readonly steps: readonly Step[] }} Run */

/** An edit that is none, or that does not fit the run. */
export class BadEdit extends Error {}

/** A run has at most so many steps, as a trace has. */
export const MAX_STEPS = 10_000;
const MAX_TIME = 2n ** 62n;

/** @type {(why: string) => never} */
function bad(why) {
    throw new BadEdit(why);
}

/** @param {string} line */
export const timeOf = (line) => BigInt(line.slice(0, line.indexOf(" ")));

/**
 * The line at another time.
 * @param {string} line
 * @param {bigint} time
 */
export function atTime(line, time) {
    return time >= 0n && time <= MAX_TIME ? `${time}${line.slice(line.indexOf(" "))}` : bad(`there is no time ${time}`);
}

/** The bytes of a line that passes some in or sends some. */
export function bytesOfLine(line) {
    const words = line.split(" ");
    return words[1] === "recv" ? fromField(words[5] ?? "") : words[1] === "send" ? fromField(words[4] ?? "") : undefined;
}

/** The line with other bytes. */
export function withBytes(line, bytes) {
    return [...line.split(" ").slice(0, -1), toField(bytes)].join(" ");
}

function replaced(run, at, ...steps) {
    return { ...run, steps: [...run.steps.slice(0, at), ...steps, ...run.steps.slice(at + 1)] };
}

function inserted(run, at, step) {
    return { ...run, steps: [...run.steps.slice(0, at), step, ...run.steps.slice(at)] };
}

/** A step that is there and is made. */
function stepAt(run, word) {
    const at = placeOf(word, run.steps.length - 1), step = run.steps[at];
    return step.isDropped ? bad(`step ${at + 1} is left out`) : { at, step };
}

function placeOf(word, most) {
    return /^[0-9]{1,7}$/.test(word ?? "") && Number(word) <= most ? Number(word) : bad(`there is no place ${word}`);
}

function packetAt(run, word) {
    const { at, step } = stepAt(run, word), bytes = bytesOfLine(step.line);
    return bytes ? { at, step, bytes } : bad(`step ${at + 1} has no bytes`);
}

const digits = (text) => fromField(text ?? "") ?? bad("bytes are hexadecimal digits");
const time = (text) => (/^[0-9]{1,19}$/.test(text ?? "") ? BigInt(text) : bad(`there is no time ${text}`));

function checkedLine(run, line) {
    try {
        parseCall(line, parseHead(run.head));
    } catch (error) {
        bad(error instanceof BadLine ? error.message : String(error));
    }
    return line;
}

/** The run in which one step comes later: behind those that come before its new time. */
function delayed(run, at, step, by) {
    const line = atTime(step.line, timeOf(step.line) + by);
    const without = { ...run, steps: run.steps.filter((_, other) => other !== at) };
    const behind = without.steps.slice(at).findIndex((other) => timeOf(other.line) > timeOf(line));
    return inserted(without, behind < 0 ? without.steps.length : at + behind, { ...step, line });
}

function cut(run, { at, step, bytes }, word) {
    const place = placeOf(word, bytes.length - 1), [, , way] = step.line.split(" ");
    if (place === 0 || way !== "tcp" || !step.line.includes(" recv ")) {
        bad("only what came over TCP is cut, between two of its bytes");
    }
    const [front, rest] = [bytes.slice(0, place), bytes.slice(place)].map((part) => withBytes(step.line, part));
    // A caller calls poll_recv after each piece of a stream.
    return replaced(run, at, { line: front }, { line: `${timeOf(step.line)} poll_recv` }, { ...step, line: rest });
}

/** The run in which a step and the next one have changed places; each place keeps its time. */
function swapped(run, at, step) {
    const next = run.steps.findIndex((other, place) => place > at && !other.isDropped);
    const other = run.steps[next] ?? bad("there is no next step");
    const moved = (one, to) => ({ ...one, line: atTime(one.line, timeOf(to.line)) });
    return replaced(replaced(run, at, moved(other, step)), next, moved(step, other));
}

function set(run, { at, step, bytes }, word, value) {
    const place = placeOf(word, bytes.length - value.length), found = bytes.slice();
    found.set(value, place);
    return replaced(run, at, { ...step, line: withBytes(step.line, found) });
}

function laterFrom(run, at, by) {
    return { ...run, steps: run.steps.map((step, place) => (place < at ? step
        : { ...step, line: atTime(step.line, timeOf(step.line) + by) })) };
}

function withSeed(run, text) {
    const words = run.head.split(" ");
    words[9] = fromHex(text ?? "")?.length === 32 ? text : bad("a seed is 64 hexadecimal digits");
    return { ...run, head: words.join(" ") };
}

const EDITS = {
    set: (run, [step, place, bytes]) => set(run, packetAt(run, step), place, digits(bytes)),
    bytes: (run, [step, bytes]) => {
        const { at, step: before } = packetAt(run, step);
        return replaced(run, at, { ...before, line: checkedLine(run, withBytes(before.line, digits(bytes))) });
    },
    drop: (run, [word]) => (({ at, step }) => replaced(run, at, { ...step, isDropped: true }))(stepAt(run, word)),
    repeat: (run, [word]) => (({ at, step }) => inserted(run, at + 1, { line: step.line }))(stepAt(run, word)),
    swap: (run, [word]) => (({ at, step }) => swapped(run, at, step))(stepAt(run, word)),
    delay: (run, [word, by]) => (({ at, step }) => delayed(run, at, step, time(by)))(stepAt(run, word)),
    later: (run, [word, by]) => laterFrom(run, placeOf(word, run.steps.length), time(by)),
    cut: (run, [word, place]) => cut(run, packetAt(run, word), place),
    line: (run, [word, ...line]) => {
        const { at, step } = stepAt(run, word);
        return replaced(run, at, { ...step, line: checkedLine(run, line.join(" ")) });
    },
    add: (run, [word, ...line]) => inserted(run, placeOf(word, run.steps.length), { line: checkedLine(run, line.join(" ")) }),
    seed: (run, [text]) => withSeed(run, text),
};

/**
 * The run with an edit. BadEdit.
 * @param {Run} run
 * @param {string} edit
 * @returns {Run}
 */
export function edited(run, edit) {
    const [name, ...words] = edit.split(" ");
    const found = Object.hasOwn(EDITS, name) ? EDITS[name](run, words) : bad(`there is no edit ${name}`);
    return found.steps.length <= MAX_STEPS ? found : bad(`a run has at most ${MAX_STEPS} steps`);
}
