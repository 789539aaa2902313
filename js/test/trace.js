// A whole trace (docs/rattle/LINES.md, section Traces): its head and its calls, or what is wrong with it.
import { BadLine, parseCall, parseHead } from "../lines/lines.js";

const MAX_TRACE = 1_048_576, MAX_CALLS = 10_000;

function callOf(line, head, before) {
    if (before === MAX_CALLS) {
        throw new BadLine("bad size");
    }
    return parseCall(line, head);
}

/** The head and the calls of a trace, and, where a line is bad, what is printed for it. */
export function parseTrace(text) {
    const [first, ...lines] = text.replace(/\n$/, "").split("\n"), calls = [];
    let head;
    if (text.length > MAX_TRACE) {
        return { calls, bad: "line 0: bad size" };
    }
    try {
        head = parseHead(first);
        lines.forEach((line) => calls.push(callOf(line, head, calls.length)));
        return { head, calls };
    } catch (error) {
        if (!(error instanceof BadLine)) {
            throw error;
        }
        return { head, calls, bad: `line ${head ? calls.length + 2 : 1}: ${error.message}` };
    }
}
