// Clients of the module that have made the calls of a run, or its first ones.
import { answerTo } from "../yarrowdoor/lines/answers.js";
import { parseCall, parseHead } from "../yarrowdoor/lines/lines.js";
import { Client } from "../yarrowdoor/src/client.js";

/**
 * A client after these lines, and what it answered to each. Close it. BadLine.
 * @param {import("../yarrowdoor/src/library.js").Library} library
 * @param {string} head
 * @param {readonly string[]} lines
 */
export function clientAfter(library, head, lines) {
    const settings = parseHead(head), calls = lines.map((line) => parseCall(line, settings));
    const client = new Client(settings, library);
    try {
        return { client, answers: calls.map((call) => answerTo(client, call)) };
    } catch (error) {
        client.close();
        throw error;
    }
}

/**
 * What a new client answers to these lines, one by one. BadLine.
 * @param {import("../yarrowdoor/src/library.js").Library} library
 * @param {string} head
 * @param {readonly string[]} lines
 */
export function answersTo(library, head, lines) {
    const { client, answers } = clientAfter(library, head, lines);
    client.close();
    return answers;
}
