// Each memory allocation of traces is refused, one after the other: an ordinary answer, after which the client is valid.
import assert from "node:assert/strict";
import { readFile, readdir } from "node:fs/promises";
import path from "node:path";
import test from "node:test";
import { answerTo } from "../lines/answers.js";
import { Client, OutOfMemory } from "../src/index.js";
import { HANDSHAKE } from "./handshake.js";
import { testLibrary } from "./module.js";
import { parseTrace } from "./trace.js";

const FOLDER = process.env.YARROWDOOR_TRACES, MOST_TRACES = 40, MOST_LINES = 80;

/** Makes the calls of a trace, and says how many were told that there is no memory. Where making the client is, it is made again. */
function run(library, exports, { head, calls }, which) {
    let told = 0, client;
    exports.refuse(which);
    try {
        client = new Client(head, library);
    } catch (error) {
        assert.ok(error instanceof OutOfMemory, error);
        told++;
        client = new Client(head, library);
    }
    for (const call of calls) {
        if (answerTo(client, call) === "no memory") {
            told++;
            client.poll(call.now); // it is valid
        }
    }
    client.close();
    return told;
}

/** Refuses one allocation after the other, and says how many there were. */
function refuseEach(library, exports, trace) {
    let refused = 0;
    for (let which = 1; ; which++) {
        const told = run(library, exports, trace, which);
        if (exports.refuse_left() !== 0) {
            assert.equal(told, 0);
            exports.refuse(0);
            return refused;
        }
        assert.ok(told <= 1, `allocation ${which} is told ${told} times`);
        refused += told;
    }
}

/** Whether there can be such a client: some traces are of bad heads. */
function isGood(library, { head, bad }) {
    if (bad) {
        return false;
    }
    try {
        new Client(head, library).close();
        return true;
    } catch {
        return false;
    }
}

async function traces() {
    if (!FOLDER) {
        return [HANDSHAKE];
    }
    const names = (await readdir(path.join(FOLDER, "traces"))).filter((name) => name.startsWith("repository")).sort();
    const texts = await Promise.all(names.map((name) => readFile(path.join(FOLDER, "traces", name), "latin1")));
    return [HANDSHAKE, ...texts.filter((text) => text.split("\n").length <= MOST_LINES)];
}

test("each allocation is refused in turn, and nothing leaks", async (t) => {
    const { exports, library } = await testLibrary();
    let refused = 0, count = 0;
    for (const text of await traces()) {
        const trace = parseTrace(text);
        if (count < MOST_TRACES && isGood(library, trace)) {
            refused += refuseEach(library, exports, trace);
            count++;
        }
    }
    const before = library.memorySize;
    refuseEach(library, exports, parseTrace(HANDSHAKE));
    assert.equal(library.memorySize, before);
    assert.ok(refused >= 5, `${refused} allocations`);
    t.diagnostic(`${refused} allocations of ${count} traces were refused`);
});
