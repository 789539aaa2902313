// The traces of the repository and drawn ones, line by line: the client answers what turn_replay does, also in place.
import assert from "node:assert/strict";
import { readFile, readdir } from "node:fs/promises";
import path from "node:path";
import test from "node:test";
import { library } from "./module.js";
import { IN_PLACE, replay } from "./replay.js";

/** A folder with `traces`, which include/tests/traces.py draws, and `wanted`, what turn_replay answers to each. */
const FOLDER = process.env.YARROWDOOR_TRACES;

test("each trace gets what turn_replay answers", { skip: FOLDER ? false : "YARROWDOOR_TRACES names no folder" }, async (t) => {
    const own = await library(), names = (await readdir(path.join(FOLDER, "traces"))).sort();
    let lines = 0;
    for (const name of names) {
        const [trace, wanted] = await Promise.all(["traces", "wanted"].map((kind) => readFile(path.join(FOLDER, kind, name), "latin1")));
        const found = replay(own, trace);
        assert.equal(found, wanted, name);
        assert.equal(replay(own, trace, IN_PLACE), wanted, `${name}, in place`);
        lines += wanted.split("\n").length - 1;
    }
    assert.ok(names.length >= 250, `${names.length} traces`);
    t.diagnostic(`${names.length} traces, ${lines} lines`);
});
