// The defaults of a relay are those in the table of docs/CONCEPTS.md.
import assert from "node:assert/strict";
import { readFileSync } from "node:fs";
import test from "node:test";
import { checkOptions } from "../src/node/options.js";

const page = readFileSync(new URL("../../docs/CONCEPTS.md", import.meta.url), "utf8").split("## Defaults")[1];

/** What the page says in a row of its defaults, in the column of a relay in JavaScript. */
function onPage(row) {
    const cells = (line) => line.split("|").slice(1, -1).map((cell) => cell.trim()), lines = page.split("\n");
    const column = cells(lines.find((line) => line.startsWith("| | Rattle"))).indexOf("JavaScript `Relay`");
    return cells(lines.find((line) => line.startsWith(`| ${row} |`)))[column];
}

const DEFAULTS = checkOptions({ urls: "turn:127.0.0.1" });
const SAME = [
    ["pause between two requests", String(DEFAULTS.pause / 1_000)],
    ["keepalive", String(DEFAULTS.keepalive / 1_000)],
    ["refresh ahead", String(DEFAULTS.refreshAhead / 1_000)],
    ["challenges in a row", String(DEFAULTS.maxStaleNonces)],
    ["family of the relayed address", `IPv${DEFAULTS.family}`],
    ["waiting packets of peers", DEFAULTS.queue.toLocaleString("en-US")],
];

for (const [row, value] of SAME) {
    test(`the page's default: ${row}`, () => assert.equal(value, onPage(row)));
}
