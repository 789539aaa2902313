// The types of the package, as a program in TypeScript has them: what is right compiles, and what is wrong does not. The reference
// that is made of them shows all of them.
//
// Node's own types are those of Debian (nodejs), installed, or unpacked in YARROWDOOR_BUNDLERS.
import assert from "node:assert/strict";
import { execFile } from "node:child_process";
import { existsSync } from "node:fs";
import { cp, mkdtemp, readFile, rm, writeFile } from "node:fs/promises";
import { tmpdir } from "node:os";
import path from "node:path";
import test, { after, before } from "node:test";
import { fileURLToPath } from "node:url";
import * as yarrowdoor from "../src/node/index.js";

const JS = fileURLToPath(new URL("..", import.meta.url));
const NODE = path.join(process.env.YARROWDOOR_BUNDLERS ?? "/", "usr/share/nodejs/@types"), PROGRAMS = ["use.ts", "wrong.ts"];
const OPTIONS = { target: "es2022", module: "es2022", moduleResolution: "node", strict: true, noEmit: true };
const hasTsc = (process.env.PATH ?? "").split(path.delimiter).some((folder) => existsSync(path.join(folder, "tsc")));
const skip = !hasTsc && "tsc is missing";
let room;

/** What a command prints, and how it ends. */
function run(command, words) {
    return new Promise((resolve) => execFile(command, words, (error, stdout) => resolve({ status: error?.code ?? 0, stdout })));
}

/** What tsc says of the programs and of the package's types. What it says of Node's types is not the package's. */
async function faultsOf(files, options) {
    const project = path.join(room, "tsconfig.json");
    await writeFile(project, JSON.stringify({ compilerOptions: { ...OPTIONS, ...options }, files }));
    const { stdout } = await run("tsc", ["-p", project]);
    return stdout.split("\n").filter((line) => /^(types|checks)\//.test(path.relative(room, path.resolve(line))) || line.startsWith("error"));
}

before(async () => {
    room = await mkdtemp(path.join(tmpdir(), "yarrowdoor-types-"));
    if (hasTsc) {
        await cp(path.join(JS, "checks"), path.join(room, "checks"), { recursive: true });
        const { status, stdout } = await run("sh", [path.join(JS, "checks/types.sh"), path.join(room, "types")]);
        assert.deepEqual([status, stdout], [0, ""]);
    }
});

after(() => rm(room, { recursive: true }));

test("a program compiles, and a wrong one does not: names of events, units of times, what is inside of a library", { skip }, async () => {
    const files = [...PROGRAMS, "node.d.ts"].map((name) => `checks/${name}`);
    assert.deepEqual(await faultsOf(files, { lib: ["es2022", "dom"], types: [] }), []);
});

const hasNode = existsSync(path.join(NODE, "node/index.d.ts"));
test("the same with Node's own types, and without those of browsers", { skip: skip || (!hasNode && `${NODE}/node is missing`) }, async () => {
    const options = { lib: ["es2022"], typeRoots: [NODE], types: ["node"] };
    assert.deepEqual(await faultsOf(PROGRAMS.map((name) => `checks/${name}`), options), []);
});

test("the client without I/O needs no types of Node", { skip }, async () => {
    await writeFile(path.join(room, "checks/page.ts"), 'export { Client, Library, Poll, Settings } from "../types/index";\n');
    assert.deepEqual(await faultsOf(["checks/page.ts"], { lib: ["es2022", "dom"], types: [] }), []);
});

test("the reference shows each export and each call that README lists, and each of its links leads somewhere", { skip }, async () => {
    await cp(path.join(JS, "package.json"), path.join(room, "package.json"));
    const { status, stdout: page } = await run(path.join(JS, "../tools/draw/pages/declarations"), [room, "0.1.0"]);
    assert.equal(status, 0);
    const shown = new Set([...page.matchAll(/<section id="(.*?)"/g)].map(([, id]) => id));
    assert.deepEqual(Object.keys(yarrowdoor).filter((name) => !shown.has(`yarrowdoor.${name}`)), []);
    const links = [...page.matchAll(/href="#(.*?)"/g)].map(([, id]) => id);
    assert.deepEqual(links.filter((id) => !shown.has(id)), []);
    const readme = await readFile(path.join(JS, "README.md"), "utf8"), [, list] = readme.split("\nThe calls are\n");
    const calls = [...list.split("\nFor `await using`")[0].matchAll(/`(\w+)\(/g)].map(([, name]) => name);
    assert.ok(calls.includes("send") && calls.includes("close"));
    const codes = [...page.matchAll(/<pre>(.*?)<\/pre>/gs)].map(([, code]) => code).join("\n");
    assert.deepEqual(calls.filter((name) => !new RegExp(`(^ *|function )${name}\\(`, "m").test(codes)), []);
});
