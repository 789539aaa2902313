// What is published: package.json names what there is and says nothing that is not so, and the archive has what it needs and no more.
import assert from "node:assert/strict";
import { execFile } from "node:child_process";
import { existsSync } from "node:fs";
import { mkdtemp, readFile, readdir, rm } from "node:fs/promises";
import { createRequire } from "node:module";
import { tmpdir } from "node:os";
import path from "node:path";
import test from "node:test";
import { fileURLToPath } from "node:url";
import { promisify } from "node:util";
import { FOLDER } from "./module.js";

const JS = fileURLToPath(new URL("..", import.meta.url)), TOP = path.dirname(path.resolve(JS)), execute = promisify(execFile);
const manifest = createRequire(import.meta.url)("../package.json");
const hasProgram = (name) => (process.env.PATH ?? "").split(path.delimiter).some((folder) => existsSync(path.join(folder, name)));
const lacking = ["npm", "tsc"].filter((name) => !hasProgram(name));

/** Each object of conditions in `exports`, and each file that it names. */
function walk(entry, conditions = [], files = []) {
    if (typeof entry === "string") {
        files.push(entry);
    } else {
        conditions.push(Object.keys(entry));
        Object.values(entry).forEach((it) => walk(it, conditions, files));
    }
    return { conditions, files };
}

/** The source that a file of the package is made of. */
const sourcesOf = (file) => (file.startsWith("./types/") ? [file.replace("./types/", "./src/").replace(/\.d\.ts$/, ".js")] : [file]);

test("package.json names files that there are, with types before what is run, and says nothing that is not so", () => {
    const { conditions, files } = walk(manifest.exports), named = [...files, manifest.types, ...manifest.sideEffects];
    const missing = named.filter((file) => file !== "./yarrowdoor.wasm" && !sourcesOf(file).every((it) => existsSync(path.join(JS, it))));
    assert.deepEqual(missing, []);
    assert.ok(conditions.every((names) => !names.includes("default") || names.at(-1) === "default"));
    assert.ok(conditions.every((names) => !names.includes("default") || names.includes("types") || names.length === 1));
    assert.ok(files.includes("./package.json") && files.includes("./yarrowdoor.wasm"));
    // there is no public place of the sources yet, nor of reports
    assert.deepEqual(["repository", "bugs", "homepage", "author", "dependencies"].filter((name) => name in manifest), []);
    assert.match(manifest.version, /^\d+\.\d+\.\d+$/);
    assert.equal(manifest.license, "MIT OR Apache-2.0");
});

/** The files below a folder, by their paths in it. */
async function below(folder, name = "") {
    const entries = await readdir(path.join(folder, name), { withFileTypes: true });
    const found = await Promise.all(entries.map((it) => {
        const own = path.posix.join(name, it.name);
        return it.isDirectory() ? below(folder, own) : [own];
    }));
    return found.flat().sort();
}

test("the archive has all that its files import, and nothing else but what it says of itself", { skip: lacking.length > 0 && `${lacking} is missing` }, async () => {
    const room = await mkdtemp(path.join(tmpdir(), "yarrowdoor-package-"));
    try {
        const env = { ...process.env, YARROWDOOR_WASM: FOLDER };
        await execute(path.join(TOP, "tools/build/npm-package"), [room], { env });
        const [archive] = await readdir(room), folder = path.join(room, "package");
        await execute("tar", ["-xzf", archive], { cwd: room });
        const files = await below(folder), isCode = (file) => /^src\/.*\.js$|^types\/.*\.d\.ts$/.test(file);
        assert.deepEqual(files.filter((file) => !isCode(file)), ["LICENSE", "PROOF", "README.md", "SHA256SUMS", "package.json", "yarrowdoor.wasm"]);
        const lost = [];
        for (const file of files.filter(isCode)) {
            const whole = await readFile(path.join(folder, file), "utf8");
            // Comments of the sources name types, which are in types/.
            const text = file.startsWith("src/") ? whole.replace(/\/\*\*.*?\*\//gs, "") : whole;
            for (const [, to] of text.matchAll(/(?:from |import ?\(?)"(\.[^"]*)"/g)) {
                const found = path.posix.join(path.posix.dirname(file), file.startsWith("types/") ? to.replace(/\.js$/, ".d.ts") : to);
                files.includes(found) || lost.push(`${file}: ${to}`);
            }
        }
        assert.deepEqual(lost, []);
        const { scripts, version } = JSON.parse(await readFile(path.join(folder, "package.json"), "utf8"));
        assert.deepEqual([scripts, version.replace("-unproved", "")], [undefined, manifest.version]);
    } finally {
        await rm(room, { recursive: true });
    }
});
