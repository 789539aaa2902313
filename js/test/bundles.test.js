// Bundles of the package for browsers and for Node, by the bundlers of Debian, and what comes of them where they run.
//
// YARROWDOOR_BUNDLERS is the folder in which the packages esbuild, webpack and rollup are unpacked, where they are not installed.
import assert from "node:assert/strict";
import { execFile, execFileSync, spawn } from "node:child_process";
import { existsSync } from "node:fs";
import { cp, mkdir, mkdtemp, readFile, rm, writeFile } from "node:fs/promises";
import http from "node:http";
import { tmpdir } from "node:os";
import path from "node:path";
import test, { after, before } from "node:test";
import { fileURLToPath } from "node:url";
import { promisify } from "node:util";
import { Client } from "../src/index.js";
import { FOLDER, library } from "./module.js";
import { udp, urlOf, withServer } from "./relays.js";
import { PASSWORD, RELAYED, USER } from "./server.js";

const ROOT = process.env.YARROWDOOR_BUNDLERS ?? "/", JS = fileURLToPath(new URL("..", import.meta.url)), MOST_TIME = 60_000;
const MODULES = path.join(ROOT, "usr/share/nodejs"), execute = promisify(execFile);
const NO_SOURCE = "const source = undefined;", env = { ...process.env, NODE_PATH: MODULES };

/** Each bundler: a file of it, how it is run, and how a program has the bytes of the module. */
const BUNDLERS = {
    esbuild: {
        file: path.join(ROOT, "usr/bin/esbuild"), source: { web: 'import source from "yarrowdoor/yarrowdoor.wasm";' },
        words: (entry, out, platform) => [entry, "--bundle", `--outfile=${out}`, "--loader:.wasm=binary", "--log-override:empty-import-meta=silent",
            `--platform=${platform === "web" ? "browser" : "node"}`],
    },
    webpack: {
        file: path.join(MODULES, "webpack/package.json"), source: { web: NO_SOURCE, node: NO_SOURCE }, // its command asks questions
        words: (entry, out, platform) => [path.join(room, "webpack.cjs"), entry, path.dirname(out), path.basename(out), platform],
    },
    rollup: {
        file: path.join(MODULES, "@rollup/plugin-node-resolve/package.json"),
        source: { web: 'const source = new URL("yarrowdoor.wasm", location.href);' },
        words: (entry, out, platform) => [path.join(MODULES, "rollup/dist/bin/rollup"), "--config", path.join(room, `${platform}.config.cjs`), "--input", entry, "--file", out],
    },
};
BUNDLERS.esbuild.source.node = BUNDLERS.esbuild.source.web;
BUNDLERS.rollup.source.node = 'const source = require("node:path").join(__dirname, "yarrowdoor.wasm");';

const SETTINGS = {
    local: { address: "10.0.0.1", port: 5000 }, remote: { address: "10.0.0.2", port: 3478 }, username: "user", credential: "pass",
    algorithms: ["sha1"],
};
const PAGE = `import { Client, Library } from "yarrowdoor/client";
async function main() {
    const client = new Client({ ...${JSON.stringify(SETTINGS)}, seed: new Uint8Array(32) }, await Library.load({ source }));
    return Array.from(client.pollTransmit(0).data, (byte) => byte.toString(16).padStart(2, "0")).join("");
}
main().then((text) => fetch("result?" + text), (error) => fetch("result?" + encodeURIComponent(error.stack)));
`;
/** Debian's webpack asks for what only Debian's node knows. */
const WEBPACK = `const variables = { node_relative_path: "share/nodejs", node_prefix: "/usr", ...process.config.variables };
Object.defineProperty(process, "config", { value: { ...process.config, variables } });
const [entry, path, filename, target] = process.argv.slice(2);
require("webpack")({ entry, output: { path, filename }, target, mode: "production" }, (error, stats) => {
    if (error || stats.hasErrors()) {
        throw error ?? new Error(stats.toString());
    }
});
`;
const PROGRAM = `import { Library, Relay } from "yarrowdoor";
async function main() {
    const [urls, username, credential] = process.argv.slice(2), library = await Library.load({ source });
    const relay = await Relay.open({ urls, username, credential, library });
    console.log(relay.address().port);
    await relay.close();
}
main();
`;

/** Runs a command that gets no input. */
function run(command, words, options) {
    const running = execute(command, words, { timeout: MOST_TIME, ...options });
    running.child.stdin.end();
    return running;
}

let room, server;
const results = new Map(); // of pages, by their folders

/** Why a bundler is not run, or false. */
const skipOf = ({ file }) => (existsSync(file) ? false : `${file} is missing`);
const hasChromium = (() => {
    try {
        return Boolean(execFileSync("sh", ["-c", "command -v chromium"]));
    } catch {
        return false;
    }
})();

/** Puts the package, as it is installed, and settings of rollup into a folder. */
async function install() {
    const own = path.join(room, "node_modules/yarrowdoor"), wasm = path.join(FOLDER, "yarrowdoor.wasm");
    await mkdir(own, { recursive: true });
    await Promise.all(["src", "package.json"].map((name) => cp(path.join(JS, name), path.join(own, name), { recursive: true })));
    await cp(wasm, path.join(own, "yarrowdoor.wasm"));
    await writeFile(path.join(room, "webpack.cjs"), WEBPACK);
    for (const [platform, options] of [["web", "{ browser: true }"], ["node", '{ exportConditions: ["node"] }']]) {
        const text = `const { nodeResolve } = require("@rollup/plugin-node-resolve");
module.exports = { plugins: [nodeResolve(${options})], external: /^node:/, output: { format: "${platform === "web" ? "iife" : "cjs"}" } };\n`;
        await writeFile(path.join(room, `${platform}.config.cjs`), text);
    }
}

/** Bundles a program, and gives the file. */
async function bundle(name, platform, program) {
    const { file, words, source } = BUNDLERS[name], folder = path.join(room, `${name}-${platform}`);
    const entry = path.join(room, `${name}-${platform}.js`), out = path.join(folder, platform === "web" ? "bundle.js" : "bundle.cjs");
    await mkdir(folder);
    await writeFile(entry, `${source[platform]}\n${program}`.replace(/^(const source.*)\n(import .*)/, "$2\n$1"));
    name === "rollup" && (await cp(path.join(FOLDER, "yarrowdoor.wasm"), path.join(folder, "yarrowdoor.wasm")));
    await run(name === "esbuild" ? file : process.execPath, words(entry, out, platform), { cwd: room, env });
    return out;
}

/** Serves the pages, and takes what they say. */
async function serve(request, response) {
    const { pathname, search } = new URL(request.url, "http://localhost"), [, folder, name = "none"] = pathname.split("/");
    const types = { "bundle.js": "text/javascript", "": "text/html" };
    if (name === "result") {
        results.get(folder)(decodeURIComponent(search.slice(1)));
        response.end();
    } else if (name === "") {
        response.setHeader("content-type", "text/html").end('<!doctype html><meta charset="utf-8"><script src="bundle.js"></script>');
    } else {
        const bytes = await readFile(path.join(room, folder, name)).catch(() => undefined);
        response.setHeader("content-type", types[name] ?? "application/wasm").writeHead(bytes ? 200 : 404).end(bytes);
    }
}

/** What a page in Chromium says. */
async function openInChromium(folder) {
    const said = new Promise((resolve) => results.set(folder, resolve));
    const words = ["--headless", "--no-sandbox", "--disable-gpu", "--disable-dev-shm-usage", "--remote-debugging-port=0",
        `--user-data-dir=${path.join(room, "chromium")}`, `http://127.0.0.1:${server.address().port}/${folder}/`];
    const chromium = spawn("chromium", words, { stdio: "ignore", detached: true });
    const late = new Promise((_, reject) => setTimeout(reject, MOST_TIME, new Error("the page says nothing")).unref());
    try {
        return await Promise.race([said, late]);
    } finally {
        const ended = new Promise((resolve) => chromium.once("exit", resolve));
        process.kill(-chromium.pid, "SIGKILL");
        await ended;
    }
}

before(async () => {
    room = await mkdtemp(path.join(tmpdir(), "yarrowdoor-bundles-"));
    await install();
    server = http.createServer(serve);
    await new Promise((resolve) => server.listen(0, "127.0.0.1", resolve));
});

after(async () => {
    server.closeAllConnections();
    server.close();
    await rm(room, { recursive: true, maxRetries: 5 });
});

for (const [name, bundler] of Object.entries(BUNDLERS)) {
    const skip = skipOf(bundler), isUnseen = !hasChromium && "chromium is missing";
    test(`a bundle by ${name} for a browser has nothing of Node, and runs in Chromium`, { skip: skip || isUnseen }, async () => {
        const text = await readFile(await bundle(name, "web", PAGE), "utf8");
        assert.doesNotMatch(text, /node:|require\(/);
        const client = new Client({ ...SETTINGS, seed: new Uint8Array(32) }, await library());
        assert.equal(await openInChromium(`${name}-web`), Buffer.from(client.pollTransmit(0).data).toString("hex"));
        client.close();
    });

    test(`a bundle by ${name} for Node opens a relay`, { skip }, async () => {
        const file = await bundle(name, "node", PROGRAM);
        await withServer(udp, async (turn) => {
            const { stdout } = await run(process.execPath, [file, urlOf(turn), USER, PASSWORD]);
            assert.equal(stdout, `${RELAYED.port}\n`);
        }, null);
    });
}

test("a bundle that does not find its module says what to do", { skip: skipOf(BUNDLERS.esbuild) }, async () => {
    const entry = path.join(room, "lost.mjs"), out = path.join(room, "lost/bundle.mjs");
    await writeFile(entry, 'import { Library } from "yarrowdoor/client";\nLibrary.load().catch((error) => console.log(error.reason, error.message));\n');
    await run(BUNDLERS.esbuild.file, [entry, "--bundle", "--platform=node", "--format=esm", `--outfile=${out}`], { cwd: room });
    const { stdout } = await run(process.execPath, [out]);
    assert.match(stdout, /^library the module cannot be loaded: ENOENT.*pass in the bytes of yarrowdoor\/yarrowdoor\.wasm/);
});
