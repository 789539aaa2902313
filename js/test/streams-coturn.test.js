// Streams to peers through coturn, over TCP and TLS: echoes, peers that connect, refusals, and ends.
import assert from "node:assert/strict";
import { execFile } from "node:child_process";
import { randomBytes } from "node:crypto";
import { readFileSync, writeFileSync } from "node:fs";
import net from "node:net";
import path from "node:path";
import test, { after, before } from "node:test";
import tls from "node:tls";
import { promisify } from "node:util";
import { Relay } from "../src/node/index.js";
import { library } from "./module.js";
import { next, until } from "./relays.js";
import { Servers, freePort, listens, serves, skip } from "./turnserver.js";

/** So much comes back: over TLS coturn stops reading where megabytes are under way. */
// coturn stops reading a stream that it cannot write at once: both ways at a time carry less than its buffers hold.
const SIZE = 1_000_000, ECHOED = 100_000, SMALL = 16_384;
const servers = new Servers();
let ports, echo;

/** A server of peers, which does something with each connection. */
async function peers(serve) {
    const listener = net.createServer((socket) => {
        socket.on("error", () => {});
        serve(socket);
    });
    await new Promise((resolve) => listener.listen(0, "127.0.0.1", resolve));
    listener.unref();
    return { listener, port: listener.address().port };
}

before(async () => {
    if (skip) {
        return;
    }
    servers.certify();
    ports = { plain: await freePort(), secure: await freePort() };
    servers.start("server", ports.plain, ["--no-dtls", "--tls-listening-port", String(ports.secure), "--cert", servers.cert, "--pkey",
        servers.key]);
    echo = await peers((socket) => socket.pipe(socket));
    await Promise.all([serves(ports.plain), listens(ports.secure)]);
});

after(() => {
    servers.close();
    echo?.listener.close();
});

const open = async (options) => Relay.open({ urls: `turn:127.0.0.1:${ports.plain}?transport=tcp`, username: "user", credential: "pass",
    allocation: "tcp", library: await library(), ...options });
const ways = () => ({
    TCP: {}, TLS: { urls: `turns:localhost:${ports.secure}`, tls: { ca: readFileSync(servers.cert) } },
});

for (const [name, size] of [["TCP", ECHOED], ["TLS", SMALL]]) {
    test(`${size} bytes come back whole over ${name}`, { skip }, async (context) => {
        const secured = context.mock.method(tls, "connect"), isSecure = name === "TLS";
        const relay = await open(ways()[name]), stream = await relay.connect(echo.port, "127.0.0.1"), sent = randomBytes(size), came = [];
        assert.deepEqual([stream.remoteAddress, stream.remotePort, stream.remoteFamily], ["127.0.0.1", echo.port, "IPv4"]);
        assert.deepEqual({ address: stream.localAddress, port: stream.localPort, family: "IPv4" }, relay.address());
        stream.on("data", (piece) => came.push(piece)).write(sent);
        await until(() => came.reduce((sum, { length }) => sum + length, 0) >= size);
        assert.ok(Buffer.concat(came).equals(sent));
        assert.deepEqual(secured.mock.calls.map((call) => call.arguments[0].ca !== undefined), isSecure ? [true, true] : []);
        await relay.close();
    });
}

test("a peer that connects is an event, once it is permitted", { skip }, async () => {
    const relay = await open(), { address, port } = relay.address(), told = [];
    relay.on("connection", (stream) => told.push(stream));
    const early = net.connect(port, address).on("error", () => {});
    await next(early, "close");
    assert.equal(told.length, 0);
    await relay.permit("127.0.0.1");
    const peer = net.connect(port, address);
    await until(() => told.length === 1);
    const [stream] = told;
    assert.deepEqual([stream.remoteAddress, stream.remotePort], ["127.0.0.1", peer.localPort]);
    stream.pipe(stream);
    stream.on("error", () => {}); // coturn ends it by a reset
    peer.write("to and fro");
    assert.equal(String((await next(peer, "data"))[0]), "to and fro");
    peer.destroy();
    await next(stream, "close");
    await relay.close();
});

test("a peer that refuses is named with coturn's code, and one that coturn forbids", { skip }, async () => {
    const relay = await open(), nobody = await freePort();
    await assert.rejects(relay.connect(nobody, "127.0.0.1"), { name: "ConnectFailed", reason: "connect-failed", errorCode: 447 });
    await assert.rejects(relay.connect(9, "0.0.0.1"), { name: "PermissionFailed", errorCode: 403 });
    const stream = await relay.connect(echo.port, "127.0.0.1");
    await assert.rejects(relay.connect(echo.port, "127.0.0.1"), { reason: "already-exists" });
    stream.destroy();
    await relay.close();
});

test("what was written before end, or before the relay is closed, arrives whole", { skip }, async () => {
    for (const ends of [async (relay, stream) => next(stream.end(), "close"), async (relay) => relay.close()]) {
        let size = 0, isOver = false;
        const counting = await peers((socket) => socket.on("data", (data) => (size += data.length)).on("close", () => (isOver = true)));
        const relay = await open(), stream = await relay.connect(counting.port, "127.0.0.1");
        stream.write(Buffer.alloc(2 * SIZE));
        await ends(relay, stream);
        await until(() => isOver);
        assert.equal(size, 2 * SIZE);
        await relay.close();
        counting.listener.close();
    }
});

test("a connect that the relay's end meets ends with it", { skip }, async () => {
    const relay = await open();
    await relay.permit("127.0.0.1");
    const connecting = assert.rejects(relay.connect(echo.port, "127.0.0.1"), { reason: "ended" });
    await new Promise((resolve) => setImmediate(resolve)); // the CONNECT leaves
    await relay.close();
    await connecting;
    await assert.rejects(relay.connect(echo.port, "127.0.0.1"), { reason: "ended" });
});

test("the program of README.md prints what it says", { skip }, async () => {
    const text = readFileSync(new URL("../README.md", import.meta.url), "utf8"), [, part] = text.split("\n### Streams\n");
    const [, program] = /```js\n(.*?)```/s.exec(part), [, said] = /It prints `(.*?)`/.exec(part), file = path.join(servers.room, "streams.mjs");
    const at = (name) => JSON.stringify(new URL(name, import.meta.url).href), port = await freePort();
    writeFileSync(file, `import { library } from ${at("module.js")};\n${program.replace('"yarrowdoor"', at("../src/node/index.js"))
        .replace("3478", ports.plain).replaceAll("3480", port).replace('allocation: "tcp"', '$&, library: await library()')}`);
    const { stdout } = await promisify(execFile)(process.execPath, [file], { timeout: 20_000 });
    assert.equal(stdout.trim(), said.replace("3480", port));
});

test("a coturn that is killed ends the stream and the relay", { skip, timeout: 20_000 }, async () => {
    const port = await freePort(), server = servers.start("killed", port, []);
    await serves(port);
    const relay = await open({ urls: `turn:127.0.0.1:${port}?transport=tcp` }), stream = await relay.connect(echo.port, "127.0.0.1");
    const ended = next(relay, "error"), closed = next(stream.on("error", () => {}).resume(), "close");
    const writing = setInterval(() => stream.writable && stream.write("x"), 5).unref();
    await next(stream, "data");
    server.kill("SIGKILL");
    const [error] = await ended;
    await closed;
    clearInterval(writing);
    assert.deepEqual([error.reason, stream.destroyed, relay.closed], ["ended", true, true]);
});
