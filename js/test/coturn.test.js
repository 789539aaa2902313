// Relays through coturn: echoes over UDP, TCP and TLS, and what it refuses.
import assert from "node:assert/strict";
import dgram from "node:dgram";
import { readFileSync } from "node:fs";
import test, { after, before } from "node:test";
import { pause } from "../src/node/clock.js";
import { Relay } from "../src/node/index.js";
import { library } from "./module.js";
import { endsWithin, fastClock } from "./relays.js";
import { Servers, freePort, listens, serves, skip } from "./turnserver.js";

const servers = new Servers(), echo = dgram.createSocket("udp4");
let ports;

before(async () => {
    if (skip) {
        return;
    }
    servers.certify();
    ports = { plain: await freePort(), secure: await freePort(), quiet: await freePort() };
    servers.start("server", ports.plain, ["--no-dtls", "--tls-listening-port", String(ports.secure), "--cert", servers.cert, "--pkey",
        servers.key]);
    servers.start("quiet", ports.quiet, ["--no-tls", "--no-dtls", "--no-stun"]);
    echo.on("message", (data, { port, address }) => echo.send(data, port, address));
    await new Promise((resolve) => echo.bind(0, "127.0.0.1", resolve));
    await Promise.all([serves(ports.plain), listens(ports.secure), serves(ports.quiet)]);
});

for (const realm of ["realm", "another realm"]) {
    const what = realm === "realm" ? "on its port" : "with another realm";
    test(`coturn that was restarted ${what}: check says that it no longer knows the relayed address`, { skip }, async () => {
        const port = await freePort(), options = { urls: `turn:127.0.0.1:${port}`, username: "user", credential: "pass", library: await library() };
        const server = servers.start("before", port, []);
        await serves(port);
        const relay = await Relay.open(options), ended = new Promise((resolve) => server.once("exit", resolve));
        assert.deepEqual([(await relay.check()).isAnswered, (await relay.check()).isAllocated], [true, true]);
        server.kill("SIGKILL");
        await ended;
        servers.start("after", port, ["-r", realm]);
        await serves(port);
        const { isAnswered, isAllocated } = await relay.check();
        assert.deepEqual([isAnswered, isAllocated, relay.closed], [true, false, false]);
        await relay.close();
    });
}

after(() => {
    servers.close();
    echo.close?.();
});

const open = async (options) => Relay.open({ username: "user", credential: "pass", library: await library(), ...options });
const ways = () => [
    ["UDP", { urls: `turn:127.0.0.1:${ports.plain}` }], ["TCP", { urls: `turn:127.0.0.1:${ports.plain}?transport=tcp` }],
    ["TLS", { urls: `turns:localhost:${ports.secure}`, tls: { ca: readFileSync(servers.cert) } }],
];

for (const name of ["UDP", "TCP", "TLS"]) {
    test(`an echo over ${name}, by a permission and by a channel`, { skip }, async () => {
        const relay = await open(Object.fromEntries(ways())[name]), peer = { address: "127.0.0.1", port: echo.address().port };
        const sizes = [0, 1, 5, 1_200, 8_000];
        for (const isBound of [false, true]) {
            isBound && (await relay.bind(peer));
            for (const size of sizes) {
                await relay.send(new Uint8Array(size).fill(size), peer);
                const { value } = await relay[Symbol.asyncIterator]().next();
                assert.deepEqual([value[0].length, value[1].port], [size, peer.port]);
                assert.ok(value[0].every((byte) => byte === (size & 255)));
            }
        }
        assert.equal(relay.address().address, "127.0.0.1");
        await relay.close();
    });

    test(`a wrong password is named within a second over ${name}`, { skip }, async () => {
        const options = { ...Object.fromEntries(ways())[name], credential: "other" };
        assert.ok(await endsWithin(1_000, () => assert.rejects(open(options), { name: "WrongCredentials", errorCode: 401 })));
    });
}

test("a certificate that nobody vouches for, or of another name, is refused", { skip }, async () => {
    await assert.rejects(open({ urls: `turns:localhost:${ports.secure}` }), { name: "AllocationFailed", message: /self.signed/ });
    const ca = readFileSync(servers.cert), lookup = async () => ["127.0.0.1"];
    await assert.rejects(open({ urls: `turns:other.example:${ports.secure}`, tls: { ca }, lookup }), { message: /other\.example/ });
});

test("a peer that coturn forbids is named with its code", { skip }, async () => {
    const relay = await open(ways()[0][1]);
    await assert.rejects(async () => relay.send("x", 9, "0.0.0.1"), { name: "PermissionFailed", errorCode: 403 });
    await relay.close();
});

for (const way of ["udp", "tcp"]) {
    test(`a coturn that answers no Binding request is probed otherwise, over ${way}`, { skip }, async () => {
        const urls = `turn:127.0.0.1:${ports.quiet}?transport=${way}`, clock = fastClock(50);
        const relay = await open({ urls, probe: 15_000, clock });
        assert.equal((await relay.check()).isAnswered, false);
        await pause(clock, 120_000);
        assert.equal(relay.closed, false);
        await relay.close();
    });
}
