// A client and a relay that end at once, and give their allocation back.
import assert from "node:assert/strict";
import { spawn } from "node:child_process";
import test from "node:test";
import { fileURLToPath } from "node:url";
import { Client } from "../src/index.js";
import { NOW, PEER, boundClient } from "./handshake.js";
import { library } from "./module.js";
import { next, tcp, udp, until, urlOf, withServer } from "./relays.js";
import { PASSWORD, USER } from "./server.js";
import { ATTRIBUTE, METHOD, read } from "./stun.js";

const shared = await library();

test("abandon gives the deletion at once, past the pause and the queue, and the client has ended", () => {
    const client = boundClient(shared);
    client.createPermission("10.0.0.9", NOW);
    client.createPermission("10.0.0.10", NOW);
    const packet = client.abandon(NOW), { method, attributes } = read(Buffer.from(packet.data));
    assert.deepEqual([method, attributes.get(ATTRIBUTE.LIFETIME).readUInt32BE(0), packet.transport], [METHOD.REFRESH, 0, "udp"]);
    assert.deepEqual([client.poll(NOW).kind, client.pollTransmit(NOW), client.abandon(NOW)], ["closed", undefined, undefined]);
    assert.throws(() => client.sendTo(PEER, new Uint8Array(1), NOW), { name: "Refused" });
    client.close();
    const { local, remote } = { local: { address: "10.0.0.1", port: 5000 }, remote: { address: "10.0.0.2", port: 3478 } };
    const young = new Client({ local, remote, username: "user", credential: "pass" }, shared);
    assert.deepEqual([young.abandon(0), young.poll(0)], [undefined, { kind: "closed" }]);
    young.close();
});

for (const [name, make] of [["UDP", udp], ["TCP", tcp]]) {
    test(`over ${name}: a relay that is abandoned gives its address back, waits for nothing, and is closed`, async () => {
        await withServer(make, async (server, relay) => {
            server.answer = ({ method }) => (method === METHOD.REFRESH ? "drop" : undefined);
            const events = [], waiting = assert.rejects(relay.permit("10.0.0.1"), { reason: "ended" });
            relay.on("error", () => events.push("error")).on("close", () => events.push("close"));
            assert.equal(relay.abandon(), undefined);
            assert.equal(relay.closed, true);
            await waiting;
            await until(() => server.count(METHOD.REFRESH) === 1);
            const { attributes } = server.requests.find(({ method }) => method === METHOD.REFRESH);
            assert.equal(attributes.get(ATTRIBUTE.LIFETIME).readUInt32BE(0), 0);
            relay.abandon();
            await relay.close();
            assert.deepEqual(events, ["close"]);
        });
    });
}

test("abandon ends the waiting of a close whose server is silent", async () => {
    await withServer(udp, async (server, relay) => {
        server.answer = ({ method }) => (method === METHOD.REFRESH ? "drop" : undefined);
        const start = performance.now(), closing = relay.close();
        relay.abandon();
        await closing;
        assert.ok(performance.now() - start < 1_000);
    });
});

test("a program that exits gives its relayed address back by abandon, over UDP", async () => {
    await withServer(udp, async (server) => {
        const script = fileURLToPath(new URL("scripts/abandoned.js", import.meta.url));
        const child = spawn(process.execPath, [script, urlOf(server), USER, PASSWORD], { stdio: ["ignore", "inherit", "inherit"] });
        assert.deepEqual(await next(child, "close"), [0, null]);
        await until(() => server.count(METHOD.REFRESH) === 1);
    }, null);
});
