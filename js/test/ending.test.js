// How a relay ends, and what is lost on the way: servers that go, NATs, hours, and the program's own end.
import assert from "node:assert/strict";
import { spawn } from "node:child_process";
import test from "node:test";
import { fileURLToPath } from "node:url";
import { pause } from "../src/node/clock.js";
import { Ended } from "../src/node/index.js";
import { fastClock, next, openRelay, tcp, udp, until, urlOf, withServer } from "./relays.js";
import { PASSWORD, RELAYED, USER } from "./server.js";
import { ATTRIBUTE, METHOD, unxored } from "./stun.js";

const PEER = { address: "127.0.0.1", port: 3480 }, SCRIPTS = fileURLToPath(new URL("scripts/", import.meta.url));
const MOST_TIME = 20_000;

test("over TCP a server that goes ends the relay at once, and who waits is told", async () => {
    await withServer(tcp, async (server, relay) => {
        server.answer = ({ method }) => (method === METHOD.CREATE_PERMISSION ? "drop" : undefined);
        const waiting = assert.rejects(relay.permit("10.0.0.1"), Ended), told = next(relay, "error"), closed = next(relay, "close");
        server.close();
        const [error] = await told;
        await Promise.all([waiting, closed]);
        assert.equal(error.reason, "ended");
        assert.match(error.message, /the connection to the server has ended/);
        assert.equal(relay.closed, true);
        assert.deepEqual(relay.address(), RELAYED);
        await assert.rejects(async () => relay.send("x", PEER), Ended);
        assert.throws(() => relay.sendTo("x", PEER), Ended);
    });
});

test("an end by itself ends for await with its reason, and without a listener nothing else", async () => {
    await withServer(tcp, async (server, relay) => {
        const taking = (async () => {
            for await (const _ of relay) {
                // nothing comes
            }
        })();
        await new Promise((resolve) => setImmediate(resolve));
        server.close();
        await assert.rejects(taking, { reason: "ended" });
    });
});

test("an end by itself is an error event, too, where for await was left", async (context) => {
    await withServer(tcp, async (server, relay) => {
        await relay.permit(PEER.address);
        server.sendData(PEER, "x");
        for await (const _ of relay) {
            break;
        }
        const emitted = context.mock.method(relay, "emit", () => true), names = () => emitted.mock.calls.map((call) => call.arguments[0]);
        server.close();
        await until(() => names().includes("close"));
        assert.deepEqual(names(), ["error", "close"]); // nobody listens, so that Node throws it
    });
});

test("close ends for await without an error", async () => {
    await withServer(udp, async (server, relay) => {
        const taking = (async () => {
            for await (const _ of relay) {
                // nothing comes
            }
            return "done";
        })();
        await new Promise((resolve) => setImmediate(resolve));
        const closed = next(relay, "close");
        await relay.close();
        assert.equal(await taking, "done");
        await closed;
    });
});

test("over UDP a port that is closed ends the relay after a few errors, with the last one as its cause", async () => {
    const server = await udp(), relay = await openRelay(server, { clock: fastClock(10) }), errors = [], told = next(relay, "error");
    relay.on("socketError", (error) => errors.push(error.code));
    server.close();
    relay.permit("127.0.0.1").catch(() => {});
    const [error] = await told;
    assert.equal(error.cause.code, "ECONNREFUSED");
    assert.ok(errors.length >= 3, String(errors));
});

test("over UDP a server that is silent ends the relay by probe, and one that answers does not", async () => {
    await withServer(udp, async (server, relay) => {
        await until(() => server.count(METHOD.BINDING) >= 4, 60_000);
        assert.equal(relay.closed, false);
        const told = next(relay, "error");
        server.answer = () => "drop";
        const [error] = await told;
        assert.match(error.message, /no answer from turn:.* to 3 checks in a row/);
    }, { clock: fastClock(50), probe: 5_000 });
});

test("over TCP a server that is silent ends the relay within a minute without any option, and with probe: 0 nothing is asked", async () => {
    const clock = fastClock(25);
    await withServer(tcp, async (server, relay) => {
        await until(() => server.count(METHOD.BINDING) >= 2, 60_000);
        assert.equal(relay.closed, false);
        const told = next(relay, "error"), start = clock.now();
        server.answer = () => "drop";
        const [error] = await told, took = clock.now() - start;
        assert.match(error.message, /no answer from turn:.* to 3 checks in a row/);
        assert.ok(took < 60_000, `${took} ms`);
    }, { clock });
    await withServer(tcp, async (server) => {
        await pause(clock, 40_000);
        assert.equal(server.count(METHOD.BINDING), 0);
    }, { clock, probe: 0 });
});

test("a server that answers no Binding request is asked otherwise, and the relay goes on", async () => {
    await withServer(tcp, async (server, relay) => {
        server.answer = ({ method }) => (method === METHOD.BINDING ? "drop" : undefined);
        await until(() => relay.closed || server.requests.length >= 8, 60_000);
        assert.deepEqual([relay.closed, server.count(METHOD.BINDING)], [false, 1]);
        assert.ok(server.count(METHOD.CREATE_PERMISSION) >= 4);
    }, { clock: fastClock(50) });
});

test("what comes between two checks counts: only silence ends the relay", async () => {
    const clock = fastClock(20);
    await withServer(tcp, async (server, relay) => {
        let count = 0;
        server.answer = () => {
            count++;
            pause(clock, 6_000).then(() => server.sendData(PEER, "x")); // the check waits for 3.5 s, and the next one comes after 8.5
            return "drop";
        };
        await until(() => relay.closed || count >= 6, 60_000);
        assert.equal(relay.closed, false);
        server.answer = () => undefined;
    }, { clock, probe: 5_000 });
});

test("a NAT that has forgotten the client: check says the other address", async () => {
    await withServer(udp, async (server, relay) => {
        const before = await relay.check();
        assert.deepEqual(before, { isAnswered: true, mapped: relay.mappedAddress(), isAllocated: true });
        server.mapped = () => ({ address: "192.0.2.1", port: 7 });
        const mapped = { address: "192.0.2.1", port: 7, family: "IPv4" };
        assert.deepEqual(await relay.check(), { isAnswered: true, mapped, isAllocated: true });
        server.answer = () => "drop";
        assert.deepEqual(await relay.check(), { isAnswered: false, mapped: undefined, isAllocated: undefined });
    }, { clock: fastClock(20) });
});

for (const code of [437, 400]) {
    test(`a server that was restarted and answers ${code}: check says that the relayed address is lost`, async () => {
        for (const make of [udp, tcp]) {
            await withServer(make, async (server, relay) => {
                const lost = [];
                relay.on("lost", (it) => lost.push(it));
                await relay.permit("127.0.0.1");
                assert.equal((await relay.check()).isAllocated, true);
                server.answer = ({ method }) => (method === METHOD.CREATE_PERMISSION ? { code, phrase: "" } : undefined);
                const { isAnswered, isAllocated } = await relay.check();
                assert.deepEqual([isAnswered, isAllocated, lost], [true, false, []]);
            });
        }
    });
}

test("a server that was restarted with another realm: check says that the relayed address is lost, after 3.5 s", async () => {
    for (const make of [udp, tcp]) {
        const clock = fastClock(10);
        await withServer(make, async (server, relay) => {
            assert.equal((await relay.check()).isAllocated, true);
            server.serveRealm("another realm");
            const start = clock.now(), { isAnswered, isAllocated } = await relay.check();
            assert.deepEqual([isAnswered, isAllocated, relay.closed], [true, false, false]);
            assert.ok(clock.now() - start >= 3_500); // nobody has signed the errors, and a signed answer might come
        }, { clock });
    }
});

test("check asks for a permission of nobody's, and knows a server that denies it", async () => {
    await withServer(udp, async (server, relay) => {
        const asked = [];
        server.answer = ({ method, attributes }) => {
            if (method === METHOD.CREATE_PERMISSION) {
                asked.push(unxored(attributes.get(ATTRIBUTE.XOR_PEER_ADDRESS)).address);
                return asked.length === 2 ? { code: 403, phrase: "Forbidden" } : undefined;
            }
        };
        const found = [await relay.check(), await relay.check(), await relay.check()];
        assert.deepEqual(found.map(({ isAllocated }) => isAllocated), [true, true, true]);
        assert.deepEqual(asked, ["192.0.2.1", "192.0.2.2", "192.0.2.3"]);
    });
});

test("two hours pass: permissions and channels are refreshed, and a restarted server is told by lost", async () => {
    await withServer(udp, async (server, relay) => {
        await relay.bind(PEER);
        await until(() => server.count(METHOD.CHANNEL_BIND) >= 5 && server.count(METHOD.REFRESH) >= 3, 60_000);
        assert.deepEqual(relay.lost, []);
        const lost = next(relay, "lost");
        server.answer = ({ method }) => (method === METHOD.REFRESH ? undefined : { code: 437, phrase: "Allocation Mismatch" });
        const [first] = await lost;
        assert.ok(first.what === "permission" || first.what === "channel");
        await until(() => relay.lost.length === 2, 60_000);
        assert.deepEqual(relay.lost.map(({ what }) => what).sort(), ["channel", "permission"]);
    }, { clock: fastClock(1_000) });
});

test("a server that no longer knows the relayed address: the reason says so", async () => {
    await withServer(udp, async (server, relay) => {
        const told = next(relay, "error");
        server.answer = ({ method, attributes }) => (
            method === METHOD.REFRESH && attributes.get(ATTRIBUTE.LIFETIME)?.readUInt32BE(0) !== 0 ? { code: 437, phrase: "Allocation Mismatch" } : undefined);
        const [error] = await told;
        assert.match(error.message, /does not renew the relayed address \(437 Allocation Mismatch\): it no longer knows it/);
    }, { clock: fastClock(2_000) });
});

test("a server that has another realm since: the reason of the end says so", async () => {
    await withServer(udp, async (server, relay) => {
        const told = next(relay, "error");
        server.serveRealm("another realm");
        const [error] = await told;
        assert.match(error.message, /does not renew the relayed address \(441 Wrong Credentials\): it no longer knows it/);
    }, { clock: fastClock(2_000) });
});

test("what is released ends by itself, and lost does not tell", async () => {
    const clock = fastClock(1_000);
    await withServer(udp, async (server, relay) => {
        await relay.permit("127.0.0.1");
        relay.release("127.0.0.1");
        await pause(clock, 500_000); // over eight minutes
        assert.deepEqual(relay.lost, []);
        assert.throws(() => relay.sendTo("x", PEER), { reason: "no-permission" });
        assert.equal(server.count(METHOD.CREATE_PERMISSION), 1);
    }, { clock });
});

test("a keepalive is sent where nothing else is", async () => {
    const clock = fastClock(200);
    await withServer(udp, async (server, relay) => {
        await pause(clock, 60_000);
        assert.equal(relay.closed, false);
        assert.ok(server.indications >= 3, `${server.indications} indications`);
    }, { clock, keepalive: 15_000 });
});

test("closing a relay whose server is silent takes two seconds", async () => {
    await withServer(udp, async (server, relay) => {
        server.answer = () => "drop";
        const start = performance.now();
        await Promise.all([relay.close(), relay.close()]);
        const took = performance.now() - start;
        assert.ok(took > 1_900 && took < 3_000, `${took} ms`);
    });
});

test("asyncDispose closes the relay", { skip: Symbol.asyncDispose ? false : "this engine has no Symbol.asyncDispose" }, async () => {
    await withServer(udp, async (server, relay) => {
        await relay[Symbol.asyncDispose]();
        assert.equal(relay.closed, true);
        assert.equal(server.count(METHOD.REFRESH), 1);
    });
});

/** Runs a script of test/scripts with a server, and gives its status and what it printed. It is stopped so long after that. */
async function runScript(name, server, most) {
    const child = spawn(process.execPath, [`${SCRIPTS}${name}`, urlOf(server), USER, PASSWORD], { stdio: ["ignore", "pipe", "inherit"] });
    const stop = () => child.kill("SIGKILL");
    let timer = setTimeout(stop, MOST_TIME), text = "";
    child.stdout.on("data", (data) => {
        text += data;
        clearTimeout(timer);
        timer = setTimeout(stop, most);
    });
    const [status, signal] = await next(child, "close");
    clearTimeout(timer);
    return { status, signal, text };
}

test("a program whose relay is closed ends, and so does one whose relay may be left open", async () => {
    const server = await udp();
    assert.deepEqual(await runScript("closed.js", server, 8_000), { status: 0, signal: null, text: "closed\n" });
    assert.equal(server.count(METHOD.REFRESH), 1);
    assert.deepEqual(await runScript("unref.js", server, 8_000), { status: 0, signal: null, text: "opened\n" });
    server.close();
});

test("a program with an open relay goes on, as with a socket", async () => {
    const server = await udp();
    assert.deepEqual(await runScript("open.js", server, 1_500), { status: null, signal: "SIGKILL", text: "opened\n" });
    server.close();
});
