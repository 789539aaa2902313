// Opening a relay: credentials, the addresses of a name, silent servers, and giving up.
import assert from "node:assert/strict";
import test from "node:test";
import { AllocationFailed, Relay, WrongCredentials } from "../src/node/index.js";
import { interleaved } from "../src/node/servers.js";
import { parseUri } from "../src/node/uri.js";
import { library } from "./module.js";
import { endsWithin, openRelay, tcp, udp, until, urlOf, withServer } from "./relays.js";
import { RELAYED, Server } from "./server.js";
import { METHOD } from "./stun.js";

const PEER = { address: "127.0.0.1", port: 3480 };

for (const [name, make] of [["UDP", udp], ["TCP", tcp]]) {
    test(`over ${name}: a relayed address, the own one as the server sees it, and both are given back`, async () => {
        await withServer(make, async (server, relay) => {
            assert.deepEqual(relay.address(), RELAYED);
            assert.deepEqual(relay.mappedAddress(), { ...relay.localAddress(), family: "IPv4" });
            await relay.close();
            assert.equal(relay.closed, true);
            assert.equal(server.count(METHOD.REFRESH), 1);
            await assert.rejects(relay.permit("127.0.0.1"), { reason: "ended" });
            await relay.close();
        });
    });

    test(`over ${name}: a wrong password is named within a second`, async () => {
        await withServer(make, async (server) => {
            assert.ok(await endsWithin(1_000, () => assert.rejects(openRelay(server, { credential: "other" }),
                (error) => error instanceof WrongCredentials && error.reason === "wrong-credentials" && error.errorCode === 401)));
        }, null);
    });
}

test("a refusal that the server signs is told at once, with its code", async () => {
    await withServer(udp, async (server) => {
        server.answer = ({ method }) => (method === METHOD.ALLOCATE ? { code: 486, phrase: "Allocation Quota Reached" } : undefined);
        await assert.rejects(openRelay(server), { reason: "allocation-failed", code: "ERR_TURN_ALLOCATION_FAILED", errorCode: 486, phrase: "Allocation Quota Reached" });
    }, null);
});

test("nobody answers: it fails when the times are over, and says so", async () => {
    await withServer(udp, async (server) => {
        server.answer = () => "drop";
        const times = { initial: 50, longest: 100, last: 100, count: 2 };
        await assert.rejects(openRelay(server, { times }), { reason: "allocation-failed", message: /no answer from turn:127.0.0.1/ });
        assert.equal(server.requests.length, 2);
    }, null);
});

test("a closed port is told after a second", async () => {
    const server = await udp(), { port } = server, start = performance.now();
    server.close();
    await assert.rejects(openRelay({ port }), { reason: "allocation-failed", message: /ECONNREFUSED/ });
    assert.ok(performance.now() - start < 2_500);
    await assert.rejects(openRelay({ port, sockets: [] }), { reason: "allocation-failed", message: /ECONNREFUSED/ });
});

test("a name with two addresses, of which the first is silent: the second is used after a quarter of a second", async () => {
    const silent = await Server.udp("127.0.0.2"), good = await Server.udp("127.0.0.1", silent.port), start = performance.now();
    silent.answer = () => "drop";
    const urls = `turn:two.example:${silent.port}`, lookup = async () => ["127.0.0.2", "127.0.0.1"];
    const relay = await openRelay(good, { urls, lookup });
    const took = performance.now() - start;
    assert.ok(took >= 200 && took < 1_500, `${took} ms`);
    assert.equal(silent.count(METHOD.ALLOCATE), 1);
    await relay.close();
    silent.close();
    good.close();
});

test("a name with two addresses, of which the first is closed: the second is used, over TCP at once", async () => {
    const good = await tcp(), lookup = async () => ["127.0.0.2", "127.0.0.1"], start = performance.now();
    const relay = await openRelay(good, { urls: `turn:two.example:${good.port}?transport=tcp`, lookup });
    assert.ok(performance.now() - start < 1_000);
    await relay.close();
    good.close();
    await assert.rejects(openRelay(good, { urls: `turn:two.example:${good.port}?transport=tcp`, lookup }),
        { message: /127\.0\.0\.2: .*; 127\.0\.0\.1: / });
});

test("an attempt that was given up does not close the relay, and has nothing to give back", async () => {
    const late = await Server.udp("127.0.0.2"), good = await Server.udp("127.0.0.1", late.port);
    late.answer = () => (late.requests.length === 1 ? "drop" : undefined); // it answers the second transmission
    const relay = await openRelay(good, { urls: `turn:two.example:${late.port}`, lookup: async () => ["127.0.0.2", "127.0.0.1"] });
    await new Promise((resolve) => setTimeout(resolve, 700));
    assert.deepEqual([relay.closed, late.count(METHOD.ALLOCATE), late.count(METHOD.REFRESH)], [false, 1, 0]);
    await relay.permit("127.0.0.1");
    const taking = relay[Symbol.asyncIterator]().next();
    good.sendData(PEER, "still");
    assert.equal(Buffer.from((await taking).value?.[0] ?? "nothing").toString(), "still");
    await relay.close();
    late.close();
    good.close();
});

test("several URLs: the next one is tried where one fails, and all are named where all do", async () => {
    const server = await udp();
    const relay = await openRelay(server, { urls: ["turn:127.0.0.1:9?transport=tcp", urlOf(server)] });
    assert.deepEqual(relay.address(), RELAYED);
    await relay.close();
    server.close();
    const urls = ["turn:127.0.0.1:9?transport=tcp", "turn:127.0.0.1:7?transport=tcp"];
    await assert.rejects(openRelay(server, { urls }), { message: /:9\?transport=tcp: .*; .*:7\?transport=tcp: / });
});

test("several URLs: one that is silent costs a quarter of a second, over UDP and over TCP, and is given up", async () => {
    for (const make of [udp, tcp]) {
        const silent = await make(), good = await udp(), start = performance.now();
        silent.answer = () => "drop";
        const relay = await openRelay(good, { urls: [urlOf(silent), urlOf(good)], signal: AbortSignal.timeout(10_000) });
        const took = performance.now() - start;
        assert.ok(took >= 200 && took < 1_500, `${took} ms`);
        assert.deepEqual([silent.count(METHOD.ALLOCATE), good.count(METHOD.ALLOCATE)], [1, 2]);
        await relay.close();
        silent.close();
        good.close();
    }
});

test("several URLs: where the one that answers first refuses, the others are asked", async () => {
    const full = await udp(), late = await udp();
    full.answer = ({ method }) => (method === METHOD.ALLOCATE ? { code: 486, phrase: "Allocation Quota Reached" } : undefined);
    late.answer = () => (late.requests.length === 1 ? "drop" : undefined); // it answers the second transmission, after half a second
    const relay = await openRelay(late, { urls: [urlOf(late), urlOf(full)] });
    assert.equal(full.count(METHOD.ALLOCATE), 2);
    await relay.close();
    late.close();
    await assert.rejects(openRelay(full, { urls: ["turn:127.0.0.1:9?transport=tcp", urlOf(full)] }),
        { errorCode: undefined, message: /:9\?transport=tcp: .*; the server refuses \(486 / });
    full.close();
});

test("URLs of STUN servers in a list are skipped, as services give them, and a list of them only is refused", async () => {
    await withServer(udp, async (server) => {
        const relay = await openRelay(server, { urls: ["stun:stun.example.org", urlOf(server), "STUNS:a:1"] });
        assert.deepEqual(relay.address(), RELAYED);
        await relay.close();
        await assert.rejects(openRelay(server, { urls: ["stun:stun.example.org"] }), TypeError);
    }, null);
});

test("a name that is not found is an AllocationFailed with its cause", async () => {
    const lookup = async () => {
        throw Object.assign(new Error("getaddrinfo ENOTFOUND"), { code: "ENOTFOUND" });
    };
    await assert.rejects(openRelay({ port: 1 }, { urls: "turn:nowhere.example", lookup }),
        (error) => error instanceof AllocationFailed && error.cause.code === "ENOTFOUND");
    await assert.rejects(openRelay({ port: 1 }, { urls: "turn:nowhere.example", lookup: async () => [] }), { message: /nowhere\.example has no address$/ });
});

test("a signal gives up the opening, at each time, and what was granted is given back", async () => {
    await withServer(udp, async (server) => {
        await assert.rejects(openRelay(server, { signal: AbortSignal.abort(new Error("no")) }), { message: "no" });
        assert.equal(server.requests.length, 0);
        const controller = new AbortController();
        let signed = 0;
        server.answer = ({ method }) => {
            if (method === METHOD.ALLOCATE && ++signed === 2) {
                controller.abort(new Error("enough"));
            }
        };
        await assert.rejects(openRelay(server, { signal: controller.signal }), { message: "enough" });
        await until(() => server.count(METHOD.REFRESH) === 1); // the grant came after it, and is given back
    }, null);
});

test("a signal gives up a silent server at once", async () => {
    await withServer(udp, async (server) => {
        server.answer = () => "drop";
        const start = performance.now();
        await assert.rejects(openRelay(server, { signal: AbortSignal.timeout(100) }), { name: "TimeoutError" });
        assert.ok(performance.now() - start < 1_000);
    }, null);
});

test("options that are none are refused before anything is opened", async () => {
    const own = await library(), good = { urls: "turn:127.0.0.1", username: "user", credential: "pass", library: own };
    const wrong = [
        { urls: [] }, { urls: "http://example.org" }, { urls: "turn:" }, { urls: "turn:a:0" }, { urls: "turn:a:65536" }, { family: 5 },
        { urls: "turns:a?transport=udp" }, { urls: "turn:a?transport=sctp" }, { urls: "turn:[::g]" }, { urls: `turn:${"a".repeat(64)}` },
        { urls: "turn:%ff" }, { queue: 0 }, { probe: -1 }, { keepalive: -1 }, { pause: NaN }, { refreshAhead: "5" },
        { username: "" }, { credential: 5 }, { anonymous: "never" }, { maxStaleNonces: 70_000 }, { times: { count: -1 } },
    ];
    for (const options of wrong) {
        await assert.rejects(Relay.open({ ...good, ...options }), (error) => error instanceof TypeError || error instanceof RangeError,
            JSON.stringify(options));
    }
});

test("URIs have their ports and transports, and addresses of a name are tried by turns", () => {
    assert.deepEqual({ ...parseUri("turn:example.org"), text: "" }, { host: "example.org", port: 3478, transport: "udp", isSecure: false, text: "" });
    assert.deepEqual({ ...parseUri("TURNS:[::1]:8000"), text: "" }, { host: "::1", port: 8000, transport: "tcp", isSecure: true, text: "" });
    assert.equal(parseUri("turns:a%2db").host, "a-b");
    assert.deepEqual(interleaved(["::1", "::2", "1.1.1.1", "::1", "2.2.2.2", "3.3.3.3"]), ["::1", "1.1.1.1", "::2", "2.2.2.2", "3.3.3.3"]);
});
