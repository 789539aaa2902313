// The client without I/O: its answers, its errors, its memory.
import assert from "node:assert/strict";
import test from "node:test";
import { setTimeout as pause } from "node:timers/promises";
import { setFlagsFromString } from "node:v8";
import { runInNewContext } from "node:vm";
import { Client, Ended, Library, LibraryError, OutOfMemory, Refused, attribute, parse } from "../src/index.js";
import { moduleOf } from "../src/library.js";
import { Module } from "../src/module.js";
import { timeAt } from "../src/time.js";
import { LOCAL_ADDRESS, NOW, PEER, SERVER_ADDRESS, boundClient, channelData } from "./handshake.js";
import { library, newLibrary, testLibrary } from "./module.js";

const SETTINGS = { local: LOCAL_ADDRESS, remote: SERVER_ADDRESS, username: "user", credential: "pass", seed: new Uint8Array(32) };
const ALLOCATE = "000300142112a44276b8e0ada0f13d90405d6ae5000d0004000007080019000411000000001a0000";
const shared = await library();
const hex = (bytes) => Buffer.from(bytes).toString("hex");

test("a new client is due at once, sends the first ALLOCATE, and waits half a second", async () => {
    const client = new Client({ ...SETTINGS, algorithms: ["sha1"] }, await library());
    assert.deepEqual(client.poll(0), { kind: "wait-until", until: 0 });
    const packets = [...client.packets(0)];
    assert.equal(packets.length, 1);
    assert.equal(hex(packets[0].data), ALLOCATE);
    assert.deepEqual(packets[0].remote, { ...SERVER_ADDRESS, family: "IPv4" });
    assert.deepEqual(client.poll(0), { kind: "wait-until", until: 500 });
    assert.deepEqual(client.poll(0n), { kind: "wait-until", until: 500_000_000n });
    assert.deepEqual([...client.events()], []);
    client.close();
});

test("half a second after a burst one packet leaves, or all that are left if requests are timed from their calls", async () => {
    const module = await library();
    for (const [timedFromSend, count] of [[undefined, 1], [true, 1], [false, 30]]) {
        const client = boundClient(module, { timedFromSend }), end = NOW + 500_000_000n;
        for (let last = 10; last < 40; last++) {
            client.createPermission(`10.1.0.${last}`, NOW);
        }
        for (let now = NOW; now < end; now = client.poll(now).until) {
            assert.ok([...client.packets(now)].length <= 1);
        }
        assert.equal([...client.packets(end)].length, count);
        client.close();
    }
});

test("times are exact in nanoseconds, and never read as earlier", async () => {
    for (const now of [0, 1e-6, 0.1, 1234.567891, 86_400_000.000001, 2 ** 42 + 0.25, 4e12]) {
        const client = new Client({ ...SETTINGS, times: { initial: 333_000_333n } }, await library());
        client.pollTransmit(now);
        const { until } = client.poll(now), exact = BigInt(Math.round(now * 1e6)) + 333_000_333n;
        assert.ok(BigInt(Math.round(until * 1e6)) >= exact, `${now}: ${until} is before ${exact}`);
        assert.equal(client.poll(exact - 1n).until, exact);
        assert.equal(client.pollTransmit(exact - 1n), undefined);
        assert.ok(client.pollTransmit(exact));
        client.close();
    }
});

test("a time as milliseconds is no nanosecond before it, from now to 146 years", () => {
    const view = new DataView(new ArrayBuffer(8));
    for (let at = 0n, time = 1n; time < 2n ** 62n; at++, time += time / 1_000n + at) {
        view.setBigUint64(0, time, true);
        assert.ok(BigInt(Math.round(timeAt(view, 0, 0) * 1e6)) >= time, `${time}`);
        assert.equal(timeAt(view, 0, 0n), time);
    }
});

test("data of a peer is a part of what was passed in", async () => {
    const client = boundClient(await library()), frame = channelData(5), answer = client.recv(frame, NOW);
    assert.deepEqual({ ...answer, data: hex(answer.data) },
        { kind: "peer-data", data: "5555555555", peer: PEER, transport: "udp", start: 4 });
    assert.equal(answer.data.buffer, frame.buffer);
    client.close();
});

test("sending over a channel adds four bytes and padding, into bytes of its own or those that are given", async () => {
    const client = boundClient(await library()), data = Buffer.from("hello"), into = new Uint8Array(69);
    assert.equal(hex(client.sendTo(PEER, data, NOW).data), "4000000568656c6c6f000000");
    const packet = client.sendTo(PEER, data, NOW, { into });
    assert.equal(hex(packet.data), "4000000568656c6c6f000000");
    assert.equal(packet.data.buffer, into.buffer);
    assert.throws(() => client.sendTo(PEER, data, NOW, { into: new Uint8Array(68) }), RangeError);
    client.close();
});

test("bytes in the module's memory are taken and given where they lie", async () => {
    const own = await newLibrary(), client = boundClient(own), inside = moduleOf(own), place = inside.alloc(2048);
    const room = () => inside.bytes.subarray(place, place + 2048);
    room().set(channelData(5));
    const answer = client.recv(room().subarray(0, 9), NOW);
    assert.equal(answer.data.byteOffset, place + 4);
    room().set(Buffer.from("hello"), 100);
    const packet = client.sendTo(PEER, room().subarray(100, 105), NOW, { into: room().subarray(200, 300) });
    assert.equal(packet.data.byteOffset, place + 200);
    assert.equal(hex(packet.data), "4000000568656c6c6f000000");
    client.close();
});

test("a refusal has its reason, and leaves the client as it was", async () => {
    const client = new Client(SETTINGS, await library());
    assert.throws(() => client.createPermission("10.0.0.3", 0), (error) => error instanceof Refused && error.reason === "no-allocation");
    assert.throws(() => client.sendTo(PEER, new Uint8Array(1), 0), { name: "Refused", reason: "no-permission" });
    assert.throws(() => client.setChannelKept(PEER, false), { reason: "not-granted" });
    client.close();
    const bound = boundClient(await library());
    assert.throws(() => bound.bindChannel(PEER, NOW), { reason: "already-exists" });
    bound.setChannelKept(PEER, false);
    assert.deepEqual(bound.permissions(bound.relayedAddresses()[0].address), ["10.0.0.3"]);
    assert.equal(bound.havePermission("10.0.0.3"), true);
    bound.close();
});

test("arguments that are no call are a TypeError or a RangeError, and nothing is done", async () => {
    const client = boundClient(shared);
    const wrong = [
        () => client.poll(-1), () => client.poll(NaN), () => client.poll("0"), () => client.poll(2n ** 62n + 1n), () => client.poll(5e12),
        () => client.recv("text", 0), () => client.recv([1, 2], 0), () => client.sendTo({ address: "example.org", port: 1 }, new Uint8Array(), NOW),
        () => client.sendTo({ address: "10.0.0.3", port: 65_536 }, new Uint8Array(), NOW), () => client.sendTo(undefined, new Uint8Array(), NOW),
        () => client.sendTo(PEER, new Uint8Array(65_505), NOW), () => client.sendTo(PEER, new Uint8Array(1), NOW, { transport: "sctp" }),
        () => client.sendTo(undefined, new Uint8Array(), NOW, { transport: "udp" }),
        () => client.createPermission("10.0.0", NOW), () => client.createPermission("::1%2", NOW), () => parse(shared, new Uint8Array(), "dtls"),
        () => new Client({ ...SETTINGS, username: "" }, shared), () => new Client({ ...SETTINGS, username: "\ud800" }, shared),
        () => new Client({ ...SETTINGS, credential: 7 }, shared), () => new Client({ ...SETTINGS, families: [] }, shared),
        () => new Client({ ...SETTINGS, families: [4, 4] }, shared), () => new Client({ ...SETTINGS, allocation: "tcp" }, shared),
        () => new Client({ ...SETTINGS, algorithms: ["md5"] }, shared), () => new Client({ ...SETTINGS, maxStaleNonces: 0 }, shared),
        () => new Client({ ...SETTINGS, seed: new Uint8Array(31) }, shared), () => new Client({ ...SETTINGS, times: { count: 1.5 } }, shared),
        () => new Client(SETTINGS), () => new Client({ ...SETTINGS, local: { address: "1.2.3.04", port: 1 } }, shared),
    ];
    wrong.forEach((call) => assert.throws(call, (error) => error instanceof TypeError || error instanceof RangeError, String(call)));
    assert.equal(hex(client.sendTo(PEER, Buffer.from("hello"), NOW).data), "4000000568656c6c6f000000");
    client.close();
});

test("a peer that was refused by its form does not stand for the next one", async () => {
    const client = boundClient(await library());
    client.sendTo(PEER, new Uint8Array(1), NOW);
    assert.throws(() => client.sendTo({ address: "10.0.0.9", port: 70_000 }, new Uint8Array(1), NOW), RangeError);
    assert.equal(client.sendTo(PEER, new Uint8Array(1), NOW).data.length, 8);
    assert.throws(() => client.sendTo({ address: "10.0.0.9", port: 9000 }, new Uint8Array(1), NOW), { reason: "no-permission" });
    client.close();
});

test("IPv6 addresses are read and written as RFC 5952 says", async () => {
    const texts = {
        "::": "::", "::1": "::1", "1::": "1::", "2001:DB8:0:0:1:0:0:1": "2001:db8::1:0:0:1", "2001:db8:0:1:1:1:1:1": "2001:db8:0:1:1:1:1:1",
        "::ffff:192.0.2.7": "::ffff:192.0.2.7", "64:ff9b::192.0.2.33": "64:ff9b::c000:221", "fe80::1": "fe80::1",
    };
    for (const [given, wanted] of Object.entries(texts)) {
        const client = new Client({ ...SETTINGS, local: { address: given, port: 5 }, remote: { address: "::2", port: 6 } }, await library());
        assert.deepEqual(client.pollTransmit(0).local, { address: wanted, port: 5, family: "IPv6" });
        client.close();
    }
    for (const text of ["", ":", ":::", "1:2:3:4:5:6:7", "1:2:3:4:5:6:7:8:9", "1::2::3", "12345::", "::1.2.3", "1:2:3:4:5:6:7:8::", "g::", "1.2.3.4::"]) {
        const settings = { ...SETTINGS, local: { address: text, port: 5 } };
        assert.throws(() => new Client(settings, shared), TypeError, text);
    }
});

test("after close each call is Ended, and a second close does nothing", async () => {
    const client = boundClient(await library());
    client.close();
    client.close();
    assert.throws(() => client.poll(0), Ended);
    assert.throws(() => client.havePermission("10.0.0.3"), Ended);
});

test("a hint is read from an unsigned answer, and the phrase can be printed", async () => {
    const bytes = Buffer.from("0113002c2112a44276b8e0ada0f13d90405d6ae50009001000000401556e617574686f72697a6500001400057265616c6d000000001500056e6f6e6365000000", "hex");
    bytes[39] = 7; // the last character of the phrase
    const found = parse(shared, bytes);
    assert.equal(found.kind, "message");
    assert.equal(found.class, "error");
    assert.deepEqual(found.error, { code: 401, phrase: "Unauthorize" });
    assert.equal(found.realm, "realm");
    assert.equal(hex(found.id), "76b8e0ada0f13d90405d6ae5");
    assert.equal(hex(attribute(shared, bytes, 0x15)), hex(Buffer.from("nonce")));
    assert.equal(attribute(shared, bytes, 0x16), undefined);
    assert.deepEqual(parse(shared, Uint8Array.of(...channelData(5), 0, 0, 0), "tcp"), { kind: "channel-data", len: 12, channel: 0x4000 });
    assert.equal(parse(shared, channelData(5), "tcp"), undefined);
    assert.deepEqual(parse(shared, Uint8Array.of(0xff)), { kind: "no-frame" });
});

test("a stream brings data in pieces, also more than a buffer holds", async () => {
    const own = await newLibrary(), head = { ...SETTINGS, transport: "tcp", algorithms: ["sha1"] }, client = new Client(head, own);
    client.pollTransmit(0);
    const garbage = client.recv(Uint8Array.of(0x40, 0, 0, 5, 1, 2), 0);
    assert.equal(garbage.kind, "handled");
    assert.equal(client.pollRecv(0), undefined);
    client.close();
});

/** The engine's garbage collector, which a flag makes visible. */
function collector() {
    setFlagsFromString("--expose-gc");
    return runInNewContext("gc");
}

test("a client that nothing refers to is freed", async () => {
    const gc = collector();
    const own = await newLibrary();
    const turn = () => {
        for (let at = 0; at < 300; at++) {
            boundClient(own);
        }
    };
    turn();
    for (let round = 0; round < 5; round++) {
        gc();
        await pause(10);
    }
    const before = own.memorySize;
    for (let round = 0; round < 20; round++) {
        turn();
        gc();
        await pause(10);
    }
    assert.equal(own.memorySize, before);
});

test("the memory stays as it is over a million packets", async () => {
    const own = await newLibrary(), client = boundClient(own), frame = channelData(1200), data = frame.subarray(4), into = new Uint8Array(1264);
    const turn = (times) => {
        for (let at = 0; at < times; at++) {
            if (client.recv(frame, NOW).data.length !== 1200 || client.sendTo(PEER, data, NOW, { into }).data.length !== 1204) {
                throw new Error("a packet is wrong");
            }
        }
    };
    turn(10_000);
    collector()();
    const before = own.memorySize, heap = process.memoryUsage().heapUsed;
    turn(500_000);
    collector()();
    assert.equal(own.memorySize, before);
    assert.ok(process.memoryUsage().heapUsed < heap + 5_000_000);
    client.close();
});

test("a limit of memory is an ordinary answer, and clients that are there go on", async () => {
    const own = await newLibrary({ memoryLimit: 3_000_000 }), client = boundClient(own), others = [];
    assert.throws(() => {
        for (;;) {
            others.push(boundClient(own));
        }
    }, OutOfMemory);
    assert.ok(others.length > 50, `${others.length} clients`);
    assert.ok(own.memorySize <= 3_000_000);
    assert.equal(client.recv(channelData(5), NOW).kind, "peer-data");
    assert.equal(client.sendTo(PEER, new Uint8Array(5), NOW).data.length, 12);
    others.forEach((other) => other.close());
    boundClient(own).close();
    await assert.rejects(Library.load({ source: await wasm(), memoryLimit: 0 }), RangeError);
});

async function wasm() {
    const { FOLDER } = await import("./module.js"), { readFile } = await import("node:fs/promises");
    return readFile(`${FOLDER}/yarrowdoor.wasm`);
}

test("what is no module is a LibraryError", async () => {
    await assert.rejects(Library.load({ source: Uint8Array.of(1, 2, 3) }), LibraryError);
    await assert.rejects(Library.load({ source: new URL("file:///nowhere/yarrowdoor.wasm") }), { name: "LibraryError", reason: "library" });
});

test("the inside of a library is not its users'", async () => {
    const own = await newLibrary(), names = Object.getOwnPropertyNames(Object.getPrototypeOf(own)).sort();
    assert.deepEqual([Object.keys(own), names], [[], ["buffer", "constructor", "memorySize"]]);
    assert.equal("library" in own.buffer(8), false);
    assert.throws(() => parse({ ...own }, new Uint8Array(20)), { name: "TypeError", message: /Library\.load/ });
});

test("after a fault of the module nothing of it is used", async () => {
    const { exports } = await testLibrary();
    let isFaulty = false;
    const faulty = { ...exports, client_call: (...words) => {
        if (isFaulty) {
            throw new RangeError("Maximum call stack size exceeded");
        }
        return exports.client_call(...words);
    } };
    const own = new Library(new Module(faulty, Infinity)), client = boundClient(own), other = boundClient(own);
    isFaulty = true;
    assert.throws(() => client.poll(NOW), { name: "LibraryError", message: /has stopped/ });
    isFaulty = false;
    assert.throws(() => other.poll(NOW), LibraryError);
    assert.throws(() => other.havePermission("10.0.0.3"), LibraryError);
    assert.throws(() => boundClient(own), LibraryError);
    client.close();
    other.close();
});
