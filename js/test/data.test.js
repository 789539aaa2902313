// Data through an open relay: permissions, channels, queues, listeners, and what is full.
import assert from "node:assert/strict";
import dgram from "node:dgram";
import test from "node:test";
import { DatagramLink } from "../src/node/link.js";
import { next, openRelay, tcp, udp, until, withServer } from "./relays.js";
import { dataOf } from "./server.js";
import { METHOD } from "./stun.js";

const PEER = { address: "127.0.0.1", port: 3480, family: "IPv4" };
const texts = (packets) => packets.map(({ data }) => String(data));

for (const [name, make] of [["UDP", udp], ["TCP", tcp]]) {
    test(`over ${name}: send asks for the permission first, and once`, async () => {
        await withServer(make, async (server, relay) => {
            await Promise.all([relay.send("one", 3480, "127.0.0.1"), relay.send(Buffer.from("two"), PEER), relay.send(new Uint16Array(2), 3481, "127.0.0.1")]);
            await until(() => server.data.length === 3);
            assert.equal(server.count(METHOD.CREATE_PERMISSION), 1);
            assert.deepEqual(texts(server.data).sort(), ["\0\0\0\0", "one", "two"]);
        });
    });

    test(`over ${name}: data of peers is a message, or waits to be taken`, async () => {
        await withServer(make, async (server, relay) => {
            await relay.permit("127.0.0.1");
            server.sendData(PEER, "early");
            await until(() => relay.dropped === 0);
            await new Promise((resolve) => setTimeout(resolve, 50));
            const [data, peer] = await next(relay, "message");
            assert.deepEqual([String(data instanceof Uint8Array && Buffer.from(data)), peer], ["early", { ...PEER, size: 5 }]);
            server.sendData(PEER, "taken");
            for await (const [taken] of relay) {
                assert.equal(Buffer.from(taken).toString(), "taken");
                break;
            }
        });
    });

    test(`over ${name}: data that was given stays as it is when more comes`, async () => {
        await withServer(make, async (server, relay) => {
            const found = [];
            await relay.permit("127.0.0.1");
            relay.on("message", (data) => found.push(data));
            for (const text of ["first", "later"]) {
                server.sendData(PEER, text);
                await next(relay, "message");
            }
            assert.deepEqual(found.map((data) => Buffer.from(data).toString()), ["first", "later"]);
        });
    });

    test(`over ${name}: a channel carries what is sent, with four bytes`, async () => {
        await withServer(make, async (server, relay) => {
            await relay.bind(3480, "127.0.0.1");
            await relay.bind(PEER);
            await relay.send("hello", PEER);
            assert.equal(relay.sendTo("again", PEER), true);
            await until(() => server.data.length === 2);
            assert.deepEqual(server.data.map(({ channel, data }) => [channel, String(data)]), [[0x4000, "hello"], [0x4000, "again"]]);
            assert.deepEqual([METHOD.CHANNEL_BIND, METHOD.CREATE_PERMISSION].map((method) => server.count(method)), [1, 0]);
        });
    });
}

test("over TCP data is a Buffer, also where its message was cut", async () => {
    await withServer(tcp, async (server, relay) => {
        const found = [], frames = ["whole", "cut", "then"].map((text) => dataOf(PEER, text)), [send] = server.clients.values();
        relay.on("message", (data) => found.push(data));
        await relay.permit("127.0.0.1");
        send(frames[0]);
        await until(() => found.length === 1);
        send(frames[1].subarray(0, 30));
        await new Promise((resolve) => setTimeout(resolve, 50));
        send(Buffer.concat([frames[1].subarray(30), frames[2]]));
        await until(() => found.length === 3);
        assert.deepEqual(found.map((data) => [Buffer.isBuffer(data), data.toString()]), [[true, "whole"], [true, "cut"], [true, "then"]]);
        assert.ok(found.every((data) => data.buffer.byteLength < 1 << 20)); // none is a view of the module's memory
    });
});

test("an IPv6 address is one in each spelling: permissions, channels, what is sent, released and kept", async () => {
    const server = await udp(), before = METHOD.CREATE_PERMISSION;
    server.relayed = { address: "2001:db8::9", port: 40_000, family: "IPv6" };
    const relay = await openRelay(server, { family: 6, signal: AbortSignal.timeout(5_000) }), signal = AbortSignal.timeout(5_000);
    assert.deepEqual(relay.address(), server.relayed);
    await relay.permit("2001:DB8::1", { signal });
    await relay.permit("2001:db8:0:0::1", { signal });
    assert.equal(server.count(before), 1);
    await relay.bind(3480, "2001:DB8::77", { signal });
    await relay.bind({ address: "2001:0db8::0077", port: 3480 }, undefined, { signal });
    await relay.send("x", 3480, "2001:0DB8::77");
    await until(() => server.data.length === 1);
    assert.deepEqual([server.count(METHOD.CHANNEL_BIND), server.count(before), server.data[0].channel], [1, 1, 0x4000]);
    relay.release("2001:db8::0:1");
    relay.keep("2001:DB8:0::1");
    relay.release({ address: "2001:DB8::0077", port: 3480 });
    for (let at = 0; at < 9; at++) {
        await relay.permit(`2001:DB8::A${at}`, { signal });
    }
    await relay.close();
    server.close();
});

test("who waits for room in the socket and finds it full again waits again", async (context) => {
    await withServer(udp, async (_server, relay) => {
        await relay.bind(PEER);
        const handed = context.mock.method(dgram.Socket.prototype, "send"); // the system drops some: nobody reads meanwhile
        await Promise.all(Array.from({ length: 1_000 }, (_, at) => relay.send(Buffer.alloc(20, at), PEER)));
        assert.deepEqual([handed.mock.callCount(), relay.unsent], [1_000, 0]);
        handed.mock.restore();
    });
    const server = await udp(), link = await DatagramLink.connect("127.0.0.1", server.port, undefined);
    const sent = await Promise.all(Array.from({ length: 1_000 }, () => link.room.wait().then(() => link.room.trySend(Buffer.alloc(20)))));
    assert.deepEqual(sent.filter((isSent) => !isSent), []);
    link.close();
    server.close();
});

test("a callback is told as with dgram, and errors go there", async () => {
    await withServer(udp, async (server, relay) => {
        assert.equal(await new Promise((resolve) => relay.send("x", 3480, "127.0.0.1", resolve)), null);
        server.answer = () => ({ code: 403, phrase: "Forbidden" });
        const error = await new Promise((resolve) => relay.send("x", { address: "10.0.0.1", port: 1 }, resolve));
        assert.equal(error.reason, "permission-failed");
        assert.deepEqual([error.code, error.errorCode], ["ERR_TURN_PERMISSION_FAILED", 403]);
    });
});

test("a peer that was refused is left alone for five seconds, and permit asks again", async () => {
    await withServer(udp, async (server, relay) => {
        server.answer = ({ method }) => (method === METHOD.CREATE_PERMISSION ? { code: 403, phrase: "Forbidden" } : undefined);
        await assert.rejects(relay.send("x", PEER), { name: "PermissionFailed", errorCode: 403 });
        const asked = server.count(METHOD.CREATE_PERMISSION);
        await assert.rejects(relay.send("x", PEER), { name: "PermissionFailed", message: /less than 5 s ago/ });
        assert.equal(server.count(METHOD.CREATE_PERMISSION), asked);
        await assert.rejects(relay.permit("127.0.0.1"), { errorCode: 403 });
        assert.equal(server.count(METHOD.CREATE_PERMISSION), asked + 1);
    });
});

test("sendTo refuses a peer without a permission, of another family, and data that does not fit", async () => {
    await withServer(udp, async (server, relay) => {
        assert.throws(() => relay.sendTo("x", PEER), { reason: "no-permission" });
        assert.throws(() => relay.sendTo("x", 1, "::1"), { reason: "no-allocation", message: /family: 6/ });
        await relay.permit("127.0.0.1");
        assert.throws(() => relay.sendTo(new Uint8Array(65_473), PEER), RangeError);
        assert.throws(() => relay.sendTo("x", 3480, "localhost"), TypeError);
        assert.throws(() => relay.sendTo("x", 0, "127.0.0.1"), RangeError);
        assert.throws(() => relay.sendTo(5, PEER), TypeError);
        await assert.rejects(async () => relay.send("x", 3480), TypeError);
    });
});

test("release and keep need a grant", async () => {
    await withServer(udp, async (server, relay) => {
        assert.throws(() => relay.release("127.0.0.1"), { reason: "not-granted" });
        await relay.bind(PEER);
        relay.release(PEER);
        relay.release("127.0.0.1");
        relay.keep("127.0.0.1");
        assert.throws(() => relay.keep({ address: "127.0.0.1", port: 5 }), { reason: "not-granted" });
    });
});

test("a queue that is full drops what comes later, and counts it", async () => {
    await withServer(udp, async (server, relay) => {
        await relay.permit("127.0.0.1");
        for (let at = 0; at < 5; at++) {
            server.sendData(PEER, `packet ${at}`);
        }
        await until(() => relay.dropped === 2);
        const taken = [];
        for await (const [data] of relay) {
            taken.push(Buffer.from(data).toString());
            if (taken.length === 3) {
                break;
            }
        }
        assert.deepEqual(taken, ["packet 0", "packet 1", "packet 2"]);
    }, { queue: 3 });
});

test("what a listener throws reaches the program, and the relay goes on", async () => {
    await withServer(udp, async (server, relay) => {
        await relay.permit("127.0.0.1");
        const seen = [], thrown = [], before = process.listeners("uncaughtException");
        process.removeAllListeners("uncaughtException");
        process.on("uncaughtException", (error) => thrown.push(error.message));
        relay.on("message", (data) => {
            seen.push(Buffer.from(data).toString());
            throw new Error(`about ${seen.length}`);
        });
        server.sendData(PEER, "a");
        server.sendData(PEER, "b");
        await until(() => thrown.length === 2);
        process.removeAllListeners("uncaughtException");
        before.forEach((listener) => process.on("uncaughtException", listener));
        assert.deepEqual([seen, thrown], [["a", "b"], ["about 1", "about 2"]]);
        await relay.send("still", PEER);
    });
});

test("a burst is not lost in the socket: send waits, and sendTo says what it drops", async () => {
    await withServer(udp, async (server, relay) => {
        await relay.bind(PEER);
        const before = relay.unsent, sent = Array.from({ length: 1_000 }, () => relay.sendTo(new Uint8Array(100), PEER));
        const dropped = sent.filter((it) => !it).length;
        assert.ok(dropped > 0 && dropped < 1_000);
        assert.equal(relay.unsent, before + dropped);
        await next(relay, "drain");
        for (let at = 0; at < 1_000; at++) {
            await relay.send(new Uint8Array(100), PEER);
        }
        assert.equal(relay.unsent, before + dropped);
    });
});

test("over TCP a server that does not read: send waits until it does", async () => {
    await withServer(tcp, async (server, relay) => {
        await relay.bind(PEER);
        server.sockets.forEach((socket) => socket.pause());
        let sent = 0;
        const sending = (async () => {
            for (; sent < 20_000; sent++) {
                await relay.send(new Uint8Array(1_200), PEER);
            }
        })();
        sending.catch(() => {}); // where the test fails before
        for (let before = -1; sent !== before; ) {
            before = sent;
            await new Promise((resolve) => setTimeout(resolve, 500));
        }
        assert.ok(sent < 20_000, "all was taken although nobody read");
        server.sockets.forEach((socket) => socket.resume());
        await sending;
        await until(() => server.data.length === 20_000);
        assert.equal(relay.unsent, 0);
    });
});

test("over TCP what waits in the socket is not changed by what is sent later", async () => {
    await withServer(tcp, async (server, relay) => {
        let count = 0;
        await relay.bind(PEER);
        server.sockets.forEach((socket) => socket.pause());
        while (relay.sendTo(new Uint8Array(1_200).fill(count), PEER)) {
            count++;
        }
        server.sockets.forEach((socket) => socket.resume());
        await until(() => server.data.length === count);
        assert.ok(server.data.every(({ data }, at) => data.length === 1_200 && data.every((byte) => byte === at % 256)), `of ${count} packets`);
    });
});

test("three hundred permissions at once are all granted", async () => {
    await withServer(udp, async (server, relay) => {
        const ips = Array.from({ length: 300 }, (_, at) => `10.1.${at >> 8}.${at & 255}`);
        await Promise.all(ips.map((ip) => relay.permit(ip)));
        assert.equal(server.count(METHOD.CREATE_PERMISSION), 300);
    }, { pause: 1 });
});

test("a signal gives up waiting for a permission", async () => {
    await withServer(udp, async (server, relay) => {
        server.answer = ({ method }) => (method === METHOD.CREATE_PERMISSION ? "drop" : undefined);
        await assert.rejects(relay.permit("127.0.0.1", { signal: AbortSignal.timeout(50) }), { name: "TimeoutError" });
        server.answer = () => undefined;
        await relay.permit("127.0.0.1");
    });
});
