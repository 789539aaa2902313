// What users of dgram expect of a relay: a socket of their own, the forms of send, callbacks, sizes of packets, and codes of errors.
import assert from "node:assert/strict";
import dgram from "node:dgram";
import diagnostics from "node:diagnostics_channel";
import net from "node:net";
import test from "node:test";
import { next, openRelay, tcp, udp, until, urlOf, withServer } from "./relays.js";
import { Server, dataOf } from "./server.js";
import { METHOD } from "./stun.js";

const PEER = { address: "127.0.0.1", port: 3480, family: "IPv4" };
const FORBIDDEN = ({ method }) => (method === METHOD.CREATE_PERMISSION ? { code: 403, phrase: "Forbidden" } : undefined);
const texts = (server) => server.data.map(({ data }) => String(data));
const fromPort = (server) => server.requests.map(({ from }) => from.port);

/** A socket over UDP that is bound to a port of the system's. */
async function boundSocket() {
    const socket = dgram.createSocket("udp4");
    await new Promise((resolve) => socket.bind(0, "127.0.0.1", resolve));
    return socket;
}

test("send takes the forms of dgram: a part of the data, several parts, a callback behind each", async () => {
    await withServer(udp, async (server, relay) => {
        const bytes = Buffer.from("a hello b");
        await relay.send(bytes, 2, 5, 3480, "127.0.0.1");
        await relay.send("another", 2, 3, PEER);
        await relay.send([Buffer.from("in "), "two", new Uint8Array()], PEER);
        assert.equal(await new Promise((resolve) => relay.send(bytes, 8, 1, 3480, "127.0.0.1", resolve)), null);
        assert.equal(await new Promise((resolve) => relay.send("last", PEER, resolve)), null);
        await until(() => server.data.length === 5);
        assert.deepEqual(texts(server), ["hello", "oth", "in two", "b", "last"]);
        for (const part of [[0, 10], [9, 1], [-1, 2], [0, -1], [0.5, 1], [NaN, 1]]) {
            assert.throws(() => relay.send(bytes, ...part, PEER), { name: "RangeError", message: /^data has 9 bytes/ });
        }
    });
});

test("what is no call of send is thrown at once, also where nobody waits for it", async () => {
    await withServer(udp, async (_server, relay) => {
        assert.throws(() => relay.send(5, PEER), TypeError);
        assert.throws(() => relay.send("x", 3480), TypeError);
        assert.throws(() => relay.send("x", 70_000, "127.0.0.1"), RangeError);
        assert.throws(() => relay.send("x", PEER, "then"), TypeError);
        assert.throws(() => relay.send("x", 0, 1, 3480), TypeError);
    });
});

test("a send that nobody waits for does not end the program, and its failure is published", async () => {
    await withServer(udp, async (server, relay) => {
        const failures = [], onFailure = (message) => failures.push(message), unhandled = [], onUnhandled = (error) => unhandled.push(error);
        diagnostics.channel("yarrowdoor:send-failed").subscribe(onFailure);
        process.on("unhandledRejection", onUnhandled);
        server.answer = FORBIDDEN;
        relay.send("x", PEER);
        await until(() => failures.length === 1);
        await new Promise((resolve) => setTimeout(resolve, 20));
        process.off("unhandledRejection", onUnhandled);
        diagnostics.channel("yarrowdoor:send-failed").unsubscribe(onFailure);
        assert.deepEqual(unhandled, []);
        assert.deepEqual([failures[0].relay, failures[0].peer.port, failures[0].error.code], [relay, 3480, "ERR_TURN_PERMISSION_FAILED"]);
    });
});

test("a signal gives up a send: while it waits for a permission, and for room in the socket", async (context) => {
    await withServer(udp, async (server, relay) => {
        server.answer = ({ method }) => (method === METHOD.CREATE_PERMISSION ? "drop" : undefined);
        await assert.rejects(relay.send("x", PEER, { signal: AbortSignal.timeout(50) }), { name: "TimeoutError" });
        await assert.rejects(relay.send("x", 3480, "127.0.0.1", { signal: AbortSignal.abort(new Error("no")) }), { message: "no" });
        server.answer = () => undefined;
        await relay.permit("127.0.0.1");
        const sent = [], waiting = context.mock.method(dgram.Socket.prototype, "send", (_data, callback) => sent.push(callback));
        const controller = new AbortController(), full = Array.from({ length: 256 }, () => relay.send("full", PEER));
        const late = relay.send("late", PEER, { signal: controller.signal });
        await Promise.all(full);
        controller.abort(new Error("enough"));
        await assert.rejects(late, { message: "enough" });
        sent.splice(0).forEach((callback) => callback(null));
        await relay.send("then", PEER);
        assert.equal(sent.length, 1);
        waiting.mock.restore();
        sent[0](null);
    });
});

test("a packet has its size beside its sender, as a message and where it is taken", async () => {
    await withServer(udp, async (server, relay) => {
        await relay.permit("127.0.0.1");
        server.sendData(PEER, "taken");
        for await (const [data, peer] of relay) {
            assert.deepEqual([String(data), peer], ["taken", { ...PEER, size: 5 }]);
            break;
        }
        const told = next(relay, "message");
        server.sendData(PEER, "as a message");
        assert.deepEqual((await told)[1], { ...PEER, size: 12 });
    });
});

test("close calls back, also the second time, and each error has a text as its code", async () => {
    await withServer(udp, async (_server, relay) => {
        const refused = (() => {
            try {
                relay.release("127.0.0.1");
            } catch (error) {
                return error;
            }
        })();
        assert.deepEqual([refused.reason, refused.code], ["not-granted", "ERR_TURN_NOT_GRANTED"]);
        await assert.rejects(relay.close("then"), TypeError);
        assert.equal(relay.closed, false);
        await new Promise((resolve) => relay.close(resolve));
        assert.equal(relay.closed, true);
        await new Promise((resolve) => relay.close(resolve));
        await assert.rejects(relay.permit("127.0.0.1"), { code: "ERR_TURN_ENDED" });
    });
});

test("a socket has the own address and port that the user says, over UDP and TCP", async () => {
    for (const make of [udp, tcp]) {
        await withServer(make, async (server) => {
            const taken = await boundSocket(), { port } = taken.address();
            await new Promise((resolve) => taken.close(resolve));
            const relay = await openRelay(server, { localAddress: "127.0.0.1", localPort: port });
            assert.deepEqual([relay.localAddress().port, new Set(fromPort(server))], [port, new Set([port])]);
            await relay.close();
        }, null);
    }
    await withServer(udp, async (server) => {
        await assert.rejects(openRelay(server, { localAddress: "::1" }), { reason: "allocation-failed", message: /has no IPv6 address/ });
        const socket = await boundSocket(), { port } = socket.address();
        await assert.rejects(openRelay(server, { localPort: port, localAddress: "127.0.0.1" }), { message: /EADDRINUSE/ });
        socket.close();
    }, null);
});

test("with an own port there is one socket at a time: the next address is tried when the one before has failed", async () => {
    const silent = await Server.udp("127.0.0.2"), good = await Server.udp("127.0.0.1", silent.port), free = await boundSocket();
    const { port } = free.address(), times = { initial: 50, longest: 100, last: 300, count: 2 };
    await new Promise((resolve) => free.close(resolve));
    silent.answer = () => "drop";
    const options = { urls: `turn:two.example:${silent.port}`, lookup: async () => ["127.0.0.2", "127.0.0.1"], localPort: port, times };
    const relay = await openRelay(good, options);
    assert.deepEqual([new Set(fromPort(silent)), new Set(fromPort(good))], [new Set([port]), new Set([port])]);
    await relay.close();
    silent.close();
    good.close();
});

test("a socket of the user is used, and closed with the relay: over UDP bound, or connected, and over TCP connected", async () => {
    for (const isConnected of [false, true]) {
        await withServer(udp, async (server) => {
            const socket = await boundSocket(), { port } = socket.address(), closed = next(socket, "close");
            isConnected && (await new Promise((resolve) => socket.connect(server.port, "127.0.0.1", resolve)));
            const relay = await openRelay(server, { socket });
            await assert.rejects(openRelay(server, { socket }), TypeError);
            await relay.permit("127.0.0.1");
            assert.deepEqual(new Set(fromPort(server)), new Set([port]));
            await relay.close();
            await closed;
        }, null);
    }
    await withServer(tcp, async (server) => {
        const socket = net.connect(server.port, "127.0.0.1"), closed = next(socket, "close");
        await next(socket, "connect");
        const relay = await openRelay(server, { socket }), told = next(relay, "message");
        await relay.permit("127.0.0.1");
        [...server.clients.values()][0](dataOf(PEER, "over it"));
        assert.equal(String((await told)[0]), "over it");
        await relay.close();
        await closed;
    }, null);
});

test("a socket of the user that does not fit is refused, and one that is not used is closed", async () => {
    await withServer(tcp, async (server) => {
        const text = net.connect(server.port, "127.0.0.1").setEncoding("utf8"), early = net.connect(server.port, "127.0.0.1");
        await next(text, "connect");
        await assert.rejects(openRelay(server, { socket: text }), TypeError);
        await assert.rejects(openRelay(server, { socket: net.connect(server.port, "127.0.0.1").on("error", () => {}) }), TypeError);
        [text, early].forEach((socket) => socket.destroy());
    }, null);
    await withServer(udp, async (server) => {
        const socket = await boundSocket(), closed = next(socket, "close");
        for (const wrong of [{ urls: [urlOf(server), "turn:127.0.0.1"] }, { localPort: 0 }, { urls: `${urlOf(server)}?transport=tcp` }]) {
            await assert.rejects(openRelay(server, { socket, ...wrong }), TypeError);
        }
        await assert.rejects(openRelay(server, { socket: new net.Socket() }), TypeError);
        const lookup = async () => Promise.reject(new Error("not found"));
        await assert.rejects(openRelay(server, { socket, urls: "turn:nowhere.example", lookup }), { reason: "allocation-failed" });
        await closed;
    }, null);
});

test("what happens to a relay is published: opened, messages of the server, ended", async () => {
    const seen = [], names = ["open", "message-sent", "message-received", "end"].map((name) => `yarrowdoor:${name}`);
    const listen = (message, name) => seen.push([name, message]);
    names.forEach((name) => diagnostics.channel(name).subscribe(listen));
    await withServer(udp, async (server, relay) => {
        await relay.permit("127.0.0.1");
        const told = next(relay, "message");
        server.sendData(PEER, "data of peers is not published");
        await told;
        await relay.close();
        const of = (name) => seen.filter((it) => it[0] === `yarrowdoor:${name}`).map((it) => it[1]);
        assert.deepEqual([of("open"), of("end")], [[{ relay }], [{ relay, error: undefined }]]);
        assert.deepEqual(of("message-sent").map(({ data }) => data.toString("hex")), server.requests.map(({ bytes }) => bytes.toString("hex")));
        assert.equal(of("message-received").length, server.requests.length);
        assert.ok(of("message-sent").every((it) => it.server === urlOf(server)));
    });
    names.forEach((name) => diagnostics.channel(name).unsubscribe(listen));
});
