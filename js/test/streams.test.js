// Streams to peers over TCP (RFC 6062), by a server of the tests: what is refused, back-pressure, offers of peers, and ends.
import assert from "node:assert/strict";
import { randomBytes } from "node:crypto";
import diagnostics from "node:diagnostics_channel";
import test from "node:test";
import { LINGER } from "../src/node/lingering.js";
import { next, openRelay, tcp, udp, until, urlOf, withServer } from "./relays.js";
import { CLASS, METHOD, message } from "./stun.js";

const PEER = { address: "127.0.0.1", port: 3480 }, ALLOCATION = { allocation: "tcp" }, SIZE = 1_000_000;
/** More than a reader that waits lets in, and less than all. */
const MOST_WAITING = 200_000;
/** The data connection that was bound last. */
const last = (server) => server.bound.get(server.connections);

test("calls that do not fit the allocation are refused", async () => {
    await withServer(udp, async (server, relay) => {
        await assert.rejects(relay.connect(PEER), { name: "TypeError", message: /allocation: "tcp"/ });
        await assert.rejects(openRelay(server, ALLOCATION), { name: "TypeError", message: /needs a URI over TCP/ });
        await assert.rejects(openRelay(server, { allocation: "sctp" }), TypeError);
    });
    await withServer(tcp, async (server, relay) => {
        await assert.rejects(async () => relay.send("x", PEER), { name: "TypeError", message: /no datagrams/ });
        await relay.permit(PEER.address);
        assert.throws(() => relay.sendTo("x", PEER), TypeError);
        await assert.rejects(relay.bind(PEER), TypeError);
        await assert.rejects(relay.connect("127.0.0.1"), TypeError);
        await assert.rejects(relay.connect({ address: "::1", port: 9 }), { reason: "no-allocation" });
        assert.equal(server.data.length, 0);
        await (await openRelay(server, { ...ALLOCATION, urls: ["turn:127.0.0.1:9", urlOf(server)] })).close(); // that over UDP is skipped
    }, ALLOCATION);
});

test("a slow reader stops the server, and has all in the end", async () => {
    await withServer(tcp, async (server, relay) => {
        const stream = await relay.connect(PEER), sent = randomBytes(SIZE), came = [];
        last(server).write(sent);
        await until(() => stream.readableLength > 0);
        await new Promise((resolve) => setTimeout(resolve, 100));
        assert.ok(stream.readableLength < MOST_WAITING, `${stream.readableLength} bytes wait`);
        last(server).end();
        for await (const piece of stream) {
            came.push(piece);
            await new Promise((resolve) => setTimeout(resolve, 1));
        }
        assert.ok(Buffer.concat(came).equals(sent));
    }, ALLOCATION);
});

test("a server that does not read stops the writer, who goes on when it does", async () => {
    await withServer(tcp, async (server, relay) => {
        const stream = await relay.connect(PEER), piece = Buffer.alloc(SIZE, "x");
        let written = 0, came = 0;
        last(server).pause();
        for (let isTaken = true; isTaken && written < 100 * SIZE; written += SIZE) {
            stream.write(piece);
            isTaken = await Promise.race([next(stream, "drain"), new Promise((resolve) => setTimeout(resolve, 200))]);
        }
        assert.ok(stream.writableNeedDrain && stream.writableLength > 0, `${written} bytes are written`);
        last(server).on("data", ({ length }) => (came += length)).resume();
        await next(stream, "drain");
        await until(() => came === written);
    }, ALLOCATION);
});

test("what comes right behind the answer that binds is the peer's, also where it looks like a message", async () => {
    await withServer(tcp, async (server, relay) => {
        const looksSo = message(METHOD.BINDING, CLASS.SUCCESS, Buffer.alloc(12, 7), []), seen = [], listen = ({ data }) => seen.push(data);
        diagnostics.channel("yarrowdoor:message-received").subscribe(listen);
        server.answer = ({ method, from }) => {
            if (method === METHOD.CONNECTION_BIND) {
                const socket = [...server.sockets].find(({ remotePort }) => remotePort === from.port);
                socket.cork(); // both leave as one piece
                setImmediate(() => {
                    socket.write(looksSo);
                    socket.uncork();
                });
            }
        };
        const stream = await relay.connect(PEER);
        assert.ok((await next(stream, "data"))[0].equals(looksSo));
        assert.equal(seen.some((data) => data.equals(looksSo)), false);
        diagnostics.channel("yarrowdoor:message-received").unsubscribe(listen);
    }, ALLOCATION);
});

test("a write after the peer has closed is EPIPE", async () => {
    await withServer(tcp, async (server, relay) => {
        const stream = await relay.connect(PEER), told = next(stream, "error"), closed = next(last(server).resume(), "close");
        last(server).end("unread");
        await closed;
        assert.equal(stream.destroyed, false); // its end waits for a reader
        stream.write("x");
        assert.equal((await told)[0].code, "EPIPE");
    }, ALLOCATION);
});

test("a CONNECT that is refused is named with its code", async () => {
    await withServer(tcp, async (server, relay) => {
        server.answer = ({ method }) => (method === METHOD.CONNECT ? { code: 446, phrase: "Connection Already Exists" } : undefined);
        await assert.rejects(relay.connect(PEER), { name: "ConnectFailed", code: "ERR_TURN_CONNECT_FAILED", errorCode: 446 });
    }, ALLOCATION);
});

test("a data connection that cannot be opened is named with its cause", async () => {
    await withServer(tcp, async (server, relay) => {
        await relay.permit(PEER.address);
        server.listener.close();
        await assert.rejects(relay.connect(PEER), (error) => error.reason === "connect-failed" && error.cause.code === "ECONNREFUSED");
    }, ALLOCATION);
});

test("a data connection that is closed before it is bound is tried once more", async () => {
    await withServer(tcp, async (server, relay) => {
        let closed = 0, most = 1;
        server.answer = ({ method, from }) => {
            const isClosed = method === METHOD.CONNECTION_BIND && closed < most;
            if (isClosed) {
                closed++;
                [...server.sockets].find(({ remotePort }) => remotePort === from.port).destroy();
            }
            return isClosed ? "drop" : undefined;
        };
        (await relay.connect(PEER)).destroy();
        assert.equal(server.count(METHOD.CONNECT), 2);
        [closed, most] = [0, 2];
        await assert.rejects(relay.connect({ ...PEER, port: 3481 }), { reason: "connect-failed", message: /closed the connection/ });
        assert.equal(server.count(METHOD.CONNECT), 4);
    }, ALLOCATION);
});

test("a connect that is given up is closed when it is bound, and another one finds none", async () => {
    await withServer(tcp, async (server, relay) => {
        const giveUp = new AbortController(), given = assert.rejects(relay.connect(PEER, undefined, giveUp), { name: "AbortError" });
        await assert.rejects(relay.connect(PEER), { reason: "already-exists" });
        giveUp.abort();
        await given;
        (await relay.connect({ ...PEER, port: 3481 })).destroy();
        const again = new AbortController(), late = assert.rejects(relay.connect(PEER, undefined, again), { name: "AbortError" });
        await until(() => server.count(METHOD.CONNECT) === 2);
        again.abort();
        await late;
        await until(() => server.bound.size === 2);
        const socket = last(server).resume();
        await until(() => socket.destroyed);
        const stream = await relay.connect(PEER);
        stream.write("x");
        assert.equal(String((await next(last(server), "data"))[0]), "x");
    }, ALLOCATION);
});

test("64 connections of peers wait for a listener, and no more", async () => {
    await withServer(tcp, async (server, relay) => {
        server.offer(PEER); // nobody has permitted it
        await relay.permit(PEER.address);
        for (let port = 1; port <= 64; port++) {
            server.offer({ ...PEER, port });
        }
        await until(() => server.bound.size === 64);
        server.offer({ ...PEER, port: 65 });
        await new Promise((resolve) => setTimeout(resolve, 100));
        assert.deepEqual([server.bound.size, server.bound.has(1)], [64, false]);
        const [first] = server.bound.values(), told = [];
        await new Promise((resolve) => first.resetAndDestroy().once("close", resolve)); // it is gone before anybody has it
        relay.on("connection", (stream) => told.push(stream));
        await until(() => told.length === 63);
        server.offer({ ...PEER, port: 66 });
        await until(() => told.length === 64);
        assert.deepEqual([told[0].remotePort, told[63].remotePort, told.some(({ destroyed }) => destroyed)], [2, 66, false]);
    }, ALLOCATION);
});

test("the end of a relay by itself destroys its streams with its error, one by abandon without", async () => {
    await withServer(tcp, async (server, relay) => {
        const stream = await relay.connect(PEER), ended = next(relay, "error"), told = next(stream, "error");
        [...server.sockets].find(({ remotePort }) => remotePort === relay.localAddress().port).destroy();
        assert.deepEqual([(await told)[0].reason, (await told)[0].message], ["ended", (await ended)[0].message]);
        assert.equal(stream.destroyed, true);
    }, ALLOCATION);
    await withServer(tcp, async (server, relay) => {
        const stream = await relay.connect(PEER), told = Promise.race([next(stream, "error"), next(stream, "close")]);
        relay.abandon();
        assert.deepEqual(await told, []);
    }, ALLOCATION);
});

test("connect ends with the relay", async () => {
    await withServer(tcp, async (server, relay) => {
        server.answer = ({ method }) => (method === METHOD.CONNECT ? "drop" : undefined);
        const connecting = assert.rejects(relay.connect(PEER), { reason: "ended" });
        await until(() => server.count(METHOD.CONNECT) === 1);
        await relay.close();
        await connecting;
    }, ALLOCATION);
});

test("destroy closes the data connection at once, and the peer can be connected to again", async () => {
    await withServer(tcp, async (server, relay) => {
        const stream = await relay.connect(PEER), told = next(stream, "error"), error = new Error("not wanted"), closed = next(last(server), "close");
        last(server).resume();
        stream.destroy(error);
        assert.equal((await told)[0], error);
        await closed;
        const other = await relay.connect(PEER), ended = next(other.resume(), "end");
        last(server).end("the last");
        await ended;
        await next(other, "close");
    }, ALLOCATION);
});

test("a stream is closed a second after its last byte has left, and the relayed address deleted after it", async () => {
    await withServer(tcp, async (server, relay) => {
        const stream = await relay.connect(PEER), unused = await relay.connect({ ...PEER, port: 3481 }), start = performance.now();
        await next(unused.end(), "close");
        assert.ok(performance.now() - start < LINGER);
        const refreshes = server.count(METHOD.REFRESH), socket = server.bound.get(1);
        let came = "", closed = Infinity;
        socket.on("data", (data) => (came += data)).on("close", () => (closed = server.count(METHOD.REFRESH)));
        stream.write("");
        stream.write("all of ");
        stream.write("it");
        const written = performance.now();
        await relay.close();
        assert.ok(performance.now() - written >= LINGER);
        assert.deepEqual([came, closed, server.count(METHOD.REFRESH)], ["all of it", refreshes, refreshes + 1]);
        assert.equal(stream.writableFinished, true);
    }, ALLOCATION);
});

test("a stream is not closed while the system still has bytes of it", { skip: process.platform !== "linux" }, async () => {
    await withServer(tcp, async (server, relay) => {
        const stream = await relay.connect(PEER), socket = last(server).pause(), closed = next(stream, "close");
        let came = 0;
        await new Promise((resolve) => stream.write(Buffer.alloc(SIZE), resolve)); // the system has it, and the server has not read it
        stream.end();
        await new Promise((resolve) => setTimeout(resolve, 2 * LINGER));
        assert.equal(stream.closed, false);
        socket.on("data", ({ length }) => (came += length)).resume();
        await closed;
        await until(() => socket.destroyed);
        assert.equal(came, SIZE);
    }, ALLOCATION);
});
