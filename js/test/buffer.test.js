// Buffers in the memory of the module: what lies in them is taken and given in place.
import assert from "node:assert/strict";
import test from "node:test";
import { LastAddress, putAddress } from "../src/address.js";
import { ModuleBuffer } from "../src/index.js";
import { moduleOf } from "../src/library.js";
import { NOW, PEER, SERVER_ADDRESS, boundClient, channelData } from "./handshake.js";
import { newLibrary } from "./module.js";

const hex = (bytes) => Buffer.from(bytes).toString("hex");

/** A client over a library of its own, with a buffer that has ChannelData of five bytes at offset 16, and another one. */
async function made() {
    const library = await newLibrary(), client = boundClient(library), input = client.buffer(2_048), output = client.buffer(2_048);
    input.bytes.set(channelData(5), 16);
    return { library, client, input, output };
}

/** Lets the memory of the module grow. */
function grow(library) {
    const before = library.memorySize;
    moduleOf(library).dealloc(moduleOf(library).alloc(before));
    assert.ok(library.memorySize > before);
}

test("recvFrom tells by one object where data of a peer lies", async () => {
    const { client, input } = await made(), answer = client.recvFrom(input, 16, 9, NOW), { kind, start, length, peer, transport, data } = answer;
    assert.deepEqual({ kind, start, length, peer, transport, data: hex(data) },
        { kind: "peer-data", start: 20, length: 5, peer: PEER, transport: "udp", data: "5555555555" });
    assert.equal(data.byteOffset, input.bytes.byteOffset + 20);
    input.bytes.set(channelData(7, 0x66), 100);
    assert.equal(client.recvFrom(input, 100, 11, 100), answer);
    assert.deepEqual([answer.start, answer.length, hex(answer.data)], [104, 7, "66666666666666"]);
    assert.equal(answer.peer, peer);
    assert.deepEqual(client.recvFrom(input, 0, 16, NOW), { kind: "ignored" });
});

test("sendFrom writes the packet of sendTo to the front of another buffer", async () => {
    const { client, input, output } = await made(), packet = client.sendFrom(PEER, input, 20, 5, NOW, output);
    const { length, transport, local, remote, data } = packet, wanted = client.sendTo(PEER, input.bytes.slice(20, 25), NOW);
    assert.deepEqual({ data: Uint8Array.from(data), transport, local, remote }, wanted);
    assert.equal(length, 12);
    assert.equal(data.byteOffset, output.bytes.byteOffset);
    assert.equal(client.sendFrom(PEER, input, 0, 0, 100, output), packet);
    assert.equal(hex(packet.data), "40000000");
    assert.deepEqual(remote, { ...SERVER_ADDRESS, family: "IPv4" });
    assert.throws(() => client.sendFrom({ address: "10.0.0.9", port: 1 }, input, 0, 5, NOW, output), { reason: "no-permission" });
});

test("data is passed on to a peer where it lies", async () => {
    const { client, input, output } = await made(), { peer, start, length } = client.recvFrom(input, 16, 9, NOW);
    assert.equal(hex(client.sendFrom(peer, input, start, length, NOW, output).data), "400000055555555555000000");
});

test("a part that a buffer does not have, another library's buffer and bytes that are none are refused", async () => {
    const { client, input, output } = await made(), other = (await newLibrary()).buffer(2_048), freed = client.buffer(100);
    freed.free();
    const parts = [[0, 2_049], [2_048, 1], [-1, 5], [0, -1], [0.5, 1], [0, 1.5], [2 ** 32, 1], [0, 2 ** 32], ["0", 1], [0, undefined], [NaN, 1]];
    parts.forEach(([offset, length]) => {
        assert.throws(() => client.recvFrom(input, offset, length, NOW), { name: "RangeError", message: /^buffer has 2048 bytes/ });
        assert.throws(() => client.sendFrom(PEER, input, offset, length, NOW, output), { name: "RangeError", message: /^buffer has 2048 bytes/ });
    });
    [other, input.bytes, undefined, null, { place: input.place, length: 2_048 }].forEach((wrong) => {
        assert.throws(() => client.recvFrom(wrong, 0, 5, NOW), { name: "TypeError", message: /^buffer is a buffer/ });
        assert.throws(() => client.sendFrom(PEER, input, 0, 5, NOW, wrong), { name: "TypeError", message: /^into is a buffer/ });
    });
    assert.throws(() => client.recvFrom(freed, 0, 1, NOW), RangeError);
    assert.throws(() => client.sendFrom(PEER, input, 0, 1_985, NOW, output), { name: "RangeError", message: /^into has 2048 bytes, and not 2049/ });
    [-1, 0.5, NaN, 2 ** 31, "9"].forEach((length) => assert.throws(() => client.buffer(length), RangeError));
    assert.equal(client.recvFrom(input, 16, 9, NOW).length, 5);
});

test("a packet is not written over its own data", async () => {
    const { client, library, input } = await made(), { bytes } = moduleOf(library), both = (place) => bytes.subarray(place, place + 100);
    assert.throws(() => client.sendFrom(PEER, input, 20, 5, NOW, input), { name: "RangeError", message: /is to be written/ });
    assert.throws(() => client.sendFrom(PEER, input, 68, 5, NOW, input), RangeError);
    assert.equal(client.sendFrom(PEER, input, 69, 5, NOW, input).length, 12);
    assert.throws(() => client.sendTo(PEER, both(input.place), NOW, { into: bytes.subarray(input.place + 99, input.place + 400) }), RangeError);
    assert.equal(client.sendTo(PEER, both(input.place), NOW, { into: bytes.subarray(input.place + 100, input.place + 400) }).data.length, 104);
});

test("after the memory has grown a buffer has its bytes, and what was taken of it before is refused", async () => {
    const { library, client, input, output } = await made(), stale = input.bytes.subarray(16, 25);
    assert.equal(client.recvFrom(input, 16, 9, NOW).length, 5);
    grow(library);
    assert.equal(stale.length, 0);
    assert.throws(() => client.recv(stale, NOW), { name: "TypeError", message: /is gone/ });
    assert.throws(() => client.sendTo(PEER, stale, NOW), { name: "TypeError", message: /is gone/ });
    assert.equal(hex(input.bytes.subarray(16, 25)), hex(channelData(5)));
    assert.equal(hex(client.recvFrom(input, 16, 9, NOW).data), "5555555555");
    assert.equal(hex(client.sendFrom(PEER, input, 20, 5, NOW, output).data), "400000055555555555000000");
    assert.equal(client.recv(new Uint8Array(), NOW).kind, "ignored");
});

test("a buffer is freed once, and its memory is had again", async () => {
    const { library, client } = await made(), first = client.buffer(1_000), { place } = first;
    first.free();
    const second = library.buffer(1_000);
    assert.equal(second.place, place);
    first.free();
    first[Symbol.dispose ?? Symbol.for("Symbol.dispose")]();
    assert.notEqual(library.buffer(1_000).place, place);
    assert.deepEqual([first.length, first.bytes.length, second.bytes.length], [0, 0, 1_000]);
    const before = library.memorySize;
    for (let at = 0; at < 100_000; at++) {
        client.buffer(60_000).free();
    }
    assert.equal(library.memorySize, before);
    assert.ok(second instanceof ModuleBuffer);
});

test("bytes in the memory of the module are copied whole also where that grows for them", async () => {
    const { library } = await made(), long = library.buffer(3_000_000);
    long.bytes.fill(7);
    const copy = moduleOf(library).inputOf(long.bytes);
    assert.notEqual(copy, long);
    assert.ok(copy.bytes.subarray(0, 3_000_000).every((byte) => byte === 7));
});

test("the same peer is the same object, and each part of an address counts", () => {
    const addresses = [
        { address: "10.0.0.3", port: 9000 }, { address: "10.0.0.3", port: 9001 }, { address: "10.0.1.3", port: 9001 },
        { address: "2001:db8::1", port: 9001 }, { address: "2001:db8::2", port: 9001 }, { address: "2001:db8::2:0:0:2", port: 9001 },
        { address: "2001:db8::2:0:0:2", port: 9001, flow: 1, scope: 0 }, { address: "2001:db8::2:0:0:2", port: 9001, flow: 1, scope: 2 },
        { address: "::", port: 0 }, { address: "0.0.0.0", port: 0 },
    ];
    const bytes = new Uint8Array(28), view = new DataView(bytes.buffer), last = new LastAddress();
    addresses.forEach((address) => {
        putAddress(bytes, view, 0, address, "address");
        const found = last.at(view, 0);
        assert.deepEqual(found, { ...address, family: address.address.includes(":") ? "IPv6" : "IPv4" });
        assert.equal(last.at(view, 0), found);
        assert.ok(Object.isFrozen(found));
    });
});
