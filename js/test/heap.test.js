// The allocator of the module beside a model: a million draws of what is taken, resized and given back.
import assert from "node:assert/strict";
import test from "node:test";
import { testModule } from "./module.js";

const DRAWS = 1_000_000, MOST_LIVE = 2_000, LAST = 2 ** 31;

/** Numbers that are the same in each run (mulberry32). */
function drawing(seed) {
    let state = seed;
    return (below) => {
        state = (state + 0x6d2b79f5) | 0;
        let it = Math.imul(state ^ (state >>> 15), 1 | state);
        it = (it + Math.imul(it ^ (it >>> 7), 61 | it)) ^ it;
        return ((it ^ (it >>> 14)) >>> 0) % below;
    };
}

/** Blocks that are in use, each with a byte that fills it, in the order in which they lie. */
class Model {
    live = [];
    #memory;

    constructor(memory) {
        this.#memory = memory;
    }

    fill({ place, len, byte }) {
        new Uint8Array(this.#memory.buffer, place, len).fill(byte);
    }

    /** Whether the first bytes of a block are those that it was filled with: of a long one its ends. */
    holds({ place, byte }, len) {
        const bytes = new Uint8Array(this.#memory.buffer, place, len);
        for (let at = 0; at < len; at = at === 32 && len > 64 ? len - 32 : at + 1) {
            if (bytes[at] !== byte) {
                return false;
            }
        }
        return true;
    }

    /** Whether no two blocks overlap, and all lie in the memory at multiples of 16. */
    isApart() {
        const sorted = [...this.live].sort((a, b) => a.place - b.place);
        const ends = sorted.map(({ place, len }) => place + len);
        return sorted.every(({ place }, at) => place % 16 === 0 && place > 0 && (at === 0 || ends[at - 1] <= place)) &&
            (ends.length === 0 || ends[ends.length - 1] <= this.#memory.buffer.byteLength);
    }
}

const sizeOf = (draw) => (draw(100) === 0 ? draw(200_000) : draw(10) === 0 ? draw(5_000) : draw(200));

function step(exports, model, draw, at) {
    const way = draw(10), byte = at & 255;
    if (model.live.length < MOST_LIVE && (way < 5 || model.live.length === 0)) {
        const len = sizeOf(draw), place = exports.alloc(len);
        assert.notEqual(place, 0);
        const block = { place, len, byte };
        model.fill(block);
        model.live.push(block);
        return;
    }
    const index = draw(model.live.length), block = model.live[index];
    assert.ok(model.holds(block, block.len), `draw ${at}: a block was written over`);
    if (way < 8) {
        exports.dealloc(block.place);
        model.live[index] = model.live[model.live.length - 1];
        model.live.pop();
        return;
    }
    const len = Math.max(1, sizeOf(draw)), place = exports.realloc(block.place, block.len, len);
    assert.notEqual(place, 0);
    assert.ok(model.holds({ place, byte: block.byte }, Math.min(len, block.len)), `draw ${at}: a move lost bytes`);
    Object.assign(block, { place, len, byte });
    model.fill(block);
}

test("a million draws: no two blocks overlap, and what is given back is joined", async () => {
    const { exports } = await testModule(), model = new Model(exports.memory), draw = drawing(1);
    for (let at = 0; at < DRAWS; at++) {
        step(exports, model, draw, at);
        if (at % 20_000 === 0) {
            assert.ok(model.isApart(), `draw ${at}: blocks overlap`);
        }
    }
    assert.ok(model.isApart());
    const most = exports.memory.buffer.byteLength;
    assert.ok(most < 40_000_000, `the memory has ${most} bytes, for ${MOST_LIVE} blocks at most`);
    model.live.forEach(({ place }) => exports.dealloc(place));
    // All of it is one block again: nine tenths of the memory can be had at once, and it does not grow for that.
    const whole = exports.alloc(Math.floor(most * 0.85));
    assert.notEqual(whole, 0);
    assert.equal(exports.memory.buffer.byteLength, most);
});

test("the memory stays as large as it is, however often blocks are taken and given back", async () => {
    const { exports } = await testModule(), turn = () => {
        const places = [24, 1500, 65556, 40, 9000].map((len) => exports.alloc(len));
        [2, 0, 4, 1, 3].forEach((at) => exports.dealloc(places[at]));
    };
    turn();
    const before = exports.memory.buffer.byteLength;
    for (let at = 0; at < 200_000; at++) {
        turn();
    }
    assert.equal(exports.memory.buffer.byteLength, before);
});

test("what cannot be had is refused, and nothing else changes", async () => {
    const { exports } = await testModule();
    assert.equal(exports.alloc(LAST + 1), 0);
    assert.equal(exports.alloc(2 ** 32 - 1), 0);
    const kept = exports.alloc(100);
    new Uint8Array(exports.memory.buffer, kept, 100).fill(7);
    exports.limit(exports.memory.buffer.byteLength + 1_000_000);
    const places = [];
    for (let place; (place = exports.alloc(100_000)) !== 0; ) {
        places.push(place);
    }
    assert.ok(places.length >= 8 && places.length <= 30, `${places.length} blocks of 100,000 bytes`);
    assert.equal(exports.realloc(kept, 100, 3_000_000), 0);
    assert.ok(new Uint8Array(exports.memory.buffer, kept, 100).every((it) => it === 7));
    exports.dealloc(places[0]);
    assert.notEqual(exports.alloc(100_000), 0);
});

test("one allocation is refused, the one that is named", async () => {
    const { exports } = await testModule();
    exports.refuse(2);
    assert.deepEqual([exports.alloc(1), exports.alloc(1), exports.alloc(1)].map((it) => it !== 0), [true, false, true]);
});
