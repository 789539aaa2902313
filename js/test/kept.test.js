// How many grants are kept, and what warns where there are more.
import assert from "node:assert/strict";
import test from "node:test";
import { keptGrants, longestPause } from "../src/index.js";
import { library } from "./module.js";
import { fastClock, udp, until, withServer } from "./relays.js";

const shared = await library();

/** Whether so many grants are refreshed in time, as the guarantee has it, in milliseconds. */
const isKept = (count, { late, delay, slots, extras, pause, refreshAhead }) =>
    (count + slots + extras) * (pause + late) + delay + late < Math.min(refreshAhead, 150_000);

test("how many grants are kept, and with which pause: one more is not, nor are they with a longer one", () => {
    for (const late of [0, 2, 15.6]) {
        for (const [pause, refreshAhead, delay, slots, extras] of [[5, 150_000, 450, 1, 0], [50, 60_000, 450, 1, 0], [5, 150_000, 3_000, 8, 40]]) {
            const load = { late, delay, slots, extras, pause, refreshAhead }, count = keptGrants(shared, load);
            assert.deepEqual([isKept(count, load), isKept(count + 1, load)], [true, false], JSON.stringify(load));
            const longest = longestPause(shared, count, load);
            assert.ok(longest >= pause && isKept(count, { ...load, pause: longest }) && !isKept(count, { ...load, pause: longest + 1e-6 }));
            assert.equal(longestPause(shared, 10_000_000, load) === undefined, late > 0);
        }
    }
    const punctual = { late: 0, delay: 450, pause: 0 };
    assert.equal(keptGrants(shared, punctual), Infinity);
    assert.equal(keptGrants(shared, { late: 2n * 1_000_000n, delay: 450_000_000n }), keptGrants(shared, { late: 2, delay: 450 }));
    assert.equal(keptGrants(shared, { late: 70_000, delay: 0 }), 0);
});

test("a load that is none is refused", () => {
    const good = { late: 1, delay: 1 };
    for (const wrong of [{ late: -1 }, { delay: NaN }, { slots: 0.5 }, { extras: -1 }, { slots: 2 ** 32 }, { pause: -1 }, { refreshAhead: Infinity }]) {
        assert.throws(() => keptGrants(shared, { ...good, ...wrong }), RangeError, JSON.stringify(wrong));
    }
    assert.throws(() => keptGrants(shared, { delay: 1 }), TypeError);
    [0, -1, 0.5, NaN].forEach((count) => assert.throws(() => longestPause(shared, count, good), RangeError));
});

test("a relay with more grants than are kept warns, and once", async () => {
    const warnings = [], listen = (warning) => warning.code === "TURN_MANY_GRANTS" && warnings.push(warning);
    process.on("warning", listen);
    await withServer(udp, async (_server, relay) => {
        for (let at = 1; at < 40; at++) {
            await relay.permit(`10.0.0.${at}`);
        }
        await until(() => warnings.length > 0);
        assert.deepEqual(warnings.map(({ name }) => name), ["RelayWarning"]);
        assert.match(warnings[0].message, /grants, and \d+ are sure .* pause \(100 ms\) .* refreshAhead \(3000 ms\)/);
    }, { pause: 100, refreshAhead: 3_000, clock: fastClock(20) });
    warnings.length = 0;
    await withServer(udp, async (_server, relay) => {
        await Promise.all(Array.from({ length: 20 }, (_, at) => relay.permit(`10.0.1.${at}`)));
        await new Promise((resolve) => setTimeout(resolve, 20));
    });
    process.off("warning", listen);
    assert.deepEqual(warnings, []);
});
