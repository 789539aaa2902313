// Relays over servers of the tests.
import { Relay } from "../src/node/index.js";
import { library } from "./module.js";
import { PASSWORD, Server, USER } from "./server.js";

/** Where a server over UDP or TCP is. */
export const urlOf = (server) => `turn:127.0.0.1:${server.port}${server.sockets ? "?transport=tcp" : ""}`;

/** Opens a relay over a server. */
export async function openRelay(server, options = {}) {
    return Relay.open({ urls: urlOf(server), username: USER, credential: PASSWORD, library: await library(), ...options });
}

/** Runs something with a server and, unless it is to open one by itself, a relay, which are closed afterwards. */
export async function withServer(make, run, options) {
    const server = await make();
    let relay;
    try {
        relay = options === null ? undefined : await openRelay(server, options);
        await run(server, relay);
    } finally {
        await relay?.close();
        server.close();
    }
}

export const udp = () => Server.udp(), tcp = () => Server.tcp();

/** So long a tick of a clock of the tests lasts at most, in milliseconds. */
const TICK = 5;

/** A clock that goes so many times as fast. It does not go on while the program is not given a processor. */
export function fastClock(rate) {
    let time = 0, last = performance.now();
    const now = () => {
        const real = performance.now();
        time += Math.min(real - last, TICK) * rate;
        last = real;
        return time;
    };
    setInterval(now, 1).unref();
    return { now, rate };
}

/** The next event of a name. */
export function next(emitter, name) {
    return new Promise((resolve) => emitter.once(name, (...words) => resolve(words)));
}

/** Waits until something holds, for at most so many milliseconds. */
export async function until(holds, most = 5_000) {
    for (const start = performance.now(); !holds(); ) {
        if (performance.now() - start > most) {
            throw new Error(`it does not hold after ${most} ms`);
        }
        await new Promise((resolve) => setTimeout(resolve, 5));
    }
}

/**
 * Whether something ends before a timer of so many milliseconds does, in one of five tries: a busy machine may take longer to answer.
 * A program that was given no processor runs its timers in their order.
 */
export async function endsWithin(milliseconds, run) {
    let isLate = true;
    for (let tries = 0; isLate && tries < 5; tries++) {
        isLate = false;
        const timer = setTimeout(() => (isLate = true), milliseconds);
        await run();
        clearTimeout(timer);
    }
    return !isLate;
}
