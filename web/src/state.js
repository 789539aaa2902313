// What a client has after a step. It is asked of a client of the timeline, which has made the same calls, and is as before after each
// use: so asking changes nothing of the run. It lists what is granted, is refused what is pending, and is taken ahead in time to see
// when a grant ends.
import { addressText, hostText, lineOf, packetLine } from "../yarrowdoor/lines/answers.js";
import { parseCall, parseHead } from "../yarrowdoor/lines/lines.js";
import { Refused } from "../yarrowdoor/src/errors.js";

/** How often a client is polled at one time, and how many grants are listed. */
const MOST_POLLS = 5_000, MOST_LISTED = 24, SECOND = 1_000_000_000n, MAX_TIME = 2n ** 62n;
/** The least number of a channel, and how many more are tried than there are peers, since those of others may be reserved. */
const FIRST_CHANNEL = 0x4000, MORE_CHANNELS = 4;

/**
 * A grant, or one that is requested: what it is, `active`, `pending` or `reserved`, and until when, if it ends by itself.
 * @typedef {{ kind: "allocation" | "permission" | "channel" | "connection", text: string,
 *     progress: "active" | "pending" | "reserved", until: bigint | undefined, detail: string }} Grant
 */
/**
 * `isClosed` says that the client has ended; `next` is what `poll` answers, once the events and packets that wait are taken.
 * @typedef {{ grants: Grant[], more: number, isClosed: boolean, next: string, wakeUp: bigint | undefined, events: string[],
 *     packets: string[] }} State
 */

/** The peers and IP addresses that the calls so far name, each once. */
function named(calls) {
    const peers = new Map(), ips = new Map();
    for (const { name, peer, ip, transport = "tcp" } of calls) {
        if (["bind", "connect"].includes(name)) {
            peers.set(addressText(peer), { peer, transport });
            ips.set(hostText(peer.address), { ip: peer.address, transport });
        } else if (name === "permit") {
            ips.set(hostText(ip), { ip, transport });
        }
    }
    return { peers: [...peers.values()], ips: [...ips.values()] };
}

/** Whether a call is refused, and why. */
function refusal(call) {
    try {
        call();
        return undefined;
    } catch (error) {
        if (error instanceof Refused) {
            return error;
        }
        throw error;
    }
}

/** The peers of active channels, with the numbers: the client takes ChannelData of each number that may be bound. */
function channelsOf(client, peers, now) {
    const found = new Map();
    for (let number = FIRST_CHANNEL; number < FIRST_CHANNEL + peers.length + MORE_CHANNELS; number++) {
        const answer = client.recv(Uint8Array.of(number >> 8, number & 255, 0, 0), now);
        if (answer.kind === "peer-data" && answer.data.length === 0) {
            found.set(addressText(answer.peer), number);
        }
    }
    return found;
}

const hasIp = (ip, transport) => (client) => client.havePermission(ip, { transport });
const hasAddress = (text) => (client) => client.relayedAddresses().some(({ address }) => addressText(address) === text);
const hasChannel = (peer, transport) => (client, now) => (
    refusal(() => client.bindChannel(peer, now, { transport }))?.reason === "already-exists");
const hasConnection = (peer, now) => (client) => !refusal(() => client.sendTo(peer, Uint8Array.of(0), now, { transport: "tcp" }));

/** What is active, each with how the client, at another time, is asked whether it is still there. */
function activeGrants(client, { peers, ips }, now) {
    const found = new Map(), add = (kind, text, detail, isThere) => found.set(`${kind} ${text}`, { kind, text, detail, isThere });
    for (const { transport, address } of client.relayedAddresses()) {
        add("allocation", addressText(address), `over ${transport.toUpperCase()}`, hasAddress(addressText(address)));
        client.permissions(address, { transport }).forEach((ip) => add("permission", hostText(ip), "", hasIp(ip, transport)));
    }
    ips.filter(({ ip, transport }) => hasIp(ip, transport)(client))
        .forEach(({ ip, transport }) => add("permission", hostText(ip), "", hasIp(ip, transport)));
    peers.filter(({ peer, transport }) => transport === "tcp" && hasConnection(peer, now)(client))
        .forEach(({ peer }) => add("connection", addressText(peer), "", undefined));
    const numbers = channelsOf(client, peers, now);
    for (const { peer, transport } of peers.filter((each) => numbers.has(addressText(each.peer)))) {
        add("channel", addressText(peer), `number ${numbers.get(addressText(peer)).toString(16)}`, hasChannel(peer, transport));
    }
    return found;
}

/** What is requested and not answered, or reserved: the client refuses to request it again. */
function otherGrants(client, { peers, ips }, active, now) {
    const found = [];
    const permissions = ips.filter(({ ip }) => !active.has(`permission ${hostText(ip)}`));
    const channels = peers.filter(({ peer, transport }) => transport === "udp" && !active.has(`channel ${addressText(peer)}`));
    for (const { ip, transport } of permissions) {
        if (refusal(() => client.createPermission(ip, now, { transport }))?.reason === "already-exists") {
            found.push({ kind: "permission", text: hostText(ip), progress: "pending", until: undefined, detail: "" });
        }
    }
    for (const { peer, transport } of channels) {
        const refused = refusal(() => client.bindChannel(peer, now, { transport })), text = addressText(peer);
        if (refused?.reason === "already-exists") {
            found.push({ kind: "channel", text, progress: "pending", until: undefined, detail: "" });
        } else if (refused?.reason === "expired") {
            found.push({ kind: "channel", text, progress: "reserved", until: refused.until, detail: "" });
        }
    }
    return found;
}

/** Takes all events and packets that wait, and does all that is due up to a time. Gives the last answer of `poll`. */
function settle(client, now) {
    const events = [], packets = [];
    for (let count = 0; ; count++) {
        events.push(...client.events());
        packets.push(...client.packets(now));
        const answer = client.poll(now);
        if (answer.kind !== "wait-until" || answer.until > now || count >= MOST_POLLS) {
            return { events, packets, answer };
        }
    }
}

/**
 * Whether the grant at a place of a list is there once all that is due at a time is done. One use of the client tells it of all grants
 * of the list.
 */
function thereAt(grants, use) {
    const known = new Map();
    return (at, time) => {
        if (!known.has(time)) {
            known.set(time, use((client) => (settle(client, time), grants.map(({ isThere }) => isThere?.(client, time)))));
        }
        return known.get(time)[at];
    };
}

/**
 * Whether the client has ended after so many calls, once it has done all that is due at a time.
 * @param {import("./timeline.js").Timeline} timeline
 * @param {number} count
 * @param {bigint} now
 */
export function hasEnded(timeline, count, now) {
    return timeline.use(count, (client) => settle(client, now).answer.kind === "closed");
}

/**
 * Whether the client says after so many calls that a peer has a permission.
 * @param {import("./timeline.js").Timeline} timeline
 * @param {number} count
 * @param {string} head the first line of the run
 * @param {string} peer an address of the lines
 */
export function hasPermission(timeline, count, head, peer) {
    const { ip, transport } = parseCall(`0 have ${head.split(" ")[3]} ${peer.slice(0, peer.lastIndexOf(":"))}`, parseHead(head));
    return timeline.use(count, hasIp(ip, transport));
}

/** The first time at which a grant is no longer there, or undefined where it never ends. */
function endOf(isThere, now) {
    let there = now, gone = now + SECOND;
    for (let step = SECOND; isThere(gone); gone += step) {
        there = gone;
        step *= 2n;
        if (gone + step > MAX_TIME) {
            return undefined;
        }
    }
    while (gone - there > 1n) {
        const middle = (there + gone) / 2n;
        [there, gone] = isThere(middle) ? [middle, gone] : [there, middle];
    }
    return gone;
}

/** The same, where one of the given times, in order, may be it. */
function guessedEnd(isThere, now, guesses) {
    let [first, end] = [0, guesses.length];
    while (first < end) {
        const middle = (first + end) >> 1;
        [first, end] = isThere(guesses[middle]) ? [middle + 1, end] : [first, middle];
    }
    const found = guesses[first];
    return found !== undefined && isThere(found - 1n) ? found : endOf(isThere, now);
}

/** The times that come later, each once and in order. */
function laterOnes(times, now) {
    const found = [...new Set(times)].filter((time) => time > now && time <= MAX_TIME);
    return found.sort((one, other) => (one < other ? -1 : 1));
}

/**
 * The state after so many calls of a run. `guesses` are times at which grants of a kind may end: they make it quicker, and nothing
 * else.
 * @param {import("./timeline.js").Timeline} timeline
 * @param {number} count
 * @param {Record<string, bigint[]>} guesses
 * @returns {State}
 */
export function stateAfter(timeline, count, guesses) {
    const all = timeline.calls(count), calls = named(all), now = all.at(-1)?.now ?? 0n;
    return timeline.useOften(count, (use) => {
        const active = use((client) => activeGrants(client, calls, now));
        const other = use((client) => otherGrants(client, calls, active, now));
        const { events, packets, answer } = use((client) => settle(client, now)), isClosed = answer.kind === "closed";
        const listed = [...active.values()].slice(0, MOST_LISTED), isThere = thereAt(listed, use);
        const later = Object.fromEntries(Object.entries(guesses).map(([kind, times]) => [kind, laterOnes(times, now)]));
        const grants = listed.map(({ kind, text, detail, isThere: ends }, at) => ({
            kind, text, detail, progress: "active",
            until: isClosed || !ends ? undefined : guessedEnd((time) => isThere(at, time), now, later[kind] ?? []),
        }));
        return { grants: [...grants, ...other], more: active.size - listed.length, isClosed, next: lineOf(answer),
            wakeUp: answer.kind === "wait-until" ? answer.until : undefined,
            events: events.map(lineOf), packets: packets.map(packetLine) };
    });
}
