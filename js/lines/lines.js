// The lines of a trace (docs/rattle/LINES.md, "Traces"): its head and its calls, as what a client takes, or what is wrong with a line.
import { fromField, fromHex } from "./hex.js";

const MAX_TIME = 2n ** 62n, MAX_U64 = 2n ** 64n - 1n, MAX_U32 = 2n ** 32n - 1n, MAX_PAYLOAD = 65_504;

/** What is wrong with a line, in the words of docs/rattle/LINES.md: `bad head`, `bad moment`, `bad call`, `bad argument`, `bad payload`. */
export class BadLine extends Error {}

/** @type {(what?: string) => never} */
function bad(what = "argument") {
    throw new BadLine(`bad ${what}`);
}

function decimal(text, most, what) {
    const value = /^(0|[1-9][0-9]{0,19})$/.test(text) ? BigInt(text) : bad(what);
    return value <= most ? value : bad(what);
}

const choice = (words) => (text) => (Object.hasOwn(words, text) ? words[text] : bad());
const transport = choice({ udp: "udp", tcp: "tcp" });
const number = (text) => Number(decimal(text, MAX_U32));
const bytes = (text) => fromField(text) ?? bad();
const seed = (text) => (text.length === 64 && fromHex(text)) || bad();

function ip(text) {
    const six = /^\[([0-9a-f]{32})\]$/.exec(text);
    if (six) {
        return six[1].match(/.{4}/g).join(":");
    }
    const parts = text.split(".").map((part) => Number(decimal(part, 255n)));
    return parts.length === 4 ? parts.join(".") : bad();
}

function address(text) {
    const parts = text.split(":");
    return parts.length === 2 ? { address: ip(parts[0]), port: Number(decimal(parts[1], 65_535n)) } : bad();
}

const about = (text) => (text.includes(":") ? address(text) : ip(text));
const addressOrNone = (text) => (text === "-" ? undefined : address(text));

const FROM_SEND = "timed_from_send";

function times(text) {
    const [first, most, count, final, ...more] = text.split(",");
    const [initial, longest, last] = [first, most, final].map((wait) => decimal(wait ?? "", MAX_U64));
    return more.length === 0 ? { initial, longest, last, count: number(count) } : bad();
}

const HEAD = {
    transport, local: address, remote: address, allocation: transport,
    families: choice({ 4: [4], 6: [6], "4,6": [4, 6], "6,4": [6, 4] }),
    algorithms: choice({ sha1: ["sha1"], sha256: ["sha256"], "sha1,sha256": ["sha1", "sha256"], "sha256,sha1": ["sha256", "sha1"] }),
    anonymous: choice({ auto: "auto", required: "required", disabled: "disabled" }), username: bytes, credential: bytes, seed,
};

/** The arguments of each call, by their names. */
export const CALLS = Object.freeze({
    poll: {}, transmit: {}, event: {}, poll_recv: {}, delete: {}, error: {}, relayed: {},
    recv: { transport, remote: address, local: address, data: bytes }, send: { transport, peer: address, data: bytes },
    permit: { transport, ip }, have: { transport, ip }, release: { transport, about }, keep: { transport, about },
    bind: { transport, peer: address }, connect: { peer: address },
    socket: { id: number, transport, local: address, remote: address, peer: address, own: addressOrNone },
    closed: { local: address, remote: address }, permissions: { transport, relayed: address },
});

function fieldsOf(texts, parsers) {
    const names = Object.keys(parsers);
    return names.length === texts.length ? Object.fromEntries(names.map((name, at) => [name, parsers[name](texts[at])])) : bad();
}

/**
 * The settings of a client, which the first line says. BadLine.
 * @param {string} line
 */
export function parseHead(line) {
    const texts = line.split(" "), timedFromSend = texts.length > 10 && texts.at(-1) === FROM_SEND;
    const fields = timedFromSend ? texts.slice(0, -1) : texts;
    try {
        return { ...fieldsOf(fields, fields.length > 10 ? { ...HEAD, times } : HEAD), timedFromSend };
    } catch (error) {
        throw error instanceof BadLine ? new BadLine("bad head") : error;
    }
}

/**
 * The call that a line says. BadLine.
 * @param {string} line
 * @param {{ allocation: string }} head
 */
export function parseCall(line, head) {
    const [moment, name, ...texts] = line.split(" "), now = decimal(moment, MAX_TIME, "moment");
    const call = { name, now, ...fieldsOf(texts, Object.hasOwn(CALLS, name ?? "") ? CALLS[name] : bad("call")) };
    return name === "send" && head.allocation === "udp" && call.data.length > MAX_PAYLOAD ? bad("payload") : call;
}
