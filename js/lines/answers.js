// The calls of a trace on a client, and the line that answers each (docs/rattle/LINES.md, "Traces"). For the tests and the page of web/.
import { parseIp } from "../src/address.js";
import { OutOfMemory, Refused } from "../src/errors.js";
import { toField, toHex } from "./hex.js";

/**
 * An IP address as lines have it.
 * @param {string} address
 */
export function hostText(address) {
    const { family, bytes } = parseIp(address);
    return family === 4 ? address : `[${toHex(bytes)}]`;
}

/**
 * An address with its port as lines have it.
 * @param {{ address: string, port: number }} address
 */
export function addressText({ address, port }) {
    return `${hostText(address)}:${port}`;
}

/** The line of each answer, by its kind. */
const LINES = {
    "handled": () => "handled", "ignored": () => "ignored", "closed": () => "closed",
    "wait-until": ({ until }) => `wait ${until}`,
    "allocate-tcp-socket": ({ id, transport, local, remote, peer }) =>
        `socket ${id} ${transport} ${addressText(local)} ${addressText(remote)} ${addressText(peer)}`,
    "tcp-close": ({ local, remote }) => `close ${addressText(local)} ${addressText(remote)}`,
    "peer-data": ({ transport, peer, data }) => `data ${transport} ${addressText(peer)} ${toField(data)}`,
    "peer-icmp": ({ transport, peer, type, code, data }) => `icmp ${transport} ${addressText(peer)} ${type} ${code} ${data}`,
    "allocation-created": ({ transport, address }) => `allocated ${transport} ${addressText(address)}`,
    "allocation-create-failed": ({ family }) => `allocate-failed ${family}`,
    "permission-created": ({ transport, ip }) => `permitted ${transport} ${hostText(ip)}`,
    "permission-create-failed": ({ transport, ip }) => `permit-failed ${transport} ${hostText(ip)}`,
    "channel-created": ({ transport, peer }) => `bound ${transport} ${addressText(peer)}`,
    "channel-create-failed": ({ transport, peer }) => `bind-failed ${transport} ${addressText(peer)}`,
    "tcp-connected": ({ peer }) => `connected ${addressText(peer)}`,
    "tcp-connect-failed": ({ peer }) => `connect-failed ${addressText(peer)}`,
};

/**
 * The line of an answer, or of none.
 * @param {{ kind: string } | undefined} answer
 */
export function lineOf(answer) {
    return answer === undefined ? "none" : LINES[answer.kind](answer);
}

/**
 * The line of a packet, or of none.
 * @param {import("../src/answers.js").Packet | undefined} packet
 */
export function packetLine(packet) {
    return packet === undefined ? "none"
        : `send ${packet.transport} ${addressText(packet.local)} ${addressText(packet.remote)} ${toField(packet.data)}`;
}

const listLine = (items) => ["list", items.length, ...items].join(" ");
const done = (call) => (call(), "ok");

function setKept(client, about, isKept, transport) {
    if (typeof about === "string") {
        client.setPermissionKept(about, isKept, { transport });
    } else {
        client.setChannelKept(about, isKept, { transport });
    }
}

/** What makes each call, and gives the line that answers it. */
export const MAKERS = Object.freeze({
    poll: (client, { now }) => lineOf(client.poll(now)),
    transmit: (client, { now }) => packetLine(client.pollTransmit(now)),
    event: (client) => lineOf(client.pollEvent()),
    poll_recv: (client, { now }) => lineOf(client.pollRecv(now)),
    delete: (client, { now }) => done(() => client.delete(now)),
    error: (client) => done(() => client.protocolError()),
    recv: (client, { now, data, ...from }) => lineOf(client.recv(data, now, from)),
    send: (client, { now, peer, data, transport }) => packetLine(client.sendTo(peer, data, now, { transport })),
    permit: (client, { now, ip, transport }) => done(() => client.createPermission(ip, now, { transport })),
    have: (client, { ip, transport }) => (client.havePermission(ip, { transport }) ? "yes" : "no"),
    bind: (client, { now, peer, transport }) => done(() => client.bindChannel(peer, now, { transport })),
    release: (client, { about, transport }) => done(() => setKept(client, about, false, transport)),
    keep: (client, { about, transport }) => done(() => setKept(client, about, true, transport)),
    connect: (client, { now, peer }) => done(() => client.tcpConnect(peer, now)),
    socket: (client, { now, own, ...wanted }) => done(() => client.allocatedTcpSocket(wanted, own, now)),
    closed: (client, { now, local, remote }) => done(() => client.tcpClosed(local, remote, now)),
    relayed: (client) => listLine(client.relayedAddresses().map(({ transport, address }) => `${transport} ${addressText(address)}`)),
    permissions: (client, { relayed, transport }) => listLine(client.permissions(relayed, { transport }).map(hostText)),
});

/**
 * Makes a call, and gives the line that answers it. LibraryError, where the module has stopped.
 * @param {import("../src/client.js").Client} client
 * @param {{ name: string }} call
 */
export function answerTo(client, call, makers = MAKERS) {
    try {
        return makers[call.name](client, call);
    } catch (error) {
        if (error instanceof OutOfMemory) {
            return "no memory";
        }
        if (!(error instanceof Refused)) {
            throw error;
        }
        return error.reason === "expired" ? `refused expired ${error.until}` : `refused ${error.reason}`;
    }
}
