// The URIs of TURN servers (RFC 7065): `turn:HOST[:PORT][?transport=udp|tcp]`, and `turns:` for TLS.
import { parseIp } from "../address.js";

/**
 * A server: its name or IP address, its port, its transport, and whether TLS is used.
 * @typedef {{ host: string, port: number, transport: "udp" | "tcp", isSecure: boolean, text: string }} TurnUri
 */

const FORM = /^(turns?):(\[[^\][/?#@]*\]|[^\][/?#@:]+)(?::([0-9]+))?(?:\?transport=([^&#]*))?$/i;
const NAME = /^(?:[A-Za-z0-9._~!$&'()*+,;=-]|%[0-9A-Fa-f]{2})+$/;

/**
 * The server that a URI names. Ports are 3478 and 5349, and transports UDP and, for `turns`, TCP, unless it says others. TypeError
 * where it is no such URI, and for what is not supported: TURN over DTLS, that is `turns` over UDP.
 * @param {string} text
 * @returns {TurnUri}
 */
export function parseUri(text) {
    const found = FORM.exec(String(text));
    if (!found) {
        throw new TypeError(`${text} has not the form turn:HOST[:PORT][?transport=udp|tcp], or turns: for TLS (RFC 7065)`);
    }
    const isSecure = found[1].toLowerCase() === "turns", transport = (found[4] ?? (isSecure ? "tcp" : "udp")).toLowerCase();
    if (transport !== "udp" && transport !== "tcp") {
        throw new TypeError(`${text}: the transport is none of udp and tcp`);
    }
    if (isSecure && transport === "udp") {
        throw new TypeError(`${text}: TURN over DTLS is not supported. Leave out ?transport=udp`);
    }
    const port = found[3] === undefined ? (isSecure ? 5349 : 3478) : Number(found[3]);
    if (port < 1 || port > 65_535) {
        throw new TypeError(`${text}: a port is from 1 to 65535`);
    }
    return { host: hostOf(text, found[2]), port, transport, isSecure, text };
}

/**
 * @param {string} text
 * @param {string} host
 */
function hostOf(text, host) {
    if (host.startsWith("[")) {
        const inside = host.slice(1, -1);
        if (parseIp(inside)?.family !== 6) {
            throw new TypeError(`${text}: ${host} is no IPv6 address`);
        }
        return inside;
    }
    let name = "";
    try {
        name = NAME.test(host) ? decodeURIComponent(host) : "";
    } catch {
        throw new TypeError(`${text}: ${host} is not UTF-8`);
    }
    const labels = name.replace(/\.$/, "").split(".");
    if (!name || name.length > 254 || labels.some((label) => label.length < 1 || label.length > 63)) {
        throw new TypeError(`${text}: ${host} is no name of a host: a label has 1 to 63 characters, and a name up to 253`);
    }
    return name;
}
