// A TURN server for tests, on 127.0.0.1: it relays nothing, and answers as it is told.
import dgram from "node:dgram";
import net from "node:net";
import { ATTRIBUTE, CLASS, METHOD, errorCode, isSigned, keyOf, message, number32, read, unxored, xored } from "./stun.js";

const REALM = "realm", NONCE = "nonce";
export const USER = "user", PASSWORD = "pass";
/** The relayed address that a server says to have, unless it is told another one. */
export const RELAYED = { address: "127.0.0.1", port: 40_000, family: "IPv4" };

/** The indication that has data of a peer. */
export function dataOf(peer, data) {
    const attributes = [[ATTRIBUTE.XOR_PEER_ADDRESS, xored(peer.address, peer.port)], [ATTRIBUTE.DATA, Buffer.from(data)]];
    return message(METHOD.DATA, CLASS.INDICATION, Buffer.alloc(12, 1), attributes);
}

/**
 * A server over UDP or TCP. `answer(request, server)` may decide for a request what is answered: `"drop"`, `{ code, phrase }`, or
 * nothing, where it is as servers do. `requests` has all that came.
 */
export class Server {
    requests = [];
    /** Data that came in ChannelData or SEND, with its peer or its channel. */
    data = [];
    /** How many indications came that have no data. */
    indications = 0;
    /** Where clients are, by the text of their addresses: a function that sends them bytes. */
    clients = new Map();
    lifetime = 600;
    /** The relayed address that it says to have. */
    relayed = RELAYED;
    /** What the server says of a client's address. */
    mapped = ({ address, port }) => ({ address, port });
    answer = () => undefined;
    /** Data connections that were bound (RFC 6062), as sockets, by their IDs. What comes over one is its own. */
    bound = new Map();
    /** How many data connections were asked for, or offered. */
    connections = 0;
    #realm = REALM;
    #key = keyOf(USER, REALM, PASSWORD);
    #close = () => {};

    static async udp(address = "127.0.0.1", port = 0) {
        const server = new Server(), socket = dgram.createSocket("udp4");
        socket.on("message", (bytes, from) => server.#took(bytes, from, (answer) => socket.send(answer, from.port, from.address)));
        await new Promise((resolve) => socket.bind(port, address, resolve));
        server.#close = () => socket.close();
        server.port = socket.address().port;
        return server;
    }

    static async tcp() {
        const server = new Server(), sockets = new Set(), listener = net.createServer((socket) => {
            const from = { address: socket.remoteAddress, port: socket.remotePort };
            let rest = Buffer.alloc(0);
            sockets.add(socket);
            socket.on("error", () => {});
            const take = (piece) => {
                rest = server.#cut(Buffer.concat([rest, piece]), (frame) => server.#took(frame, from, (answer) => socket.write(answer)));
                const { method, attributes, from: { port } } = server.requests.at(-1) ?? { from: {} };
                if (method === METHOD.CONNECTION_BIND && port === from.port) {
                    socket.off("data", take);
                    server.clients.delete(`${from.address}:${from.port}`);
                    server.bound.set(attributes.get(ATTRIBUTE.CONNECTION_ID).readUInt32BE(0), socket);
                }
            };
            socket.on("data", take);
        });
        await new Promise((resolve) => listener.listen(0, "127.0.0.1", resolve));
        server.sockets = sockets;
        server.listener = listener;
        server.#close = () => {
            sockets.forEach((socket) => socket.destroy());
            listener.close();
        };
        server.port = listener.address().port;
        return server;
    }

    close() {
        this.#close();
    }

    /** Takes requests that are signed for this realm from now on. */
    serveRealm(realm) {
        this.#realm = realm;
        this.#key = keyOf(USER, realm, PASSWORD);
    }

    /** How many requests of a method came, each counted once however often it was transmitted. */
    count(method) {
        return new Set(this.requests.filter((request) => request.method === method).map(({ id }) => id.toString("hex"))).size;
    }

    /** Sends a client data of a peer, by an indication. */
    sendData(peer, data) {
        this.clients.forEach((send) => send(dataOf(peer, data)));
    }

    /** Tells clients that a peer has connected. */
    offer(peer) {
        const attributes = [[ATTRIBUTE.XOR_PEER_ADDRESS, xored(peer.address, peer.port)], [ATTRIBUTE.CONNECTION_ID, number32(++this.connections)]];
        this.clients.forEach((send) => send(message(METHOD.CONNECTION_ATTEMPT, CLASS.INDICATION, Buffer.alloc(12, this.connections), attributes)));
    }

    #cut(bytes, took) {
        while (bytes.length >= 4) {
            const isData = bytes[0] >= 0x40, len = bytes.readUInt16BE(2) + (isData ? 4 : 20), whole = isData ? (len + 3) & ~3 : len;
            if (bytes.length < whole) {
                break;
            }
            took(bytes.subarray(0, len));
            bytes = bytes.subarray(whole);
        }
        return bytes;
    }

    #took(bytes, from, send) {
        this.clients.set(`${from.address}:${from.port}`, send);
        if (bytes[0] >= 0x40) {
            this.data.push({ channel: bytes.readUInt16BE(0), data: bytes.subarray(4, 4 + bytes.readUInt16BE(2)) });
            return;
        }
        const request = { ...read(bytes), bytes, from };
        if (request.class === CLASS.INDICATION) {
            const data = request.attributes.get(ATTRIBUTE.DATA);
            if (data) {
                this.data.push({ peer: unxored(request.attributes.get(ATTRIBUTE.XOR_PEER_ADDRESS)), data });
            } else {
                this.indications++;
            }
            return;
        }
        this.requests.push(request);
        const what = this.answer(request, this);
        what === "drop" || send(this.#answerTo(request, what));
    }

    #answerTo({ method, id, bytes, from, attributes }, error) {
        if (method === METHOD.BINDING) {
            return message(method, CLASS.SUCCESS, id, [[ATTRIBUTE.XOR_MAPPED_ADDRESS, this.#mapped(from)]]);
        }
        if (!isSigned(bytes, this.#key)) {
            const isOther = attributes.has(ATTRIBUTE.REALM) && attributes.get(ATTRIBUTE.REALM).toString() !== this.#realm;
            const code = isOther ? errorCode(441, "Wrong Credentials") : errorCode(401, "Unauthorized"); // as coturn
            const challenge = [[ATTRIBUTE.REALM, Buffer.from(this.#realm)], [ATTRIBUTE.NONCE, Buffer.from(NONCE)]];
            return message(method, CLASS.ERROR, id, [[ATTRIBUTE.ERROR_CODE, code], ...challenge]);
        }
        if (error) {
            return message(method, CLASS.ERROR, id, [[ATTRIBUTE.ERROR_CODE, errorCode(error.code, error.phrase)]], this.#key);
        }
        return message(method, CLASS.SUCCESS, id, this.#success(method, from, id), this.#key);
    }

    #mapped(from) {
        const { address, port } = this.mapped(from);
        return xored(address, port);
    }

    #success(method, from, id) {
        const lifetime = [ATTRIBUTE.LIFETIME, number32(this.lifetime)];
        switch (method) {
            case METHOD.ALLOCATE: return [[ATTRIBUTE.XOR_RELAYED_ADDRESS, xored(this.relayed.address, this.relayed.port, id)],
                [ATTRIBUTE.XOR_MAPPED_ADDRESS, this.#mapped(from)], lifetime];
            case METHOD.REFRESH: {
                const asked = this.requests[this.requests.length - 1].attributes.get(ATTRIBUTE.LIFETIME);
                return [asked?.readUInt32BE(0) === 0 ? [ATTRIBUTE.LIFETIME, number32(0)] : lifetime];
            }
            case METHOD.CONNECT: return [[ATTRIBUTE.CONNECTION_ID, number32(++this.connections)]];
            default: return [];
        }
    }
}
