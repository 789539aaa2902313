import { ConnectionOptions } from "node:tls";
import { Socket as DatagramSocket } from "node:dgram";
import { Socket } from "node:net";
import { Library } from "../library.js";
import { Times } from "../client-settings.js";

/** What a relay is opened with. `urls`, `username` and `credential` are those of WebRTC's RTCIceServer. */
export interface RelayOptions {
    /**
     * The server's URI (RFC 7065), or several: `turn:HOST`, `turn:HOST:PORT?transport=tcp`, `turns:HOST`. A further one is tried
     * beside those before if these have not answered in 250 ms, and at once if they have failed. URIs of STUN servers are skipped.
     */
    readonly urls: string | readonly string[];
    /** The user name; text is encoded as UTF-8. */
    readonly username: string | Uint8Array;
    /** The password; text is encoded as UTF-8. */
    readonly credential: string | Uint8Array;
    /** The family of the relayed address, which reaches only peers of this family. By default 4. */
    readonly family?: 4 | 6;
    /**
     * The transport between server and peers. With `"tcp"` (RFC 6062) there are streams in place of datagrams, and URIs over UDP
     * are skipped. By default `"udp"`.
     */
    readonly allocation?: "udp" | "tcp";
    /** Options of `tls.connect` for `turns:`, as `ca`; certificates are checked unless they say otherwise. */
    readonly tls?: ConnectionOptions;
    /** How long a request waits for its response, by default 39.5 s in all. */
    readonly times?: Times;
    /** How many packets of peers wait without a listener of `message`; a further one is dropped and counted. By default 1,024. */
    readonly queue?: number;
    /**
     * Milliseconds between checks of the path to the server: three in a row without an answer, with nothing from the server in
     * between, end the relay. 0: none is made, as by default over UDP; over TCP and TLS the default is 15,000.
     */
    readonly probe?: number;
    /** After this many milliseconds without a packet one is sent, so that a NAT keeps its mapping; 0: never. By default 15,000. */
    readonly keepalive?: number;
    /** The least time between two requests, in milliseconds. By default 5. */
    readonly pause?: number;
    /** How many milliseconds before its expiry a permission or channel is refreshed. By default 150,000. */
    readonly refreshAhead?: number;
    /**
     * Whether the user name is hidden (RFC 8489, section 14.4): `"required"` always, `"disabled"` never, and `"auto"`, the default,
     * never so far.
     */
    readonly anonymous?: "auto" | "required" | "disabled";
    /** How many challenges in a row are answered; the next one ends the relay. By default 256. */
    readonly maxStaleNonces?: number;
    /** Gives up the opening when it is aborted. */
    readonly signal?: AbortSignal;
    /** The local IP address of the sockets to the server, which `net.connect` names so. */
    readonly localAddress?: string;
    /** The local port of the sockets to the server: with one there is one socket at a time. */
    readonly localPort?: number;
    /**
     * A socket of yours, which the relay uses in place of one of its own, and closes: for a URI over UDP one of `dgram`, which it
     * connects unless it is, else a connected one of `net`, over which TLS is begun.
     */
    readonly socket?: DatagramSocket | Socket;
    /** The WebAssembly module, by default the one that all relays share. */
    readonly library?: Library;
}
