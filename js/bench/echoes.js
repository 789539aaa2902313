// Echoes through coturn, one after the other: by Relay, and by ChannelData frames that plain dgram sends, without a client of its own.
//
//     node bench/echoes.js [SECONDS]
//
// The ways take turns, SECONDS each (0.5 unless told otherwise) and five times, and a row is its best turn.
import { spawn } from "node:child_process";
import dgram from "node:dgram";
import { mkdtempSync, rmSync } from "node:fs";
import { tmpdir } from "node:os";
import path from "node:path";
import { Relay } from "../src/node/index.js";
import { newLibrary } from "../test/module.js";

const SECONDS = Number(process.argv[2] ?? 0.5), TURNS = 5, SIZES = [20, 1_200];
const room = mkdtempSync(path.join(tmpdir(), "yarrowdoor-bench-")), PORT = 34_780, PEER_PORT = 34_781;
const coturn = spawn("turnserver", ["-n", "--no-tls", "--no-dtls", "--no-cli", "--lt-cred-mech", "-u", "user:pass", "-r", "realm",
    "--allow-loopback-peers", "-L", "127.0.0.1", "-p", String(PORT), "--log-file", path.join(room, "log"), "--pidfile", path.join(room, "pid")],
{ stdio: "ignore" });
const peer = spawn("turnutils_peer", ["-L", "127.0.0.1", "-p", String(PEER_PORT)], { stdio: "ignore" });

/** Sends a packet as soon as the last one has come back, and says how many a second. */
async function timed(send, hears) {
    const start = performance.now();
    let count = 0;
    await new Promise((resolve) => {
        const end = hears(() => {
            count++;
            if (performance.now() - start < SECONDS * 1_000) {
                send();
            } else {
                end();
                resolve();
            }
        });
        send();
    });
    return count / ((performance.now() - start) / 1_000);
}

/** The socket of a relay that has a channel is taken over: its frames go through dgram alone. */
function framesOf(relay, size) {
    const { socket } = relay, frame = Buffer.concat([Buffer.from([0x40, 0, size >> 8, size & 255]), Buffer.alloc(size, 7)]);
    return timed(() => socket.send(frame), (came) => {
        socket.on("message", came);
        return () => socket.off("message", came);
    });
}

function relayOf(relay, size) {
    const data = Buffer.alloc(size, 7);
    return timed(() => relay.sendTo(data, PEER_PORT, "127.0.0.1"), (came) => {
        relay.on("message", came);
        return () => relay.off("message", came);
    });
}

/** A relay with a channel, whose socket is dgram's own and can be seen: its client is dropped once the channel is bound. */
async function openBare(library) {
    const sockets = [], createSocket = dgram.createSocket;
    dgram.createSocket = (...words) => sockets[sockets.push(createSocket(...words)) - 1];
    const relay = await open(library);
    // Nothing else opens a relay meanwhile.
    // eslint-disable-next-line require-atomic-updates
    dgram.createSocket = createSocket;
    sockets[0].removeAllListeners("message");
    return { relay, socket: sockets[0] };
}

async function open(library) {
    const relay = await Relay.open({ urls: `turn:127.0.0.1:${PORT}`, username: "user", credential: "pass", library });
    await relay.bind(PEER_PORT, "127.0.0.1");
    return relay;
}

await new Promise((resolve) => setTimeout(resolve, 1_000));
try {
    const library = await newLibrary(), relay = await open(library), bare = await openBare(library);
    for (const size of SIZES) {
        let [best, plain] = [0, 0];
        for (let turn = 0; turn < TURNS; turn++) {
            plain = Math.max(plain, await framesOf(bare, size));
            best = Math.max(best, await relayOf(relay, size));
        }
        console.log(`${size} bytes: ${best.toFixed(0)} echoes a second by Relay, ${plain.toFixed(0)} by plain dgram frames: ${(best / plain).toFixed(2)}`);
    }
    await relay.close();
    bare.socket.close();
} finally {
    coturn.kill();
    peer.kill();
    rmSync(room, { recursive: true });
}
process.exit();
