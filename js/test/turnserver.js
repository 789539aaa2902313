// coturn for tests, on 127.0.0.1.
import { execFileSync, spawn } from "node:child_process";
import { mkdtempSync, readFileSync, rmSync } from "node:fs";
import net from "node:net";
import { tmpdir } from "node:os";
import path from "node:path";

/** Whether a command is there. */
function has(command) {
    try {
        execFileSync("sh", ["-c", `command -v ${command}`]);
        return true;
    } catch {
        return false;
    }
}

/** Why there is none, or false. */
export const skip = !has("turnserver") ? "turnserver (coturn) is missing" : !has("openssl") ? "openssl is missing" : false;

/** A port on which nobody listens. */
export async function freePort() {
    const listener = net.createServer();
    await new Promise((resolve) => listener.listen(0, "127.0.0.1", resolve));
    const { port } = listener.address();
    await new Promise((resolve) => listener.close(resolve));
    return port;
}

/** Whether something accepts connections on a port. */
async function accepts(port) {
    const socket = net.connect(port, "127.0.0.1");
    const isThere = await new Promise((resolve) => socket.once("connect", () => resolve(true)).once("error", () => resolve(false)));
    socket.destroy();
    return isThere;
}

/** Whether something takes datagrams on a port, as the kernel tells. */
function takesDatagrams(port) {
    const local = `0100007F:${port.toString(16).toUpperCase().padStart(4, "0")}`;
    return readFileSync("/proc/net/udp", "ascii").split("\n").some((row) => row.trim().split(/\s+/)[1] === local);
}

async function until(isThere) {
    for (let tries = 0; tries < 600; tries++) {
        if (await isThere()) {
            return;
        }
        await new Promise((resolve) => setTimeout(resolve, 50));
    }
    throw new Error("turnserver does not listen");
}

/** Waits until a server accepts connections on a port, as of TLS. */
export function listens(port) {
    return until(() => accepts(port));
}

/** Waits until a server accepts connections on a port, and takes datagrams, which coturn does a little later. */
export function serves(port) {
    return until(async () => takesDatagrams(port) && await accepts(port));
}

/** The servers of a file of tests, and the folder where they write. */
export class Servers {
    room = mkdtempSync(path.join(tmpdir(), "yarrowdoor-js-"));
    cert = path.join(this.room, "cert.pem");
    key = path.join(this.room, "key.pem");
    #all = [];

    /** Makes a certificate for localhost. */
    certify() {
        execFileSync("openssl", ["req", "-x509", "-newkey", "ec", "-pkeyopt", "ec_paramgen_curve:prime256v1", "-nodes", "-keyout", this.key,
            "-out", this.cert, "-days", "2", "-subj", "/CN=localhost", "-addext", "subjectAltName=DNS:localhost,IP:127.0.0.1"],
        { stdio: "ignore" });
    }

    /** Starts coturn on a port. */
    start(name, port, words) {
        const server = spawn("turnserver", ["-n", "--no-cli", "--lt-cred-mech", "-u", "user:pass", "-r", "realm", "--allow-loopback-peers",
            "-L", "127.0.0.1", "-p", String(port), "--log-file", path.join(this.room, `${name}.log`),
            "--pidfile", path.join(this.room, `${name}.pid`), ...words], { stdio: "ignore" });
        this.#all.push(server);
        return server;
    }

    /** Ends them all. */
    close() {
        this.#all.forEach((server) => server.kill());
        rmSync(this.room, { recursive: true });
    }
}
