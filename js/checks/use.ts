// What a program in TypeScript writes, against the types of the package.
import { Client, Library, Message, Poll, Refused, parse } from "../types/index";
import { Check, ConnectFailed, Lost, PeerStream, Relay, RelayEvents, RelayOptions, RemoteInfo, WrongCredentials } from "../types/node/index";

export async function uses(): Promise<string> {
    const library = await Library.load({ memoryLimit: 16_000_000 });
    const client = new Client({
        local: { address: "10.0.0.1", port: 5000 }, remote: { address: "10.0.0.2", port: 3478 }, username: "user", credential: "pass",
    }, library);
    const rest = client.poll(0n);
    if (rest.kind === "wait-until") {
        const exact: bigint = rest.until;
        client.poll(exact);
    }
    const soon: Poll<number> = client.poll(performance.now());
    if (soon.kind === "wait-until") {
        setTimeout(() => {}, soon.until - performance.now());
    }
    const answer = client.recv(new Uint8Array(1), 1.5), said = parse(library, new Uint8Array(20));
    const data: Uint8Array | undefined = answer.kind === "peer-data" ? answer.data : undefined;
    const message: Message | undefined = said?.kind === "message" ? said : undefined, code: number | undefined = message?.error?.code;
    const buffer: { [Symbol.dispose](): void } = library.buffer(8), freed: { [Symbol.dispose](): void } = client;
    freed[Symbol.dispose]();
    buffer[Symbol.dispose]();
    return `${data?.length} ${code}`;
}

export async function relays(): Promise<number> {
    const relay = await Relay.open({ urls: ["turn:127.0.0.1"], username: "user", credential: "pass", signal: new AbortController().signal });
    try {
        await relay.send("hello", 9, "127.0.0.1");
        await relay.send(new Uint8Array(1), relay.address());
        await relay.bind({ address: "127.0.0.1", port: 9 });
        await relay.send([new Uint8Array(1), "two"], 0, 2, 9, "127.0.0.1", { signal: new AbortController().signal });
        relay.send("hello", 9, "127.0.0.1", (error) => error?.message.trim());
        relay.send("hello", 0, 4, relay.address(), (error) => error?.message.trim());
        relay.send("hello", relay.address()).catch((error: Error) => error.message);
        await relay.permit("127.0.0.1", {});
        for await (const [data, peer] of relay) {
            return data.length + peer.port + peer.size;
        }
    } catch (error) {
        if (error instanceof WrongCredentials || error instanceof Refused) {
            console.log(error.reason, error.code.toLowerCase());
        }
    } finally {
        await relay.close();
    }
    return relay.sendTo("x", 9, "127.0.0.1") ? 1 : 0;
}

export async function streams(relay: Relay): Promise<string | undefined> {
    relay.on("connection", (peer) => peer.pipe(peer).on("error", (error: Error) => error.message)).off("connection", () => {});
    try {
        const stream: PeerStream = await relay.connect(9, "127.0.0.1", { signal: new AbortController().signal });
        stream.unref().ref().write("hello");
        (await relay.connect({ address: "127.0.0.1", port: 9 })).destroy(new Error("not wanted"));
        stream.end();
        return `${stream.remoteAddress.trim()} ${stream.remotePort.toFixed()} ${stream.remoteFamily} ${stream.localPort.toFixed()}`;
    } catch (error) {
        return error instanceof ConnectFailed ? error.errorCode?.toFixed() : undefined;
    }
}

export const onMessage: RelayEvents["message"] = (data, peer: RemoteInfo) => console.log(data.length, peer.port);
export const stands = (check: Check, lost: Lost, options: RelayOptions): boolean => check.isAllocated ?? (lost.what === options.username);

export function listens(relay: Relay): { [Symbol.asyncDispose](): PromiseLike<void> } {
    relay.on("message", (data, peer) => console.log(data.subarray(1).toString(), data.toString("latin1"), peer.size.toFixed(), peer.address.trim()))
        .once("error", (error) => console.log(error.reason.trim(), error.cause))
        .on("lost", (lost) => console.log(lost.what === "channel" ? lost.peer.port.toFixed() : lost.ip.trim()))
        .on("socketError", (error) => console.log(error.message.trim())).on("drain", () => {}).off("drain", () => {});
    relay.on("newListener", (name) => name);
    return relay;
}
