// What a program in TypeScript may not write: each line behind `@ts-expect-error` is an error, and it is one where there is none.
import { Client, Library } from "../types/index";
import { Relay } from "../types/node/index";

export async function wrong(relay: Relay, client: Client, library: Library): Promise<void> {
    // @ts-expect-error: no event has this name
    relay.on("mesage", () => {});
    // @ts-expect-error: no event has this name
    relay.once("connect", () => {});
    // @ts-expect-error: a message has data first
    relay.on("message", (data: string) => data);
    // @ts-expect-error: `close` has nothing
    relay.on("close", (error: Error) => error);
    // @ts-expect-error: a message has two parts
    relay.emit("message", Buffer.from("x"));
    // @ts-expect-error: a name without a port is no peer
    await relay.send("hello", "127.0.0.1");
    // @ts-expect-error: an allocation is over UDP or TCP
    await Relay.open({ urls: "turn:127.0.0.1", username: "user", credential: "pass", allocation: "tls" });
    // @ts-expect-error: a stream is no data
    relay.on("connection", (stream: Uint8Array) => stream.length);
    // @ts-expect-error: a callback takes the place of the promise
    relay.send("hello", 9, "127.0.0.1", () => {}).then(() => {});
    const rest = client.poll(0n);
    // @ts-expect-error: a time in nanoseconds is no number
    rest.kind === "wait-until" && setTimeout(() => {}, rest.until);
    // @ts-expect-error: the inside of a library is not for its users
    library.alloc(8);
    // @ts-expect-error: the inside of a library is not for its users
    library.put(new Uint8Array(1));
    // @ts-expect-error: a library is loaded
    new Library();
}
