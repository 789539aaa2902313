// Relays a text to a peer and prints what comes back: node relay.js URL USER PASSWORD PEER-ADDRESS PEER-PORT TEXT
//
// Where nothing comes back within five seconds it ends with 1, and with 2 where the words are none.
import { Relay, YarrowdoorError } from "yarrowdoor";

const [urls, username, credential, address, port, text] = process.argv.slice(2);
if (text === undefined) {
    console.error("usage: node relay.js URL USER PASSWORD PEER-ADDRESS PEER-PORT TEXT");
    process.exit(2);
}

/** Sends the text once a second until something comes back: what is relayed may be lost, as with UDP. */
async function exchange(relay) {
    const deadline = AbortSignal.timeout(5_000);
    const answer = new Promise((resolve) => relay.once("message", (data) => resolve(Buffer.from(data).toString())));
    const late = new Promise((_, reject) => deadline.addEventListener("abort", () => reject(new Error("nothing came back in 5 s"))));
    await relay.bind(Number(port), address);
    const sending = setInterval(() => relay.sendTo(text, Number(port), address), 1_000);
    relay.sendTo(text, Number(port), address);
    try {
        return await Promise.race([answer, late]);
    } finally {
        clearInterval(sending);
    }
}

let relay;
try {
    relay = await Relay.open({ urls, username, credential, signal: AbortSignal.timeout(10_000) });
    const own = relay.address();
    console.error(`peers reach me at ${own.address}:${own.port}`);
    console.log(await exchange(relay));
} catch (error) {
    console.error(error instanceof YarrowdoorError ? `${error.reason}: ${error.message}` : error.message);
    process.exitCode = 1;
} finally {
    await relay?.close();
}
