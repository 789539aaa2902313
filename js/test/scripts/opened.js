// Opens a relay by the words of the command: URL, user name, password.
import { Relay } from "../../src/node/index.js";
import { library } from "../module.js";

export async function opened() {
    const [urls, username, credential] = process.argv.slice(2);
    return Relay.open({ urls, username, credential, library: await library() });
}
