// The first packet of a new client, as hexadecimal digits, into the page.
import { Client } from "./node_modules/yarrowdoor/src/index.js";

const client = await Client.create({
    local: { address: "10.0.0.1", port: 5000 }, remote: { address: "10.0.0.2", port: 3478 }, username: "user", credential: "pass",
    algorithms: ["sha1"], seed: new Uint8Array(32), // the same bytes each time: for a page that sends nothing alone
});
const { data } = client.pollTransmit(performance.now());
document.getElementById("packet").textContent = Array.from(data, (byte) => byte.toString(16).padStart(2, "0")).join("");
client.close();
