import { opened } from "./opened.js";

const relay = await opened();
process.on("exit", () => relay.abandon());
console.log("opened");
process.exit();
