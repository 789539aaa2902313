import { opened } from "./opened.js";

const relay = await opened();
await relay.close();
console.log("closed");
