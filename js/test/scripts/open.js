import { opened } from "./opened.js";

await opened();
console.log("opened");
