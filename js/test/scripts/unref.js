import { opened } from "./opened.js";

(await opened()).unref();
console.log("opened");
