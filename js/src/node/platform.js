// What the client without I/O uses of Node: files, and the random numbers that Node 18 has in a module. Pages never load this file.
import { webcrypto } from "node:crypto";
import { readFile } from "node:fs/promises";
import { bytesOf, readBy } from "../load.js";
import { useRandom } from "../random.js";

/** A text that is a URL; another one is a path. */
const IS_URL = /^(file|https?|data|blob):/i;

readBy(async (source) => {
    const where = typeof source === "string" && IS_URL.test(source) ? new URL(source) : source;
    return typeof where === "string" || where.protocol === "file:" ? readFile(where) : bytesOf(await fetch(where));
});
useRandom(/** @type {Crypto} */ (/** @type {unknown} */ (webcrypto)));
