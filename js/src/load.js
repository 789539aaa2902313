// Where the module comes from: a URL, a response, or bytes.

/**
 * What the module can be loaded from. Not each library of types has a name for a compiled module, which is an object as any.
 * @typedef {ArrayBuffer | ArrayBufferView | URL | string | object} Source
 */
/** @typedef {ArrayBuffer | ArrayBufferView} Bytes */
/**
 * Reads what a URL names, or a text, as `fetch` takes both.
 * @typedef {(source: URL | string) => Promise<Bytes>} Reader
 */

/** @type {Reader} */
let read = async (source) => bytesOf(await fetch(source));

/**
 * Has URLs read otherwise. Node's `fetch` reads no files, and what does is in a module that a page has not.
 * @param {Reader} reader
 */
export function readBy(reader) {
    read = reader;
}

/**
 * The bytes of the module.
 * @param {Source} source
 * @returns {Promise<Bytes>}
 */
export async function bytesOf(source) {
    if (typeof source === "string" || source instanceof URL) {
        return read(source);
    }
    if (typeof Response !== "undefined" && source instanceof Response) {
        if (!source.ok) {
            throw new Error(`${source.url} answers ${source.status}`);
        }
        return source.arrayBuffer();
    }
    return /** @type {Bytes} */ (source);
}

/**
 * What an error says.
 * @param {unknown} error
 */
export function textOf(error) {
    return error instanceof Error ? error.message : String(error);
}
