// Where tests find the modules: dist/wasm, or the folder YARROWDOOR_WASM.
import { readFile } from "node:fs/promises";
import path from "node:path";
import { fileURLToPath } from "node:url";
import { Library } from "../src/library.js";
import { Module } from "../src/module.js";
import "../src/node/platform.js";

/** The folder of the modules. */
export const FOLDER = process.env.YARROWDOOR_WASM ?? fileURLToPath(new URL("../../dist/wasm", import.meta.url));

/** A new instance of the module for tests, in which an allocation can be refused. */
export async function testModule() {
    return (await WebAssembly.instantiate(await readFile(path.join(FOLDER, "test.wasm")), {})).instance;
}

/** A new library over that instance. */
export async function testLibrary() {
    const { exports } = await testModule();
    return { exports, library: new Library(new Module(exports, Infinity)) };
}

/** A new library over the module of the package. */
export async function newLibrary(options) {
    return Library.load({ source: await readFile(path.join(FOLDER, "yarrowdoor.wasm")), ...options });
}

let found;

/** A library that all tests of a file share. */
export function library() {
    found ??= newLibrary();
    return found;
}
