/**
 * A TURN client without I/O (RFC 8656, 6062 and 6156), in any engine that has WebAssembly: the caller has the sockets and the clock.
 *
 * @module
 */
export { ModuleBuffer } from "./buffer.js";
export { Client } from "./client.js";
export { keptGrants, longestPause } from "./kept.js";
export { Library } from "./library.js";
export { attribute, parse } from "./message.js";
export {
    AllocationFailed, ChannelFailed, ConnectFailed, Ended, LibraryError, OutOfMemory, PermissionFailed, Refused, ServerError,
    WrongCredentials, YarrowdoorError,
} from "./errors.js";

// What its users write types with.
/** @typedef {import("./address.js").Address} Address */
/** @typedef {import("./address.js").AddressLike} AddressLike */
/** @typedef {import("./answers.js").Event} Event */
/** @typedef {import("./answers.js").Packet} Packet */
/** @typedef {import("./answers.js").Received} Received */
/** @typedef {import("./kept.js").Load} Load */
/** @typedef {import("./message.js").Message} Message */
/** @typedef {import("./settings.js").Settings} Settings */
/** @typedef {import("./settings.js").Times} Times */
/** @typedef {import("./time.js").Time} Time */
/**
 * @template {Time} [T=Time]
 * @typedef {import("./answers.js").Poll<T>} Poll
 */
