/**
 * A TURN client for Node (RFC 8656, 6062 and 6156): a relayed address that is used like a socket of dgram, and the client without I/O.
 *
 * @module
 */
export { PeerStream } from "./peer-stream.js";
export { Relay } from "./relay.js";
export * from "./client.js";

// What its users write types with.
/** @typedef {import("./options.js").RelayOptions} RelayOptions */
/** @typedef {import("./events.js").RelayEvents} RelayEvents */
/** @typedef {import("./inbox.js").RemoteInfo} RemoteInfo */
/** @typedef {import("./grants.js").Lost} Lost */
/** @typedef {import("./path.js").Check} Check */
