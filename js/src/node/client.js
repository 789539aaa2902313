/**
 * A TURN client without I/O (RFC 8656, 6062 and 6156), in Node.
 *
 * @module
 */
import "./platform.js";

export * from "../index.js";
