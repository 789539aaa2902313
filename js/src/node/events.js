// The emitter of a relay. Its types, in events.d.ts, know its events.
export { EventEmitter as RelayEmitter } from "node:events";
