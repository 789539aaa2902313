import { Address, AddressLike } from "../address.js";
import { Messages } from "./messages.js";

/** What can be sent: text, a view of bytes, or several of them that make one datagram. */
export type Data = string | NodeJS.ArrayBufferView | readonly (string | NodeJS.ArrayBufferView)[];
/** How data is sent: `signal` gives up the waiting, and data that waits is not sent then. */
export type SendOptions = { readonly signal?: AbortSignal };
/** What is called when data was handed to the system, with null, or has failed. */
export type SendCallback = (error: Error | null) => void;

/** What sends data of a user. */
export class Sending extends Messages {
    /**
     * Sends data to a peer: requests its permission first, and waits if the socket is full. It does not wait for the data to
     * arrive. If nothing was received since the last call, it lets the program read first. A peer whose permission the server has
     * refused is not asked again for five seconds, then for ten, up to 80: until then PermissionFailed comes at once.
     *
     * TypeError and RangeError are thrown at once. The promise has PermissionFailed, `Ended`, `Refused` (`no-allocation`) for another
     * family than that of the relayed address, RangeError for data that does not fit, and the reason of the signal. Nobody has to
     * wait for it: what fails then is published on the channel `yarrowdoor:send-failed`, and is lost as a datagram is.
     */
    send(data: Data, port: number, address: string, options?: SendOptions): Promise<void>;
    /** As above, to a peer as `message` gives it. */
    send(data: Data, peer: AddressLike, options?: SendOptions): Promise<void>;
    /** As above, of `length` bytes from `offset` on. */
    send(data: Data, offset: number, length: number, port: number, address: string, options?: SendOptions): Promise<void>;
    /** As above, of a part of the data, to a peer as `message` gives it. */
    send(data: Data, offset: number, length: number, peer: AddressLike, options?: SendOptions): Promise<void>;
    /** As above, with a callback in place of the promise, as `dgram` has it. */
    send(data: Data, port: number, address: string, callback: SendCallback): undefined;
    /** As above, with a callback. */
    send(data: Data, peer: AddressLike, callback: SendCallback): undefined;
    /** As above, with a callback. */
    send(data: Data, offset: number, length: number, port: number, address: string, callback: SendCallback): undefined;
    /** As above, with a callback. */
    send(data: Data, offset: number, length: number, peer: AddressLike, callback: SendCallback): undefined;

    /** Sends bytes when there is a permission, and room in the socket. */
    protected sendWhenPermitted(data: Uint8Array, peer: Address, signal: AbortSignal | undefined): Promise<void>;
}
