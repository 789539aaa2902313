// What the package uses of Node, for the check of its types: Debian has no package of Node's own.

declare var process: {
    readonly versions: { readonly node?: string }, nextTick(what: (...words: any[]) => void, ...words: any[]): void,
    emitWarning(text: string, options: { type: string, code: string }): void,
};
interface Buffer extends Uint8Array {
    subarray(start?: number, end?: number): Buffer;
    toString(encoding?: "latin1" | "utf8"): string;
}
declare var Buffer: {
    from(bytes: Uint8Array): Buffer, from(memory: ArrayBufferLike, start: number, length: number): Buffer, concat(parts: Uint8Array[]): Buffer,
};
declare function setTimeout(what: (...words: any[]) => void, milliseconds: number, ...words: any[]): { unref(): void };
declare function clearTimeout(timer: { unref(): void } | undefined): void;
declare function setImmediate(what: (value: any) => void): void;
declare namespace NodeJS {
    type ArrayBufferView = Uint8Array | DataView;
}

declare module "node:fs/promises" {
    export function readFile(file: URL | string): Promise<Buffer>;
}

declare module "node:crypto" {
    export const webcrypto: unknown;
}

declare module "node:diagnostics_channel" {
    export interface Channel {
        readonly hasSubscribers: boolean;
        publish(message: unknown): void;
    }
    const diagnostics: { channel(name: string): Channel };
    export default diagnostics;
}

declare module "node:events" {
    export class EventEmitter {
        on(name: string, listener: (...words: any[]) => void): this;
        once(name: string, listener: (...words: any[]) => void): this;
        off(name: string, listener: (...words: any[]) => void): this;
        emit(name: string, ...words: unknown[]): boolean;
        listenerCount(name: string): number;
        removeAllListeners(name: string): this;
    }
}

declare module "node:stream" {
    import { EventEmitter } from "node:events";
    export class Duplex extends EventEmitter {
        constructor(options: { allowHalfOpen: boolean });
        readonly destroyed: boolean;
        push(data: Uint8Array | null): boolean;
        read(size?: number): Buffer | null;
        write(data: Uint8Array | string, written?: (error?: Error | null) => void): boolean;
        end(data?: Uint8Array | string): this;
        destroy(error?: Error): this;
        pipe<T>(to: T): T;
        [Symbol.asyncIterator](): AsyncIterableIterator<any>;
    }
}

declare module "node:dgram" {
    import { EventEmitter } from "node:events";
    export class Socket extends EventEmitter {
        bind(where: { port?: number, address?: string, exclusive?: boolean }, bound: () => void): void;
        connect(port: number, host: string, connected: () => void): void;
        send(data: Uint8Array, sent: (error: Error | null) => void): void;
        address(): { address: string, port: number };
        remoteAddress(): { address: string, port: number };
        ref(): this;
        unref(): this;
        close(): void;
    }
    export function createSocket(type: "udp4" | "udp6"): Socket;
    const dgram: { createSocket: typeof createSocket, Socket: typeof Socket };
    export default dgram;
}

declare module "node:net" {
    import { EventEmitter } from "node:events";
    export class Socket extends EventEmitter {
        readonly connecting: boolean;
        readonly readableEncoding: string | null;
        readonly destroyed: boolean;
        readonly localAddress: string | undefined;
        readonly localPort: number | undefined;
        readonly remoteAddress: string | undefined;
        readonly remotePort: number | undefined;
        readonly writableNeedDrain: boolean;
        readonly writableLength: number;
        setNoDelay(isOn: boolean): void;
        setKeepAlive(isOn: boolean, milliseconds: number): void;
        write(data: Uint8Array, written?: (error?: Error | null) => void): boolean;
        pause(): this;
        resume(): this;
        end(): void;
        destroy(): void;
        destroySoon(): void;
        ref(): this;
        unref(): this;
    }
    const net: {
        connect(options: { host: string, port: number, localAddress?: string, localPort?: number }): Socket, Socket: typeof Socket,
    };
    export default net;
}

declare module "node:tls" {
    import { Socket } from "node:net";
    export interface ConnectionOptions {
        readonly [name: string]: unknown;
    }
    const tls: { connect(options: ConnectionOptions): Socket };
    export default tls;
}

declare module "node:dns/promises" {
    const dns: { lookup(host: string, options: { all: true, verbatim: true }): Promise<{ address: string, family: number }[]> };
    export default dns;
}
