// Permissions and channels: asked for, granted, and lost.
import { ChannelFailed, PermissionFailed, Refused } from "../errors.js";
import { canonicalIp } from "../address.js";
import { channelKey, permissionKey } from "./reasons.js";

/** @typedef {import("../address.js").Address} Address */
/** @typedef {import("./reasons.js").Key} Key */
/**
 * What a peer had, and has no longer: of a permission its IP address, of a channel its address with the port.
 * @typedef {{ what: "permission", ip: string } | { what: "channel", peer: Address }} Lost
 */

/** How long `send` asks for no permission after a refusal, in milliseconds: twice as long each time, up to the last. */
const FIRST_REST = 5_000, LAST_REST = 80_000;
/** So many refused peers are remembered. */
const MOST_RESTS = 4_096;

/** The permissions and channels of a client. `usable` gives the client, or throws what says that it has ended. */
export class Grants {
    /** @type {Set<string>} */
    #granted = new Set();
    /** @type {Set<string>} */
    #released = new Set();
    /** @type {Map<string, { wait: number, until: number, hint: import("../errors.js").Hint | undefined }>} */
    #rests = new Map();
    #usable;
    #drive;
    #clock;
    #requests;
    #tellLost;

    /**
     * @param {() => import("../client.js").Client} usable
     * @param {() => void} drive
     * @param {import("./clock.js").Clock} clock
     * @param {import("./requests.js").Requests} requests
     * @param {(lost: Lost) => void} tellLost
     */
    constructor(usable, drive, clock, requests, tellLost) {
        this.#usable = usable;
        this.#drive = drive;
        this.#clock = clock;
        this.#requests = requests;
        this.#tellLost = tellLost;
    }

    /** How many permissions and channels there are. */
    get count() {
        return this.#granted.size;
    }

    /**
     * Asks for a permission, unless there is one, and waits for the answer.
     * @param {string} given an IP address in any spelling: events have the canonical one
     */
    async permit(given) {
        const ip = canonicalIp(given);
        if (this.#usable().havePermission(ip)) {
            return;
        }
        await this.#requests.ask(permissionKey(ip), () => {
            const client = this.#usable();
            try {
                client.createPermission(ip, this.#clock.now());
            } catch (error) {
                if (!(error instanceof Refused) || error.reason !== "already-exists") {
                    throw error;
                }
                return client.havePermission(ip) ? "granted" : "asked-before";
            }
            this.#drive();
            return "unsent";
        });
    }

    /**
     * The same, for data that is to be sent: a peer that was refused is not asked again for a while.
     * @param {string} ip
     */
    async permitToSend(ip) {
        const rest = this.#rests.get(ip);
        if (rest && this.#clock.now() < rest.until) {
            const seconds = rest.wait / 1_000;
            throw new PermissionFailed(`no permission for ${ip}: it failed less than ${seconds} s ago, and is not asked for again so soon`,
                rest.hint);
        }
        await this.permit(ip);
    }

    /**
     * Asks for a channel, and with it for a permission, and waits for the answer.
     * @param {Address} peer
     */
    async bind(peer) {
        const key = channelKey(peer);
        await this.#requests.ask(key, () => {
            try {
                this.#usable().bindChannel(peer, this.#clock.now());
            } catch (error) {
                if (!(error instanceof Refused) || error.reason !== "already-exists" || !this.#granted.has(key.text)) {
                    throw error; // it is also the reason where no channel number is left
                }
                return "granted";
            }
            this.#drive();
            return "unsent";
        });
        if (!this.#usable().havePermission(peer.address)) {
            await this.permit(peer.address); // the channel is an older one, whose permission is gone
        }
    }

    /**
     * Says whether the permission of an IP address, or the channel of a peer, is refreshed.
     * @param {string | Address} about
     * @param {boolean} isKept
     */
    setKept(about, isKept) {
        const client = this.#usable();
        if (typeof about === "string") {
            client.setPermissionKept(about, isKept);
        } else {
            client.setChannelKept(about, isKept);
        }
        const { text } = typeof about === "string" ? permissionKey(about) : channelKey(about);
        if (isKept) {
            this.#released.delete(text);
        } else {
            this.#released.add(text);
        }
    }

    /**
     * The client reports that something is granted.
     * @param {Key} key
     */
    created(key) {
        this.#granted.add(key.text);
        this.#rests.delete(key.ip ?? key.peer?.address ?? "");
        this.#requests.settle(key, undefined);
    }

    /**
     * The client reports that something is refused, or lost. Says whether it is lost since the server did not answer.
     * @param {Key} key
     */
    failed(key) {
        const hint = this.#requests.last(key)?.error, wasGranted = this.#granted.delete(key.text);
        const wasReleased = this.#released.delete(key.text), isLost = wasGranted && !wasReleased; // what was released was to end
        if (key.ip !== undefined && !wasReleased) {
            this.#letRest(key.ip, hint);
        }
        const error = key.ip !== undefined ? new PermissionFailed(`no permission for ${key.ip}`, hint)
            : new ChannelFailed(`no channel to ${key.peer?.address}:${key.peer?.port}`, hint);
        if (!this.#requests.settle(key, error) && isLost) {
            this.#tellLost(key.peer ? { what: "channel", peer: key.peer } : { what: "permission", ip: key.ip ?? "" });
        }
        return isLost && hint === undefined;
    }

    /**
     * @param {string} ip
     * @param {import("../errors.js").Hint | undefined} hint
     */
    #letRest(ip, hint) {
        const before = this.#rests.get(ip), wait = before ? Math.min(2 * before.wait, LAST_REST) : FIRST_REST;
        this.#rests.delete(ip);
        this.#rests.set(ip, { wait, until: this.#clock.now() + wait, hint });
        if (this.#rests.size > MOST_RESTS) {
            this.#rests.delete(this.#rests.keys().next().value);
        }
    }
}
