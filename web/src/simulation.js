// A run that is not recorded: a client of the module, a caller, the page's server, and a network that loses the packets that it is
// told to lose. Each packet has a number, in the order in which they are sent. What is lost leaves all before it as it was.
import { answerTo } from "../yarrowdoor/lines/answers.js";
import { fromField, toField, toHex } from "../yarrowdoor/lines/hex.js";
import { parseCall, parseHead } from "../yarrowdoor/lines/lines.js";
import { Client } from "../yarrowdoor/src/client.js";
import { BadEdit } from "./edits.js";
import { canSign } from "./integrity.js";
import { textBytes } from "./messages.js";
import { Server } from "./server.js";

const LOCAL = "192.168.0.1:1000", REMOTE = "10.0.0.2:2000", RELAYED = "10.0.0.4:40000", PEER = "10.0.0.3:9000";
/** The first line of the run: user `user`, password `pass`. */
export const HEAD = `udp ${LOCAL} ${REMOTE} udp 4 sha1 auto 75736572 70617373 ${"00".repeat(32)}`;
/** From one end of a way to the other, how long the caller waits for an echo, and when the run ends at the latest, in nanoseconds. */
const WAY = 20_000_000n, PATIENCE = 1_000_000_000n, END = 120_000_000_000n;
/** How often the caller sends data again that does not come back, which TURN does not. */
const MOST_TRIES = 5;

/**
 * A call of the run with its answer. A packet that is sent or passed in has a number; `isLost` says that it did not arrive, and so
 * that a call which would have passed it in was not made.
 * @typedef {{ line: string, answer: string | undefined, number: number | undefined, isLost: boolean }} Made
 */

class Simulation {
    /** @type {Made[]} */
    made = [];
    #client;
    #settings = parseHead(HEAD);
    #lost;
    /** @type {Server} */
    #server;
    #count = 0;
    /** What is on its way: when it arrives, whether at the client, and what that leads to. */
    #arrivals = [];
    /** What the caller waits for: the data that is to come back, when it is sent again, and how often it was sent. */
    #wanted = { text: "", again: END, tries: 0 };
    #isDone = false;

    constructor(library, lost, server) {
        [this.#client, this.#lost, this.#server] = [new Client(this.#settings, library), lost, server];
    }

    close() {
        this.#client.close();
    }

    #call(now, words) {
        const line = `${now} ${words}`, answer = answerTo(this.#client, parseCall(line, this.#settings));
        return { line, answer, number: undefined, isLost: false };
    }

    /** Makes a call that is part of the run, unless it is one that finds nothing. */
    #make(now, words) {
        const call = this.#call(now, words);
        if (call.answer !== "none") {
            this.made.push(call);
        }
        if (call.answer.startsWith("send ")) {
            this.#depart(now, call);
        }
        return call.answer;
    }

    /** Gives a packet its number, and says whether it is lost. */
    #numbered(call) {
        call.number = this.#count++;
        call.isLost = this.#lost.has(call.number);
        return call;
    }

    /** Has something arrive, in the order of the times. */
    #arrive(time, isAtClient, arrive) {
        const behind = this.#arrivals.findIndex((other) => other.time > time);
        this.#arrivals.splice(behind < 0 ? this.#arrivals.length : behind, 0, { time, isAtClient, arrive });
    }

    #depart(now, call) {
        if (!this.#numbered(call).isLost) {
            const bytes = fromField(call.answer.split(" ")[4]);
            this.#arrive(now + WAY, false, (time) => this.#toServer(time, bytes));
        }
    }

    async #toServer(now, bytes) {
        const { toClient, toPeer } = await this.#server.take(bytes);
        toClient && this.#arrive(now + WAY, true, (time) => this.#toClient(time, toClient));
        // The peer sends back what it gets.
        toPeer && this.#arrive(now + 2n * WAY, false, (time) => this.#fromPeer(time, toPeer));
    }

    #fromPeer(now, { peer, data }) {
        const id = Uint8Array.from({ length: 12 }, (_, at) => (at === 11 ? this.#count & 255 : 0));
        const bytes = this.#server.fromPeer(peer, data, id);
        bytes && this.#arrive(now + WAY, true, (time) => this.#toClient(time, bytes));
    }

    #toClient(now, bytes) {
        const line = `${now} recv udp ${REMOTE} ${LOCAL} ${toHex(bytes)}`;
        const call = this.#numbered({ line, answer: undefined, number: undefined, isLost: false });
        if (!call.isLost) {
            call.answer = answerTo(this.#client, parseCall(line, this.#settings));
        }
        this.made.push(call);
        this.#heed(now, call.answer ?? "");
    }

    /** What the caller does at an event, or at data that came back. */
    #heed(now, answer) {
        const [kind, , , data] = answer.split(" ");
        if (kind === "allocated") {
            this.#make(now, `permit udp ${PEER.split(":")[0]}`);
        } else if (kind === "permitted" && !this.#wanted.text) {
            this.#send(now, "hello", 1);
        } else if (kind === "bound") {
            this.#send(now, "over a channel", 1);
        } else if (kind.endsWith("-failed")) {
            this.#isDone = true;
        } else if (kind === "data" && data === toField(textBytes(this.#wanted.text))) {
            this.#echoed(now);
        }
    }

    #send(now, text, tries) {
        this.#wanted = { text, again: tries < MOST_TRIES ? now + PATIENCE : END, tries };
        this.#make(now, `send udp ${PEER} ${toField(textBytes(text))}`);
    }

    #echoed(now) {
        const isFirst = this.#wanted.text === "hello";
        this.#wanted = { text: "-", again: END, tries: 0 };
        isFirst ? this.#make(now, `bind udp ${PEER}`) : (this.#isDone = true);
    }

    /** All that is due at a time. Gives the next time at which something is, or undefined where the client has ended. */
    #settle(now) {
        for (;;) {
            for (let event; (event = this.#make(now, "event")) !== "none";) {
                this.#heed(now, event);
            }
            while (this.#make(now, "transmit") !== "none");
            const [kind, until] = this.#make(now, "poll").split(" ");
            if (kind !== "wait") {
                return undefined;
            }
            if (BigInt(until) > now) {
                return BigInt(until);
            }
        }
    }

    /** Runs it until the data came back over the channel, or cannot any more. */
    async run() {
        for (let now = 0n, wakeUp = this.#settle(now); wakeUp !== undefined && !this.#isDone;) {
            const [first] = this.#arrivals, { again, text, tries } = this.#wanted;
            now = [wakeUp, again, first?.time ?? END].reduce((least, time) => (time < least ? time : least));
            if (now >= END) {
                return;
            }
            if (first?.time === now) {
                await this.#arrivals.shift().arrive(now);
            } else if (again === now) {
                this.#send(now, text, tries + 1);
            }
            if (first?.time !== now || first.isAtClient) {
                wakeUp = this.#settle(now);
            }
        }
    }
}

/** The numbers of the packets that edits lose. BadEdit. */
function lostBy(edits) {
    return new Set(edits.map((edit) => {
        const [, number] = /^lose ([0-9]{1,4})$/.exec(edit) ?? [];
        if (number === undefined) {
            throw new BadEdit("in this run packets can be left out, and nothing else, since the server answers by itself");
        }
        return Number(number);
    }));
}

/**
 * The calls of the run in which these packets are lost, as `lose NUMBER` says of each. BadEdit.
 * @param {import("../yarrowdoor/src/library.js").Library} library
 * @param {readonly string[]} edits
 * @returns {Promise<Made[]>}
 */
export async function simulated(library, edits) {
    const lost = lostBy(edits);
    if (!canSign()) {
        throw new BadEdit("the server in this page can sign only over https or from this machine");
    }
    const simulation = new Simulation(library, lost, await Server.for(parseHead(HEAD), RELAYED));
    try {
        await simulation.run();
        return simulation.made;
    } finally {
        simulation.close();
    }
}
