// A tour through one run: a sentence for each step, and a picture of who takes part in it.
import { byId, draw, make } from "./dom.js";

/** The run of the tour. */
export const TOUR_RUN = "exchange/data_is_delivered_and_answered";

const PARTIES = Object.freeze(["client", "NAT", "server", "peer"]);
const OUT = Object.freeze(["client", "NAT", "server"]), IN = Object.freeze(["server", "NAT", "client"]), AT_CLIENT = Object.freeze(["client"]);

/** Each step: the way that its packet takes, or who it is about, and the sentence. */
const STEPS = Object.freeze([
    [OUT, "A client behind a NAT cannot be reached by its peers, so it asks a TURN server for an address there: an Allocate request."],
    [IN, "The server does not serve just anybody: 401, prove who you are, with a realm and a nonce to sign with."],
    [OUT, "The client asks again and signs the request with its password, which itself never goes over the network."],
    [IN, "The signature is right, so the server grants an allocation: 10.0.0.4:40000, the relayed address, for 1,000 seconds."],
    [AT_CLIENT, "The client reports the relayed address to its caller, who can give it to peers."],
    [AT_CLIENT, "No peer may send to that address yet, so the caller requests a permission for the IP address of one."],
    [OUT, "The request for the permission goes out, signed as well."],
    [IN, "The server grants the permission: for five minutes it relays data of this peer to the client."],
    [AT_CLIENT, "The client reports the permission to its caller: from now on data can go to the peer, and come from it."],
    [["peer", "server", "NAT", "client"],
        "The peer sends to the relayed address; the server wraps the data into a Data indication, which passes the NAT on the way that the "
        + "client opened."],
    [["client", "NAT", "server", "peer"],
        "The reply takes the same way back: a Send indication to the server, which passes the data on from the relayed address."],
    [AT_CLIENT, "Now there is nothing to do until 240.1 s: then the client renews the permission, a minute before it ends."],
]);

const WIDTH = 440, HEIGHT = 66, MIDDLE = 26;
const placeOf = (party) => 45 + PARTIES.indexOf(party) * 116;

function party(name, isLit) {
    const x = placeOf(name);
    return draw("g", { class: isLit ? "party lit" : "party" }, draw("circle", { cx: x, cy: MIDDLE, r: 14 }),
        draw("text", { x, y: 58, "text-anchor": "middle" }, name));
}

/** A way between two neighbours, with a tip where a packet takes it. */
function way(from, to, isLit) {
    const by = placeOf(to) > placeOf(from) ? 1 : -1, start = placeOf(from) + 18 * by, end = placeOf(to) - 18 * by;
    const tip = draw("path", { class: "tip", d: `M${end} ${MIDDLE}l${-9 * by} -5v10z` });
    return draw("g", { class: isLit ? "way lit" : "way" }, draw("line", { x1: start, x2: end, y1: MIDDLE, y2: MIDDLE }), isLit && tip);
}

/** The picture: those on the way of a packet are lit. */
function picture(path) {
    const isOn = (one, other) => path.some((name, at) => name === one && path[at + 1] === other);
    const ways = PARTIES.slice(1).map((other, at) => (isOn(other, PARTIES[at]) ? way(other, PARTIES[at], true)
        : way(PARTIES[at], other, isOn(PARTIES[at], other))));
    const title = path.length > 1 ? `A packet goes from ${path[0]} to ${path.at(-1)}` : `At the ${path[0]}`;
    return draw("svg", { role: "img", "aria-label": title, viewBox: `0 0 ${WIDTH} ${HEIGHT}`, class: "parties" }, ways,
        PARTIES.map((name) => party(name, path.includes(name))));
}

/** The part of the page for the tour. */
export class Tour {
    #choose;
    /** The step that it speaks of, or undefined while there is no tour. */
    #step;

    /** @param {(index: number) => void} choose is called with the step that a reader goes on to */
    constructor(choose) {
        this.#choose = choose;
        byId("tour-before").addEventListener("click", () => this.#step > 0 && this.#choose(this.#step - 1));
        byId("tour-next").addEventListener("click", () => (this.#step === STEPS.length - 1 ? this.end() : this.#choose(this.#step + 1)));
        byId("tour-end").addEventListener("click", () => this.end());
    }

    /** Begins: what `show` is called with next is the first step. */
    begin() {
        this.#step = 0;
    }

    end() {
        this.#step = undefined;
        const hadFocus = byId("tour").contains(document.activeElement);
        byId("tour").hidden = true;
        hadFocus && byId("ladder").focus({ preventScroll: true });
    }

    /**
     * Speaks of a step, or ends the tour where another run is shown, or a changed one.
     * @param {string} run
     * @param {import("./story.js").Story} story
     * @param {number} index
     */
    show(run, story, index) {
        if (this.#step === undefined) {
            return;
        }
        if (run !== TOUR_RUN || !story.isOriginal || !STEPS[index]) {
            this.end();
            return;
        }
        this.#step = index;
        const [path, text] = STEPS[index];
        byId("tour").hidden = false;
        byId("tour-title").replaceChildren(`Tour: step ${index + 1} of ${STEPS.length}`);
        byId("tour-picture").replaceChildren(picture(path));
        byId("tour-text").replaceChildren(make("span", {}, text));
        // A disabled button would lose the focus.
        byId("tour-before").setAttribute("aria-disabled", String(index === 0));
        byId("tour-next").replaceChildren(index === STEPS.length - 1 ? "Done" : "Next");
    }
}
