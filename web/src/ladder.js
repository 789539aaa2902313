// The ladder: client, server and peers as lines downwards, packets as arrows between them, calls in order. It is a list box, in
// which one step is chosen.
import { draw, seconds } from "./dom.js";
import { METHOD } from "./names.js";
import { readable, sentence, signsOf, stepText } from "./words.js";

const ROW = 30, HEAD = 26, ARROW = 21, LABEL = 13, TEXT_WIDTH = 7.3;

/** The addresses of the peers that a run speaks to and hears, in order. */
function peersOf({ steps }) {
    const found = new Set();
    for (const { name, words, answer, packet } of steps) {
        const peer = name === "send" ? words[3] : /^(?:data|icmp) \S+ (\S+)/.exec(answer ?? "")?.[1];
        [peer, ...(packet?.frames ?? []).map(peerIn)].filter(Boolean).forEach((address) => found.add(address));
    }
    return [...found];
}

/** The peer whose data a frame carries in an indication, or undefined. */
function peerIn({ method, fields }) {
    const peer = [METHOD.DATA, METHOD.SEND].includes(method) ? fields.find(({ name }) => name === "XOR-PEER-ADDRESS")?.value : undefined;
    return peer?.startsWith("malformed") ? undefined : peer;
}

/** Where each party stands, in a width: several peers stand apart where there is room. */
function columnsOf(story, width) {
    const peers = peersOf(story), isNarrow = width < 520, most = isNarrow ? 1 : 3, isOne = peers.length > most;
    const names = isOne ? ["peers"] : peers.map((peer) => (isNarrow ? "peer" : readable(peer))), client = isNarrow ? 84 : 110;
    const last = width - (isNarrow ? 26 : 62), share = names.length > 1 ? 0.5 : 0.66;
    const server = names.length ? client + (last - client) * share : last;
    const at = (index) => (names.length === 1 ? last : server + ((last - server) * (index + 1)) / names.length);
    return {
        client, server, end: width, peers: names.map((name, index) => ({ name, x: at(index) })),
        peer: (address) => at(isOne ? 0 : Math.max(0, peers.indexOf(address))),
    };
}

function shortened(text, width) {
    const most = Math.max(4, Math.floor(width / TEXT_WIDTH));
    return text.length > most ? `${text.slice(0, most - 1)}…` : text;
}

/**
 * What happened and what came of it, in a width. Where there is not room for both, what came of it stays, unless it is only that the
 * packet was handled: most are.
 */
function labelText(what, answer, width) {
    const isLong = (what.length + answer.length) * TEXT_WIDTH > width, end = isLong && answer === " → handled" ? "" : answer;
    const room = width - end.length * TEXT_WIDTH;
    return room > width / 3 ? `${shortened(what, room)}${end}` : shortened(`${what}${end}`, width);
}

function tip(x, y, isLeft) {
    const by = isLeft ? 8 : -8;
    return draw("path", { class: "tip", d: `M${x} ${y}l${by} -4v8z` });
}

function cross(x, y) {
    return draw("path", { class: "cross", d: `M${x - 5} ${y - 5}l10 10m0 -10l-10 10` });
}

/** The peer that a packet goes to or comes from, behind the server, or undefined. */
function farPeer({ packet, answer, name, words }) {
    if (packet.isReceived) {
        return /^(?:data|icmp) \S+ (\S+)/.exec(answer ?? "")?.[1] ?? packet.frames.map(peerIn).find(Boolean);
    }
    return name === "send" ? words[3] : undefined;
}

function arrow(step, y, columns) {
    const { client, server } = columns, isReceived = step.packet.isReceived, isOutLost = step.isLost && !isReceived;
    const isIgnored = step.answer === "ignored" || step.isDropped || isOutLost, peer = isOutLost ? undefined : farPeer(step);
    const x = peer === undefined ? undefined : columns.peer(peer);
    const way = draw("line", { class: `way ${isIgnored ? "lost" : ""}`, x1: client, x2: server, y1: y, y2: y });
    const far = x === undefined ? [] : [draw("line", { class: "way far", x1: server, x2: x, y1: y, y2: y })];
    const end = x === undefined || isReceived ? [] : [tip(x, y, false)];
    return [way, ...far, ...end, isIgnored ? cross(isOutLost ? server - 12 : client + 12, y) : tip(isReceived ? client : server, y, isReceived)];
}

function label(step, y, columns) {
    const { what, answer } = stepText(step), x = columns.client + 8;
    const isBad = step.isLost || /^(ignored|refused)/.test(step.answer ?? ""), isSoft = !step.packet && /^(none|wait)/.test(step.answer ?? "");
    const kind = `${isBad ? "bad" : isSoft ? "soft" : ""} ${step.isDropped && !step.isLost ? "gone" : ""}`;
    return draw("text", { x, y, class: kind }, labelText(what, answer && ` → ${answer}`, columns.end - x - 4));
}

function row(step, before, columns) {
    const top = HEAD + step.index * ROW, isLater = !before || before.time !== step.time;
    const signs = signsOf(step).map(([sign]) => sign).join(""), middle = step.packet ? top + LABEL : top + 19;
    return draw("g", {
        id: `step-${step.index}`, role: "option", "aria-selected": "false", "aria-label": sentence(step), "data-index": step.index,
        "data-answer": step.answer, "data-line": step.line, "data-before": step.before,
    },
        draw("rect", { class: "row", x: 0, y: top, width: columns.end, height: ROW }),
        draw("rect", { class: "edge", x: 0, y: top, width: 4, height: ROW }),
        isLater && draw("text", { x: 26, y: top + 19, class: "soft" }, seconds(step.time).slice(0, 11)),
        signs && draw("text", { x: 7, y: top + 19, class: "new" }, signs),
        step.packet ? arrow(step, top + ARROW + 2, columns) : draw("circle", { cx: columns.client, cy: top + 15, r: 3 }),
        label(step, middle, columns));
}

function lifelines({ client, server, peers }, height) {
    const line = (x) => draw("line", { class: "life", x1: x, x2: x, y1: HEAD - 4, y2: height });
    return [client, server, ...peers.map(({ x }) => x)].map(line);
}

function headings({ client, server, peers }) {
    const place = (x, name) => draw("text", { x, y: 17, class: "head", "text-anchor": "middle" }, name);
    return [place(client, "client"), place(server, "server"), ...peers.map(({ x, name }) => place(x, name))];
}

/** The ladder in an element, which is the list box. */
export class Ladder {
    #box;
    #choose;
    /** @type {import("./story.js").Story | undefined} */
    #story;
    #chosen = 0;

    /**
     * @param {HTMLElement} box
     * @param {(index: number, isPassing: boolean) => void} choose is called with the step that a reader chooses, and whether a key is
     *     held down that goes on to others
     */
    constructor(box, choose) {
        this.#box = box;
        this.#choose = choose;
        box.addEventListener("keydown", (event) => this.#key(event));
        box.addEventListener("click", (event) => {
            const option = event.target.closest("[role=option]");
            if (option) {
                box.focus({ preventScroll: true });
                choose(Number(option.dataset.index), false);
            }
        });
        new ResizeObserver(() => this.#draw()).observe(box);
    }

    /**
     * Shows a run, with this step chosen.
     * @param {import("./story.js").Story} story
     * @param {number} index
     */
    show(story, index) {
        this.#story = story;
        this.#chosen = index;
        this.#width = 0;
        this.#draw();
    }

    /** The width that was drawn last. */
    #width = 0;

    #draw() {
        const width = Math.max(300, this.#box.clientWidth);
        if (!this.#story || width === this.#width) {
            return;
        }
        this.#width = width;
        const { steps } = this.#story, columns = columnsOf(this.#story, width), height = HEAD + steps.length * ROW + 6;
        const names = draw("svg", { class: "names", "aria-hidden": "true", width, height: HEAD }, headings(columns));
        this.#box.replaceChildren(names, draw("svg", { role: "presentation", width, height, viewBox: `0 0 ${width} ${height}` },
            lifelines(columns, height), steps.map((step, at) => row(step, steps[at - 1], columns))));
        this.choose(this.#chosen);
    }

    /**
     * Marks the step that is chosen, and brings it into view.
     * @param {number} index
     */
    choose(index) {
        this.#box.querySelector("[aria-selected=true]")?.setAttribute("aria-selected", "false");
        this.#chosen = index;
        const option = this.#box.querySelector(`#step-${index}`), top = HEAD + index * ROW;
        if (!option) {
            this.#box.removeAttribute("aria-activedescendant");
            return;
        }
        option.setAttribute("aria-selected", "true");
        this.#box.setAttribute("aria-activedescendant", option.id);
        if (top < this.#box.scrollTop + ROW || top + 2 * ROW > this.#box.scrollTop + this.#box.clientHeight) {
            this.#box.scrollTop = Math.max(0, top - this.#box.clientHeight / 2);
        }
    }

    #key(event) {
        const last = (this.#story?.steps.length ?? 0) - 1, page = Math.max(1, Math.floor(this.#box.clientHeight / ROW) - 1);
        const by = { ArrowUp: -1, ArrowDown: 1, PageUp: -page, PageDown: page, Home: -last, End: last }[event.key];
        if (by !== undefined && last >= 0 && !event.ctrlKey && !event.altKey && !event.metaKey) {
            event.preventDefault();
            this.#choose(Math.min(last, Math.max(0, this.#chosen + by)), event.repeat);
        }
    }
}
