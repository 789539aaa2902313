// What can be done to the run at the step that is chosen.
import { CALLS } from "../yarrowdoor/lines/lines.js";
import { make } from "./dom.js";

/** The arguments of a new call, as one would type them. */
const TEMPLATES = Object.freeze({
    permit: "TRANSPORT 10.0.0.9", have: "TRANSPORT 10.0.0.3", release: "TRANSPORT 10.0.0.3", keep: "TRANSPORT 10.0.0.3",
    bind: "TRANSPORT 10.0.0.9:9000", connect: "10.0.0.3:9000", send: "TRANSPORT 10.0.0.3:9000 68656c6c6f",
    permissions: "TRANSPORT 10.0.0.4:40000", recv: "WAY REMOTE LOCAL 00", closed: "LOCAL REMOTE",
    socket: "0 tcp LOCAL REMOTE 10.0.0.3:9000 192.168.0.1:1001",
});

const MILLISECOND = 1_000_000n;

function number(label, value, most, name) {
    const input = make("input", { type: "number", value, min: 1, max: most, step: 1, "data-focus": `${name}, ${label}` });
    return { input, element: make("label", {}, label, input) };
}

/** A form with one number, and a button that passes it on where it is one. */
function numberForm(name, label, value, most, done) {
    const { input, element } = number(label, value, most, name);
    const submit = (event) => {
        event.preventDefault();
        input.reportValidity() && done(BigInt(input.value));
    };
    return make("form", { onsubmit: submit }, element, make("button", { "data-focus": name }, name));
}

/** The part of the page for changes. */
export class ChangeView {
    #element;
    #deeds;

    /**
     * @param {HTMLElement} element
     * @param {{ edit: (edit: string, choose?: number) => void, sign: () => void, silence: (nanoseconds: bigint) => void }} deeds
     */
    constructor(element, deeds) {
        this.#element = element;
        this.#deeds = deeds;
    }

    /**
     * @param {import("./story.js").Story} story
     * @param {import("./story.js").Shown} step
     */
    show(story, step) {
        if (story.isLive) {
            this.#showLive(step);
            return;
        }
        const { index, packet, isDropped } = step, isLast = story.steps.slice(index + 1).every((other) => other.isDropped);
        const isPiece = packet?.isReceived && packet.transport === "tcp" && packet.bytes.length > 1;
        const isMessage = packet?.isReceived && packet.frames.length === 1 && packet.frames[0].kind === "message";
        const { edit, silence } = this.#deeds, size = packet?.bytes.length ?? 0;
        const onclick = () => this.#deeds.sign(), isSignable = isMessage && !isDropped;
        const sign = make("button", { type: "button", id: "sign", "data-focus": "sign", disabled: !isSignable, onclick }, "Sign it as the server");
        this.#element.replaceChildren(
            make("div", { class: "bar" }, this.#button("Leave it out", `drop ${index}`, isDropped),
                this.#button("Repeat it", `repeat ${index}`, isDropped, index + 1),
                this.#button("Swap it with the next", `swap ${index}`, isDropped || isLast, index + 1), sign),
            numberForm("Delay it", "Milliseconds", 100, 10_000_000, (value) => edit(`delay ${index} ${value * MILLISECOND}`)),
            numberForm("Be silent behind it", "Seconds", 60, 100_000, (value) => silence(value * 1_000n * MILLISECOND)),
            isPiece ? numberForm("Cut it", "Behind so many bytes", size >> 1, size - 1, (value) => edit(`cut ${index} ${value}`)) : "",
            this.#adding(story, step));
    }

    /** In a run with the page's server packets are lost, and nothing else is changed. */
    #showLive({ number, isLost }) {
        const text = number === undefined ? "This step is no packet. Choose one, and leave it out: the server and the client do the rest."
            : isLost ? "This packet is lost: it left, and did not arrive. Undo it, or leave another one out."
                : "Leave this packet out: it is lost on its way, and the server and the client do the rest.";
        this.#element.replaceChildren(make("p", {}, text),
            make("div", { class: "bar" }, this.#button("Leave it out", `lose ${number}`, number === undefined || isLost)));
    }

    #button(name, edit, isDisabled, choose) {
        const onclick = () => this.#deeds.edit(edit, choose);
        return make("button", { type: "button", "data-focus": name, disabled: isDisabled, onclick }, name);
    }

    /** The form for a call behind the step. */
    #adding({ head }, { index, time }) {
        const [WAY, LOCAL, REMOTE, TRANSPORT] = head.split(" "), words = { WAY, LOCAL, REMOTE, TRANSPORT };
        const lineOf = (name) => `${time} ${name} ${TEMPLATES[name] ?? ""}`.replace(/[A-Z]{3,}/g, (word) => words[word]).trim();
        const options = Object.keys(CALLS).map((name) => make("option", {}, name));
        const select = make("select", { id: "call", "data-focus": "call", onchange: () => (input.value = lineOf(select.value)) }, options);
        const input = make("input", {
            id: "call-line", class: "code", value: lineOf("poll"), spellcheck: "false", autocomplete: "off", "data-focus": "line",
        });
        const submit = (event) => {
            event.preventDefault();
            this.#deeds.edit(`add ${index + 1} ${input.value.trim()}`, index + 1);
        };
        const labels = [make("label", {}, "A call behind it", select), make("label", { class: "wide" }, "Its line", input)];
        return make("form", { onsubmit: submit }, labels, make("button", { "data-focus": "add" }, "Add"));
    }
}
