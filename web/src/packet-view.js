// The step that is chosen: its packet field by field and byte by byte, and why it may have been ignored.
import { toHex } from "../yarrowdoor/lines/hex.js";
import { BytesView } from "./bytes-view.js";
import { withValue } from "./decode.js";
import { make } from "./dom.js";
import { typedValue, writeValue } from "./values.js";
import { answerText, lineText, readable, signsOf } from "./words.js";

/** Where a section of an RFC is to be read. */
function sectionLink(section) {
    const [, rfc, number] = /^RFC ([0-9]+), (.+)$/.exec(section) ?? [];
    const href = `https://www.rfc-editor.org/rfc/rfc${rfc}#section-${number}`;
    return rfc ? make("a", { href, rel: "noreferrer" }, section) : section;
}

/** What is not met comes first. */
const rank = ({ isMet }) => (isMet === false ? 0 : 1);

/** The part of the page for a packet. */
export class PacketView {
    #element;
    #edit;
    /** The step that is shown, so that the same byte stays chosen when it changes. */
    #shown = { index: -1, at: 0 };
    #checks = make("div", { class: "found" });

    /**
     * @param {HTMLElement} element
     * @param {(edit: string) => void} edit is called with an edit that a reader makes
     */
    constructor(element, edit) {
        this.#element = element;
        this.#edit = edit;
    }

    /**
     * Shows a step. `canChange` says whether what comes in can be changed.
     * @param {import("./story.js").Shown} step
     * @param {boolean} canChange
     */
    show(step, canChange) {
        if (this.#shown.index !== step.index) {
            this.#shown = { index: step.index, at: 0 };
        }
        this.#checks.replaceChildren();
        const packet = step.packet ? this.#packet(step, canChange && step.packet.isReceived) : [];
        this.#element.replaceChildren(...this.#answer(step), this.#checks, ...packet);
    }

    /**
     * Shows what was found of the step that is shown, which takes longer.
     * @param {import("./story.js").Shown} step
     * @param {import("./checks.js").Check[]} checks
     */
    showChecks(step, checks) {
        this.#checks.replaceChildren(...this.#found(step, checks));
    }

    #answer(step) {
        const way = step.packet, call = lineText(step.words.slice(1)), answer = answerText(step.answer);
        return [
            make("p", {}, make("code", {}, call), way && !way.isReceived && `: ${way.bytes.length} bytes to ${readable(way.to)}`),
            make("p", { class: "answer" }, "Answer: ", make("span", { class: step.answer === "ignored" ? "bad" : "" }, answer)),
            ...signsOf(step).map(([sign, words]) => make("p", { class: "new" }, `${sign} ${words}`)),
        ];
    }

    #found(step, checks) {
        if (checks.length === 0) {
            return [];
        }
        const item = ({ isMet, text, section }) => make("li", { class: isMet === undefined ? "soft" : isMet ? "good" : "bad" },
            `${isMet === undefined ? "–" : isMet ? "✓" : "✕"} ${readable(text)} (`, sectionLink(section), ")");
        const failed = checks.some(({ isMet }) => isMet === false);
        const ordered = [...checks].sort((one, other) => rank(one) - rank(other));
        const title = step.answer === "ignored" ? "Why it was ignored" : "What the page can check";
        const note = step.answer === "ignored" && !failed
            ? "None of the rules that the page knows says why: docs/rattle/MACHINE.md has all of them."
            : "A hint by rules that the page checks itself. The client does not say why.";
        return [make("h3", {}, title), make("ul", { class: "checks" }, ordered.map(item)), make("p", { class: "soft" }, note)];
    }

    #packet({ index, packet }, canChange) {
        const rows = packet.frames.flatMap((frame) => frame.fields.map((field) => ({ frame, field })));
        const elements = rows.map(({ frame, field }, place) => this.#row(index, packet, frame, field, canChange && `${field.name} ${place}`));
        const mark = (at) => {
            const found = rows.findIndex(({ field }) => at !== undefined && at >= field.start && at < field.end);
            elements.forEach((element, place) => element.classList.toggle("marked", place === found));
            view.mark(...(found < 0 ? [0, 0] : [rows[found].field.start, rows[found].field.end]));
        };
        const view = new BytesView(packet.bytes, this.#shown.at, {
            width: this.#element.clientWidth,
            look: (at, isChosen) => {
                this.#shown.at = isChosen ? at : this.#shown.at;
                mark(at ?? this.#shown.at);
            },
            set: canChange ? (at, value) => this.#edit(`set ${index} ${at} ${toHex([value])}`) : undefined,
        });
        elements.forEach((element, place) => {
            element.addEventListener("pointerenter", () => mark(rows[place].field.start));
            element.addEventListener("pointerleave", () => mark(this.#shown.at));
            element.querySelector("th")?.addEventListener("click", () => view.choose(rows[place].field.start, false));
        });
        const titles = packet.frames.map(({ title, note, fault }) => `${title}${note ? ` ${note}` : ""}${fault ? ` (${fault})` : ""}`);
        const head = make("thead", {}, make("tr", {}, ["Field", "Value"].map((name) => make("th", { scope: "col" }, name))));
        const table = make("div", { class: "scroll" }, make("table", {}, head, make("tbody", {}, elements)));
        return [make("h3", {}, titles.join(", ") || "no bytes"), table, ...view.elements];
    }

    /** A field. `name` is that of the button for changes, which is there where it can be changed. */
    #row(index, packet, frame, field, name) {
        const { attribute } = field, note = attribute && !attribute.counts ? " (behind the integrity: it does not count)" : "";
        const value = make("td", { class: "long" }, readable(field.value) + note);
        if (attribute && name) {
            const attributes = { type: "button", "aria-label": `Change ${field.name}`, "data-focus": name };
            const onclick = () => this.#form(value, index, packet, frame, field, name);
            value.append(" ", make("button", { ...attributes, onclick }, "Change"));
        }
        const section = field.section && make("small", {}, sectionLink(field.section));
        return make("tr", {}, make("th", { scope: "row" }, field.name, section), value);
    }

    /** What a reader types in place of a value. */
    #form(cell, index, packet, frame, field, name) {
        const { kind, value } = field.attribute, { text, hint } = typedValue(kind, value, frame.id);
        const focus = { "data-focus": name }, input = make("input", {
            class: "code", value: text, "aria-label": `${field.name}: ${hint}`, spellcheck: "false", ...focus,
        });
        const said = make("span", { class: "bad", role: "alert" });
        const put = (bytes) => this.#edit(`bytes ${index} ${toHex(withValue(packet.bytes, frame, field, bytes))}`);
        const submit = (event) => {
            event.preventDefault();
            const bytes = writeValue(kind, input.value, frame.id);
            bytes ? put(bytes) : said.replaceChildren(`That is not ${hint}.`);
        };
        cell.replaceChildren(make("form", { class: "bits", onsubmit: submit }, input, make("button", focus, "Set"),
            make("button", { type: "button", onclick: () => put(undefined), ...focus }, "Leave out"), said));
        input.focus();
    }
}
