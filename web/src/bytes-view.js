// The bytes of a packet as a grid, in which one is chosen, and what changes that byte: its digits or one of its bits.
import { toHex } from "../yarrowdoor/lines/hex.js";
import { make } from "./dom.js";

/** So many bytes of a packet are shown. */
const MOST = 2_048;

/** The grid, and the form for the byte that is chosen. */
export class BytesView {
    #bytes;
    #perRow;
    #look;
    #set;
    #cells;
    #chosen = 0;
    #form = make("div", { class: "bits", role: "group", "aria-label": "The byte that is chosen" });

    /**
     * @param {Uint8Array} bytes
     * @param {number} chosen
     * @param {{ width: number, look: (at: number | undefined, isChosen: boolean) => void,
     *     set?: (at: number, value: number) => void }} how `look` is told which byte is under the pointer or chosen; without
     *     `set` nothing can be changed
     */
    constructor(bytes, chosen, { width, look, set }) {
        [this.#bytes, this.#perRow, this.#look, this.#set] = [bytes, width < 460 ? 8 : 16, look, set];
        this.#cells = Array.from(bytes.subarray(0, MOST), (byte, at) => this.#cell(byte, at));
        this.#chosen = Math.min(chosen, Math.max(0, this.#cells.length - 1));
    }

    #cell(byte, at) {
        return make("span", {
            role: "gridcell", tabindex: -1, "aria-selected": "false", "aria-label": `byte ${at}: ${toHex([byte])}`,
            "data-focus": `byte ${at}`,
            onclick: () => this.choose(at, true), onpointerenter: () => this.#look(at, false),
            onpointerleave: () => this.#look(undefined, false),
        }, toHex([byte]));
    }

    /** The elements to show. */
    get elements() {
        const rows = [];
        for (let at = 0; at < this.#cells.length; at += this.#perRow) {
            const place = make("span", { class: "at", "aria-hidden": "true" }, at.toString(16).padStart(4, "0"));
            rows.push(make("div", { role: "row" }, place, this.#cells.slice(at, at + this.#perRow)));
        }
        const grid = make("div", {
            class: "bytes", role: "grid", "aria-label": "Bytes of the packet", onkeydown: (event) => this.#key(event),
        }, rows);
        this.choose(this.#chosen, false);
        const more = this.#bytes.length - this.#cells.length;
        return [grid, more > 0 ? make("p", { class: "soft" }, `and ${more} bytes more`) : undefined, this.#form].filter(Boolean);
    }

    /**
     * Chooses a byte.
     * @param {number} at
     * @param {boolean} isFocused whether it takes the focus
     */
    choose(at, isFocused) {
        const [before, cell] = [this.#cells[this.#chosen], this.#cells[at]];
        before?.setAttribute("aria-selected", "false");
        before?.setAttribute("tabindex", "-1");
        if (cell) {
            this.#chosen = at;
            cell.setAttribute("aria-selected", "true");
            cell.setAttribute("tabindex", "0");
            this.#fill();
            this.#look(at, true);
            isFocused && cell.focus();
        }
    }

    /** Marks the bytes from a place to another. */
    mark(start, end) {
        this.#cells.forEach((cell, at) => cell.classList.toggle("marked", at >= start && at < end));
    }

    #key(event) {
        const by = { ArrowLeft: -1, ArrowRight: 1, ArrowUp: -this.#perRow, ArrowDown: this.#perRow }[event.key];
        const to = { Home: 0, End: this.#cells.length - 1 }[event.key] ?? this.#chosen + (by ?? 0);
        if ((by !== undefined || event.key === "Home" || event.key === "End") && to >= 0 && to < this.#cells.length) {
            event.preventDefault();
            this.choose(to, true);
        }
    }

    #fill() {
        const at = this.#chosen, byte = this.#bytes[at];
        if (!this.#set) {
            const text = `Byte ${at}: ${toHex([byte])}. What the client sends is its own, and is not changed.`;
            this.#form.replaceChildren(make("span", { class: "soft" }, text));
            return;
        }
        const bits = [7, 6, 5, 4, 3, 2, 1, 0].map((bit) => make("button", {
            type: "button", "aria-pressed": String(Boolean(byte & (1 << bit))), "data-bit": bit, "data-focus": `bit ${bit}`,
            "aria-label": `flip bit ${bit} of byte ${at}, which is ${(byte >> bit) & 1}`,
            onclick: () => this.#set(at, byte ^ (1 << bit)),
        }, String((byte >> bit) & 1)));
        const isByte = (text) => /^[0-9a-f]{2}$/i.test(text), input = make("input", {
            class: "code", value: toHex([byte]), size: 2, maxlength: 2, "data-focus": "digits", "aria-label": `byte ${at}, two hexadecimal digits`,
            onchange: () => (isByte(input.value) ? this.#set(at, parseInt(input.value, 16)) : (input.value = toHex([byte]))),
        });
        this.#form.replaceChildren(make("span", {}, `Byte ${at}:`), input, make("span", {}, "flip a bit:"), ...bits);
    }
}
