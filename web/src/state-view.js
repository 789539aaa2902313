// The state of the client after the step that is chosen.
import { make, seconds } from "./dom.js";
import { answerText, readable } from "./words.js";

/** What is told of a client, and where it comes from. */
function row(name, value, isDerived) {
    return [make("dt", {}, name), make("dd", {}, value, isDerived && make("span", { class: "soft" }, " (read off the packets)"))];
}

function grantRow({ kind, text, progress, until, detail }) {
    const when = until === undefined ? progress : `${progress} until ${seconds(until)}`;
    const of = [readable(text), detail].filter(Boolean).join(", ");
    return make("tr", {}, make("th", { scope: "row" }, kind), make("td", { class: "long" }, of), make("td", {}, when));
}

function grantsTable({ grants, more }) {
    if (grants.length === 0) {
        return make("p", { id: "no-grants" }, "No allocation, no permission, no channel.");
    }
    const head = make("tr", {}, ["Grant", "Of", "Is"].map((name) => make("th", { scope: "col" }, name)));
    const table = make("table", { id: "grants" }, make("thead", {}, head), make("tbody", {}, grants.map(grantRow)));
    return make("div", { class: "scroll" }, table, more > 0 && make("p", { class: "soft" }, `and ${more} more`));
}

const list = (items) => (items.length ? readable(items.join("; ")) : "none");

/**
 * Shows a state.
 * @param {HTMLElement} element
 * @param {import("./state.js").State} state
 * @param {{ phase: string, outstanding: import("./requests.js").Request[], now: bigint }} read what the packets say
 */
export function showState(element, state, { phase, outstanding, now }) {
    const wakeUp = state.isClosed ? "none: the client has ended" : state.wakeUp === undefined ? answerText(state.next)
        : `at ${seconds(state.wakeUp)}${state.wakeUp > now ? `, in ${seconds(state.wakeUp - now)}` : ""}`;
    const often = (sent) => (sent > 1 ? `, sent ${sent} times` : "");
    const requests = state.isClosed ? [] : outstanding.map(({ title, step, sent }) => `${title} of step ${step + 1}${often(sent)}`);
    const packets = state.packets.map((line) => `${(line.split(" ")[4] ?? "").length / 2} bytes to ${readable(line.split(" ")[3])}`);
    element.replaceChildren(
        make("dl", {}, row("Phase", phase, !state.isClosed && phase !== "Allocated"), row("Next wake-up", wakeUp),
            row("Events that wait", list(state.events)), row("Packets that are due", list(packets)),
            row("Outstanding", list(requests), true)),
        grantsTable(state));
}
