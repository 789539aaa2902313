// The list of runs, by what they show, and the questions.
import { byId, make } from "./dom.js";
import { fragmentOf } from "./link.js";

/** @typedef {{ name: string, title: string, about: string, cases: number, steps: number }} Listed */

function runLink({ name, title }) {
    return make("a", { href: fragmentOf({ run: name, number: 0, groups: [], step: 0 }), "data-run": name }, title);
}

function folders(runs) {
    return [...new Set(runs.map(({ name }) => name.split("/")[0]))];
}

function matches({ title, about, name }, words) {
    const text = `${title} ${about} ${name}`.toLowerCase();
    return words.every((word) => text.includes(word));
}

/** The list in the page. */
export class RunsView {
    #runs;

    /** @param {Listed[]} runs */
    constructor(runs) {
        this.#runs = runs;
        byId("count").replaceChildren(String(runs.length));
        byId("filter").addEventListener("input", () => this.#fill());
        this.#fill();
    }

    #fill() {
        const words = byId("filter").value.toLowerCase().split(/\s+/).filter(Boolean);
        const found = this.#runs.filter((run) => matches(run, words));
        byId("found").replaceChildren(words.length ? `${found.length} of ${this.#runs.length} runs` : "");
        byId("runs").replaceChildren(...folders(found).flatMap((folder) => [make("h3", {}, folder),
            make("ul", {}, found.filter(({ name }) => name.startsWith(`${folder}/`)).map((run) => make("li", {}, runLink(run))))]));
        this.mark(this.#marked);
    }

    #marked = "";

    /** Marks the run that is shown. */
    mark(name) {
        this.#marked = name;
        for (const link of byId("runs").querySelectorAll("a")) {
            link.dataset.run === name ? link.setAttribute("aria-current", "page") : link.removeAttribute("aria-current");
        }
    }
}

/**
 * The questions as buttons.
 * @param {readonly import("./questions.js").Question[]} questions
 * @param {(question: import("./questions.js").Question) => void} ask
 */
export function showQuestions(questions, ask) {
    byId("questions").replaceChildren(...questions.map((question) => make("li", {},
        make("button", { type: "button", onclick: () => ask(question) }, question.name, make("small", {}, question.about)))));
}
