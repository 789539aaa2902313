// Loads the module and the list of runs, and shows the page.
import { Library } from "../yarrowdoor/src/library.js";
import { WIDE, byId } from "./dom.js";
import { Page } from "./page.js";
import { QUESTIONS } from "./questions.js";
import { RunsView, showQuestions } from "./runs-view.js";

async function list() {
    const response = await fetch("runs/index.json");
    if (!response.ok) {
        throw new Error(`the list of runs cannot be read: ${response.status}`);
    }
    return response.json();
}

/** Two libraries of one module: one for the runs, and one for the client that is asked about its state. */
async function libraries() {
    const response = await fetch("yarrowdoor/yarrowdoor.wasm");
    if (!response.ok) {
        throw new Error(`the module cannot be read: ${response.status}`);
    }
    const source = await WebAssembly.compile(await response.arrayBuffer());
    return Promise.all([Library.load({ source }), Library.load({ source })]);
}

async function start() {
    const [[library, other], runs] = await Promise.all([libraries(), list()]), page = new Page(library, other, runs, new RunsView(runs));
    showQuestions(QUESTIONS, (question) => page.ask(question));
    byId("start-tour").addEventListener("click", () => page.tour());
    byId("skip").addEventListener("click", () => byId("ladder").focus());
    byId("all-runs").open = matchMedia(WIDE).matches;
    await page.openAddress();
    byId("unstarted").remove();
}

start().catch((error) => {
    byId("unstarted")?.remove();
    byId("alert").replaceChildren(`The page cannot start: ${error.message}`);
    byId("alert").hidden = false;
    throw error;
});
