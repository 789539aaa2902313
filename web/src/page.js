// The page: the run that is shown, its edits, and the step that is chosen. Each change of one of them goes through here, and into
// the fragment of the address.
import { BadLine } from "../yarrowdoor/lines/lines.js";
import { captureOf } from "./capture.js";
import { ChangeView } from "./change-view.js";
import { signingEdit, silenceEdits } from "./changes.js";
import { checksOf } from "./checks.js";
import { WIDE, byId, keepFocus, make } from "./dom.js";
import { BadEdit } from "./edits.js";
import { History } from "./history.js";
import { Ladder } from "./ladder.js";
import { placeOf, remember } from "./link.js";
import { LIVE } from "./live.js";
import { PacketView } from "./packet-view.js";
import { outstandingAfter, phaseAfter, possibleEnds } from "./phase.js";
import { showState } from "./state-view.js";
import { stateAfter } from "./state.js";
import { linesUpTo, madeUpTo, tell, tellLive } from "./story.js";
import { summaryOf } from "./summary.js";
import { Timeline } from "./timeline.js";
import { TOUR_RUN, Tour } from "./tour.js";
import { sentence } from "./words.js";

/** The run that is shown where the address names none. */
const FIRST = "exchange/data_is_delivered_and_answered";

/** The page, over the module and the list of runs. */
export class Page {
    #library;
    #asked;
    /** @type {Timeline | undefined} */
    #timeline;
    #runs;
    #list;
    /** @type {{ name: string, title: string, about: string, cases: import("./story.js").Case[] }} */
    #run;
    #number = 0;
    #history = new History();
    /** @type {import("./story.js").Story} */
    #story;
    #step = 0;
    /** The question that led to the run, in words, or none. */
    #question = "";
    /** What is being done to the run: one thing after the other, since the page's server takes its time. */
    #last = Promise.resolve();
    #ladder = new Ladder(byId("ladder"), (index, isPassing) => this.choose(index, { isNew: !isPassing }));
    #tour = new Tour((index) => this.choose(index, { isNew: true }));
    #packet = new PacketView(byId("packet"), (edit) => this.edit([edit]));
    #change = new ChangeView(byId("change"), {
        edit: (edit, step) => this.edit([edit], step),
        sign: () => this.#changeBy(async (story, at) => ({ edits: [await signingEdit(story, at)] })),
        silence: (time) => this.#changeBy((story, at) => silenceEdits(this.#library, story, at, time)),
    });

    /**
     * @param {import("../yarrowdoor/src/library.js").Library} library
     * @param {import("../yarrowdoor/src/library.js").Library} asked that of the client which is asked about its state
     * @param {import("./runs-view.js").Listed[]} runs
     * @param {import("./runs-view.js").RunsView} list
     */
    constructor(library, asked, runs, list) {
        [this.#library, this.#asked, this.#list] = [library, asked, list];
        this.#runs = new Map(runs.map((run) => [run.name, run]));
        byId("undo").addEventListener("click", () => this.#turn(() => this.#history.undo()));
        byId("redo").addEventListener("click", () => this.#turn(() => this.#history.redo()));
        byId("reset").addEventListener("click", () => this.#turn(() => this.#history.reset()));
        byId("next").addEventListener("click", () => this.#nextDifference());
        byId("case").addEventListener("change", () => this.#do(() => (
            this.#open(this.#run, { number: Number(byId("case").value), groups: [], step: 0 }, { isNew: true }))));
        byId("copy-lines").addEventListener("click", () => this.#copy(byId("lines").value, "The lines are copied."));
        byId("copy-link").addEventListener("click", () => this.#copy(location.href, "The link is copied."));
        byId("capture").addEventListener("click", () => this.#saveCapture());
        addEventListener("hashchange", () => this.openAddress());
        addEventListener("keydown", (event) => this.#key(event));
    }

    /** Shows what the address names. */
    async openAddress() {
        await this.#do(async () => {
            const { hash } = location, place = placeOf(hash), isKnown = place && (place.run === LIVE.name || this.#runs.has(place.run));
            const { run, ...at } = isKnown ? place : { run: FIRST, number: 0, groups: [], step: 0 };
            if (this.#isShown(run, at)) {
                this.#question = history.state?.asked ?? "";
                this.#complain("");
                this.choose(Math.min(at.step, this.#story.steps.length - 1), { isNew: false });
            } else {
                await this.#open(await this.#fetch(run), at, { isNew: false, asked: history.state?.asked });
            }
            if (hash.length > 1 && !isKnown) {
                this.#complain("The address names no run of this page.");
            }
        });
    }

    /** Whether a run is shown, with the same edits: then only another step is chosen. */
    #isShown(run, { number, groups }) {
        const isSame = this.#run?.name === run && this.#number === number && !this.#history.canRedo;
        return isSame && JSON.stringify(groups) === JSON.stringify(this.#history.groups);
    }

    async #fetch(name) {
        if (name === LIVE.name) {
            return LIVE;
        }
        const response = await fetch(`runs/${name}.json`);
        if (!response.ok) {
            throw new Error(`The run ${name} cannot be read: ${response.status}`);
        }
        return response.json();
    }

    /**
     * Shows a run with edits. Where one of them does not fit, the run is shown without any, and why is said.
     * @param {object} run
     * @param {{ number: number, groups: string[][], step: number }} place
     * @param {{ isNew: boolean, asked?: string }} how
     */
    async #open(run, { number, groups, step }, { isNew, asked = "" }) {
        const at = run.cases[number] ? number : 0;
        let past = new History(groups), complaint = "", story;
        try {
            story = await this.#told(past.edits, run, at);
        } catch (error) {
            complaint = `The link has an edit that does not fit: ${reason(error)}`;
            past = new History();
            story = await this.#told([], run, at);
        }
        [this.#run, this.#number, this.#history, this.#story, this.#step, this.#question] = [run, at, past, story, step, asked];
        this.#complain(complaint);
        this.#showRun();
        this.#show(isNew);
    }

    /** A case of a run with these edits. BadEdit. */
    #told(edits, run = this.#run, number = this.#number) {
        return run.isLive ? tellLive(this.#library, edits) : tell(this.#library, run.cases[number], edits);
    }

    #showRun() {
        const { name, title, about, cases } = this.#run;
        document.title = `${title}: See it think`;
        byId("title").replaceChildren(title);
        byId("about").replaceChildren(about);
        byId("case-line").hidden = cases.length < 2;
        byId("case").replaceChildren(...cases.map((_, at) => (
            make("option", { value: at, selected: at === this.#number }, `${at + 1} of ${cases.length}`))));
        this.#list.mark(name);
    }

    /** Shows the run anew, after an edit; as a new place of the address, or over the one before. */
    #show(isNew = false) {
        this.#timeline?.close();
        this.#timeline = undefined;
        const { steps, differs } = this.#story;
        this.#step = Math.min(this.#step, steps.length - 1);
        byId("summary").replaceChildren(summaryOf(this.#story));
        byId("lines").value = [this.#story.head, ...linesUpTo(this.#story, steps.length)].join("\n").concat("\n");
        this.#ladder.show(this.#story, this.#step);
        keepFocus(() => {
            byId("undo").disabled = byId("reset").disabled = !this.#history.canUndo;
            byId("redo").disabled = !this.#history.canRedo;
            byId("next").disabled = differs === 0;
            this.choose(this.#step, { isNew });
        }, byId("ladder"));
        byId("main").dataset.run = this.#run.name;
        byId("main").dataset.case = String(this.#number);
        byId("main").dataset.edits = String(this.#history.edits.length);
    }

    /**
     * Chooses a step: shows its packet, and the state after it.
     * @param {number} index
     * @param {{ isNew: boolean }} how whether the browser leads back from there to the step that was chosen before
     */
    choose(index, { isNew }) {
        this.#step = index;
        const step = this.#story.steps[index];
        const place = { run: this.#run.name, number: this.#number, groups: this.#history.groups, step: index };
        remember(place, { isNew, asked: this.#question });
        byId("asked").replaceChildren(this.#question);
        byId("asked").hidden = !this.#question;
        this.#ladder.choose(index);
        byId("packet-title").replaceChildren(`Step ${index + 1}`);
        byId("state-title").replaceChildren(`State after step ${index + 1}`);
        byId("status").replaceChildren(sentence(step));
        keepFocus(() => {
            this.#change.show(this.#story, step);
            this.#packet.show(step, !this.#story.isLive);
        }, byId("ladder"));
        this.#tour.show(this.#run.name, this.#story, index);
        byId("state").dataset.step = "";
        // What takes longer comes once the step is on the screen, and not for one that was passed over.
        const story = this.#story, isStill = () => this.#story === story && this.#step === index;
        setTimeout(() => isStill() && this.#guard(() => this.#showMore(story, index, isStill)), 0);
    }

    async #showMore(story, index, isStill) {
        const timeline = (this.#timeline ??= new Timeline(this.#asked, story.head, linesUpTo(story, story.steps.length)));
        const state = stateAfter(timeline, madeUpTo(story, index), possibleEnds(story, index));
        const phase = phaseAfter(story, index, state), outstanding = outstandingAfter(story, index);
        showState(byId("state"), state, { phase, outstanding, now: story.steps[index].time });
        const checks = await checksOf(timeline, story, index);
        if (isStill()) {
            this.#packet.showChecks(story.steps[index], checks);
            byId("state").dataset.step = String(index);
        }
    }

    /**
     * Makes edits that one undo takes back.
     * @param {string[]} edits
     * @param {number} [step] the step to choose then
     */
    edit(edits, step) {
        this.#changeBy(() => ({ edits, step }));
    }

    /** Makes the edits that a function gives for the run as it is then, and for the step that is chosen then. */
    #changeBy(how) {
        this.#do(async () => {
            const { edits, step = this.#step } = await how(this.#story, this.#step);
            this.#story = await this.#told([...this.#history.edits, ...edits]);
            this.#history.make(edits);
            this.#step = step;
            this.#complain("");
            this.#show();
        });
    }

    /** Undoes, or makes again. */
    #turn(how) {
        this.#do(async () => {
            how();
            this.#story = await this.#told(this.#history.edits);
            this.#show();
        });
    }

    /**
     * Asks a question: shows its run with its edits.
     * @param {import("./questions.js").Question} question
     */
    async ask(question) {
        await this.#do(async () => {
            const run = await this.#fetch(question.run), told = async (edits) => this.#told(edits, run, 0);
            const { edits, step } = await question.ask(await told([]), told, this.#library);
            const asked = [`${question.name}: ${question.about}`, question.why].filter(Boolean).join(" ");
            await this.#open(run, { number: 0, groups: [edits], step }, { isNew: true, asked });
            byId("ladder").focus({ preventScroll: true });
            this.#bringIntoView(byId("title"));
            byId(`step-${step}`).scrollIntoView({ block: "nearest" });
        });
    }

    /** Begins the tour. */
    async tour() {
        await this.#do(async () => {
            this.#tour.begin();
            await this.#open(await this.#fetch(TOUR_RUN), { number: 0, groups: [], step: 0 }, { isNew: true });
            byId("tour-next").focus({ preventScroll: true });
            this.#bringIntoView(byId("tour"));
        });
    }

    /** In one column the questions fill the window: what they show is below them. */
    #bringIntoView(element) {
        element.scrollIntoView({ block: matchMedia(WIDE).matches ? "nearest" : "start" });
    }

    #nextDifference() {
        const found = this.#story.steps.filter(({ before }) => before !== undefined).map(({ index }) => index);
        this.choose(found.find((index) => index > this.#step) ?? found[0], { isNew: true });
    }

    async #copy(text, said) {
        await this.#guard(async () => {
            await navigator.clipboard.writeText(text);
            byId("status").replaceChildren(said);
        });
    }

    #saveCapture() {
        const bytes = captureOf(this.#story);
        if (!bytes) {
            this.#complain("The run has no packet.");
            return;
        }
        const href = URL.createObjectURL(new Blob([bytes], { type: "application/vnd.tcpdump.pcap" }));
        make("a", { href, download: `${this.#run.name.split("/")[1]}.pcap` }).click();
        URL.revokeObjectURL(href);
    }

    #key(event) {
        const isTyped = event.target.closest?.("input, textarea, select"), key = event.key.toLowerCase();
        if (!isTyped && (event.ctrlKey || event.metaKey) && (key === "z" || key === "y")) {
            event.preventDefault();
            this.#turn(() => (key === "y" || event.shiftKey ? this.#history.redo() : this.#history.undo()));
        }
    }

    #complain(text) {
        byId("alert").replaceChildren(text);
        byId("alert").hidden = !text;
    }

    /** Does something to the run, once all before is done. */
    #do(deed) {
        byId("main").setAttribute("aria-busy", "true");
        const done = this.#last.then(() => this.#guard(deed)), rest = done.catch(() => {}).then(() => {
            this.#last === rest && byId("main").setAttribute("aria-busy", "false");
        });
        this.#last = rest;
        return done;
    }

    /** Does something, and says why where it cannot be done. What is no fault of the reader's is thrown on. */
    async #guard(deed) {
        try {
            await deed();
        } catch (error) {
            this.#complain(reason(error));
            if (!(error instanceof BadEdit || error instanceof BadLine)) {
                throw error;
            }
        }
    }
}

/** What an error says, as a sentence. */
function reason(error) {
    const text = error instanceof Error ? error.message : String(error);
    return `${text.charAt(0).toUpperCase()}${text.slice(1)}.`.replace(/\.\.$/, ".");
}
