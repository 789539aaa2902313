// What became of a run, in words.
import { sentAgain } from "./requests.js";

/** So many of something, in words for one and for many. */
const counted = (count, one, many) => `${count} ${count === 1 ? one : many}`;

function liveSummary(steps) {
    const lost = steps.filter((step) => step.isLost).length;
    const isWhole = steps.findLast((step) => step.name === "recv")?.answer?.startsWith("data");
    return `${counted(lost, "packet is", "packets are")} lost; ${counted(sentAgain(steps), "request is", "requests are")} sent again; `
        + `${isWhole ? "the data comes back in the end" : "the data does not come back"}.`;
}

/**
 * How a run differs from the one that was recorded, or what the network did to one with the page's server.
 * @param {import("./story.js").Story} story
 */
export function summaryOf({ steps, differs, isOriginal, isLive }) {
    if (isLive) {
        return liveSummary(steps);
    }
    const edits = steps.filter((step) => step.isEdited || step.isDropped).length;
    return isOriginal ? `${steps.length} steps, as recorded.`
        : `${counted(edits, "step is", "steps are")} changed; ${counted(differs, "answer differs", "answers differ")} from the original.`;
}
