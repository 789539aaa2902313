// What stands in the fragment of the page's address: the run, its case, the edits in groups that one undo takes back, and the step
// that is chosen. Anybody may have written it.

/**
 * @typedef {{ run: string, number: number, groups: string[][], step: number }} Place
 */

/** The most characters of a fragment that is read. */
const MAX_LENGTH = 2_000_000;

/**
 * The place that a fragment names, or undefined where it names none.
 * @param {string} fragment
 * @returns {Place | undefined}
 */
export function placeOf(fragment) {
    const words = new URLSearchParams(fragment.length > MAX_LENGTH ? "" : fragment.replace(/^#/, "")), run = words.get("run");
    if (!run || !/^[a-z0-9_]+\/[a-z0-9_]+$/.test(run)) {
        return undefined;
    }
    const number = (name) => (/^[0-9]{1,6}$/.test(words.get(name) ?? "") ? Number(words.get(name)) : 0);
    const groups = words.getAll("edit").map((group) => group.split(";").filter(Boolean));
    return { run, number: number("case"), groups: groups.filter((group) => group.length > 0), step: number("step") };
}

/**
 * The fragment for a place.
 * @param {Place} place
 */
export function fragmentOf({ run, number, groups, step }) {
    const words = new URLSearchParams();
    if (number) {
        words.set("case", String(number));
    }
    if (step) {
        words.set("step", String(step));
    }
    groups.forEach((group) => words.append("edit", group.join(";")));
    return `#run=${run}${words.size ? `&${words}` : ""}`;
}

/**
 * Puts a place into the address of the page, over the one before or as a new one, from which the browser leads back.
 * @param {Place} place
 * @param {{ isNew: boolean, asked: string }} how `asked` is kept with the place: the question that led there
 */
export function remember(place, { isNew, asked }) {
    const fragment = fragmentOf(place), isOther = new URL(fragment, location.href).hash !== location.hash;
    try {
        history[isNew && isOther ? "pushState" : "replaceState"]({ asked }, "", fragment);
    } catch (error) {
        // Engines refuse more than some hundred places in half a minute; a later one is put there again.
        if (error.name !== "SecurityError") {
            throw error;
        }
    }
}
