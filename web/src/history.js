// The edits that were made, in groups, with what was undone and can be made again.

/** The groups of edits of one run. */
export class History {
    /** @type {string[][]} */
    #made;
    /** @type {string[][]} */
    #undone = [];

    /** @param {string[][]} groups */
    constructor(groups = []) {
        this.#made = groups;
    }

    /** The groups that are made, the oldest first. */
    get groups() {
        return this.#made;
    }

    /** The edits that are made, the oldest first. */
    get edits() {
        return this.#made.flat();
    }

    get canUndo() {
        return this.#made.length > 0;
    }

    get canRedo() {
        return this.#undone.length > 0;
    }

    /** @param {string[]} group */
    make(group) {
        this.#made = [...this.#made, group];
        this.#undone = [];
    }

    /** Takes the last group back. */
    undo() {
        const [last] = this.#made.slice(-1);
        if (last) {
            this.#made = this.#made.slice(0, -1);
            this.#undone = [...this.#undone, last];
        }
    }

    /** Makes the group again that was undone last. */
    redo() {
        const [last] = this.#undone.slice(-1);
        if (last) {
            this.#undone = this.#undone.slice(0, -1);
            this.#made = [...this.#made, last];
        }
    }

    /** Takes all groups back; each can be made again. */
    reset() {
        while (this.canUndo) {
            this.undo();
        }
    }
}
