// Whether all that a relay was granted can be refreshed before it expires, by what the relay has seen of its timers and its server.
import { keptGrants } from "../kept.js";

/** Warns once if a relay has more grants than are kept by a caller that is this late, and a server that takes this long. */
export class Keeping {
    #late = 0;
    #delay = 0;
    #isWarned = false;
    #library;
    #pause;
    #refreshAhead;

    /**
     * @param {import("../library.js").Library} library
     * @param {{ readonly pause: number, readonly refreshAhead: number }} settings in milliseconds
     */
    constructor(library, { pause, refreshAhead }) {
        this.#library = library;
        this.#pause = pause;
        this.#refreshAhead = refreshAhead;
    }

    /**
     * A timer has come this many milliseconds too late. One that is later than all refreshes take was no timer's fault: the machine slept.
     * @param {number} milliseconds
     */
    woke(milliseconds) {
        if (milliseconds > this.#late && milliseconds < this.#refreshAhead) {
            this.#late = milliseconds;
        }
    }

    /**
     * The server has granted something this many milliseconds after it was asked.
     * @param {number} milliseconds
     */
    granted(milliseconds) {
        this.#delay = Math.max(this.#delay, milliseconds);
    }

    /**
     * The relay has this many grants now.
     * @param {number} count
     */
    check(count) {
        if (this.#isWarned || count < 2) {
            return;
        }
        const [late, delay, pause, refreshAhead] = [this.#late, this.#delay, this.#pause, this.#refreshAhead];
        const kept = keptGrants(this.#library, { late, delay, pause, refreshAhead });
        if (count > kept) {
            this.#isWarned = true;
            process.emitWarning(`the relay has ${count} grants, and ${kept} are sure to be refreshed in time: its timers come up to ` +
                `${late.toFixed(1)} ms too late, and the server takes up to ${delay.toFixed(1)} ms. A shorter pause (${pause} ms) or a longer ` +
                `refreshAhead (${refreshAhead} ms) keeps more`, { type: "RelayWarning", code: "TURN_MANY_GRANTS" });
        }
    }
}
