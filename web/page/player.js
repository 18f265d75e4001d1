// Plays a run: a slider and buttons go through its states, pop by pop or layer by layer.

// In milliseconds: how long a step takes, and about how long a run as a whole does.
const SHORTEST_STEP = 30;
const LONGEST_STEP = 600;
const WHOLE = 6000;

const byId = (id) => document.getElementById(id);

export class Player {
    #run = null;
    #stops = [];
    #show;
    #timer = 0;

    /** @param {(run: import("./run.js").Run, popped: Set<number>) => void} show draws a state */
    constructor(show) {
        this.#show = show;
        byId("step").addEventListener("input", () => this.#go(Number(byId("step").value), true));
        for (const [id, to] of [
            ["first", () => 0],
            ["back", (at) => at - 1],
            ["next", (at) => at + 1],
            ["last", () => this.#stops.length - 1],
        ]) {
            byId(id).addEventListener("click", () => this.#go(to(Number(byId("step").value)), true));
        }
        byId("play").addEventListener("click", () => (this.#timer ? this.#pause() : this.#play()));
        for (const radio of document.querySelectorAll("[name=by]")) {
            radio.addEventListener("change", () => this.#count());
        }
    }

    /** Takes a run, and shows its last state; null hides the player. */
    load(run, subject) {
        this.#pause();
        this.#run = run;
        this.subject = subject;
        byId("player").hidden = run === null || run.records.length === 0;
        if (run !== null) this.#count(true);
    }

    /** Draws the state again, as after a change of the width. */
    redraw() {
        if (this.#run !== null) this.#go(Number(byId("step").value));
    }

    // The numbers of pops at which the slider stops.
    #count(atEnd = false) {
        const { records, at } = this.#run;
        const byLayers = document.querySelector("[name=by]:checked").value === "layers";
        const isStop = (i) => !byLayers || i === 0 || i === records.length || records[i].layer !== records[i - 1].layer;
        this.#stops = Array.from({ length: records.length + 1 }, (_, i) => i).filter(isStop);
        byId("step").max = this.#stops.length - 1;
        const stop = atEnd ? this.#stops.length - 1 : this.#stops.findLastIndex((pops) => pops <= at);
        this.#go(stop);
    }

    #go(stop, byHand = false) {
        if (byHand) this.#pause();
        const to = Math.max(0, Math.min(this.#stops.length - 1, stop));
        this.#run.goTo(this.#stops[to]);
        byId("step").value = to;
        const next = this.#run.records.slice(this.#stops[to], this.#stops[to + 1] ?? this.#stops[to]);
        const said = this.#said(next);
        byId("step-said").textContent = said;
        byId("step").setAttribute("aria-valuetext", said);
        byId("back").disabled = byId("first").disabled = to === 0;
        byId("next").disabled = byId("last").disabled = to === this.#stops.length - 1;
        this.#show(this.#run, new Set(next.flatMap(({ names }) => names)));
    }

    #said(next) {
        const { records, at } = this.#run;
        const [one, several] = this.subject.event;
        const begin = `After ${at} of ${records.length} pops`;
        if (next.length === 0) return `${begin}: the end of the run.`;
        const what = next.length === 1 ? `a ${one}` : `${next.length} ${several}`;
        return `${begin}: ${what} will be popped, in layer ${next[0].layer} of ${records.at(-1).layer}.`;
    }

    #play() {
        if (Number(byId("step").value) === this.#stops.length - 1) this.#go(0);
        const pause = Math.max(SHORTEST_STEP, Math.min(LONGEST_STEP, WHOLE / this.#stops.length));
        const stride = Math.ceil((this.#stops.length * SHORTEST_STEP) / WHOLE);
        this.#timer = setInterval(() => {
            const to = Number(byId("step").value) + stride;
            this.#go(to);
            if (to >= this.#stops.length - 1) this.#pause();
        }, pause);
        byId("play").textContent = "Pause";
        byId("play").setAttribute("aria-pressed", "true");
    }

    #pause() {
        clearInterval(this.#timer);
        this.#timer = 0;
        byId("play").textContent = "Play";
        byId("play").setAttribute("aria-pressed", "false");
    }
}
