// A run, replayed by its layered log: the values of all variables after so many pops.
import { Entries } from "./entries.js";

/** The records of a log: docs/FORMATS.md has the lines `pop LAYER EVENT NAME:ENTRY ..`. */
export function readLog(output) {
    const lines = output.matchAll(/^pop (\d+) (\d+) (.*)$/gm);
    return Array.from(lines, ([, layer, event, pairs]) => ({
        layer: Number(layer),
        event: Number(event),
        names: pairs.split(" ").map((pair) => parseInt(pair, 10)),
    }));
}

export class Run {
    #entries;
    #places;
    #cursors;
    #at = 0;

    /**
     * @param {{ names: number[], weights: number[][] }} subject
     * @param {string} key
     * @param {string} output of the program, with its log
     */
    constructor(subject, key, output) {
        this.records = readLog(output);
        /** The values of all variables, in order. */
        this.values = [];
        this.#entries = new Entries(key, subject.weights);
        this.#places = new Map(subject.names.map((name, i) => [name, i]));
        this.#cursors = new Uint32Array(subject.names.length);
        for (let i = 0; i < subject.names.length; i++) this.values.push(this.#entries.value(i, 0));
    }

    /** The number of pops behind the state. */
    get at() {
        return this.#at;
    }

    /** Goes to the state after so many pops. */
    goTo(pops) {
        const changed = new Set();
        const move = (record, by) => {
            for (const name of record.names) {
                const place = this.#places.get(name);
                this.#cursors[place] += by;
                changed.add(place);
            }
        };
        while (this.#at < pops) move(this.records[this.#at++], 1);
        while (this.#at > pops) move(this.records[--this.#at], -1);
        for (const place of changed) this.values[place] = this.#entries.value(place, this.#cursors[place]);
    }
}
