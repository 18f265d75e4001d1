// Samples of graphs and formulas in arrays: c/include/popsample.h has the arguments of the calls.
import { Instance, NoMemoryError } from "./instance.js";
import { MEMORY } from "./module.js";

const NO_BUDGET = 2n ** 64n - 1n;
const NO_START = Uint32Array.of();
const BY_ROUNDS = 1;

/**
 * A graph of arrays. `ends` has the two ends of each edge, `weights` a weight for each edge or none.
 * @typedef {{ vertices: number, ends: Uint32Array, weights: Uint32Array }} Graph
 *
 * A formula of an array, which has the clauses one after the other, each with a 0 at its end.
 * @typedef {{ variables: number, literals: Int32Array }} Formula
 *
 * Rows of numbers, each with its name, and the number of pops or rounds; without a sample there is
 * the status alone.
 * @typedef {{ status: number, sample?: object }} Sampled
 */

/**
 * A spanning tree.
 * @param {WebAssembly.Module} module
 * @param {Graph} graph
 * @param {{ root: number, key: Uint8Array, height: number }} wanted
 * @returns {Sampled}
 */
export function treeOf(module, { vertices, ends, weights }, { root, key, height }) {
    const rows = {
        parents: [Int32Array, vertices],
        edges: [Int32Array, vertices],
        used: [Uint32Array, vertices],
    };
    return sampledBy(module, "popsample_trees", "pops", rows, (lend) => [
        ...[vertices, ...lend(ends), ...lend(weights), root],
        ...[...lend(key), height, 0, ...lend(NO_START), NO_BUDGET],
    ]);
}

/**
 * An orientation without sinks.
 * @param {WebAssembly.Module} module
 * @param {Graph} graph
 * @param {{ key: Uint8Array, height: number }} wanted
 * @returns {Sampled}
 */
export function orientationOf(module, { vertices, ends }, { key, height }) {
    const rows = { directions: [Uint8Array, ends.length / 2], used: [Uint32Array, ends.length / 2] };
    return sampledBy(module, "popsample_orientations", "pops", rows, (lend) => [
        ...[vertices, ...lend(ends)],
        ...[...lend(key), height, 0, ...lend(NO_START), NO_BUDGET],
    ]);
}

/**
 * A solution of a formula, by rounds.
 * @param {WebAssembly.Module} module
 * @param {Formula} formula
 * @param {{ key: Uint8Array, height: number }} wanted
 * @returns {Sampled}
 */
export function solutionOf(module, { variables, literals }, { key, height }) {
    const rows = { values: [Uint8Array, variables], used: [Uint32Array, variables] };
    return sampledBy(module, "popsample_assignments", "rounds", rows, (lend) => [
        ...[variables, ...lend(literals), BY_ROUNDS],
        ...[...lend(key), height, 0, ...lend(NO_START), NO_BUDGET],
    ]);
}

// Calls an export, which fills a row of each kind for one sample. `counted` is the name of what it
// counts, and `argumentsOf` makes the arguments before the rows.
function sampledBy(module, name, counted, rows, argumentsOf) {
    try {
        const instance = new Instance(module);
        const given = argumentsOf((numbers) => instance.lend(numbers));
        const taken = Object.entries(rows).map(([row, [Numbers, count]]) => {
            return { row, Numbers, count, at: instance.take(count * Numbers.BYTES_PER_ELEMENT) };
        });
        const [counts, kind, place] = [16, 8, 8].map((bytes) => instance.take(bytes));
        const rowArguments = taken.flatMap(({ at, count }) => [at, BigInt(count)]);
        const status = instance.call(name, ...given, ...rowArguments, counts, 2n, kind, place);
        if (status !== 0) return { status };
        const sample = { [counted]: Number(instance.seen(BigUint64Array, counts, 2)[0]) };
        for (const { row, Numbers, count, at } of taken) sample[row] = instance.seen(Numbers, at, count).slice();
        return { status, sample };
    } catch (error) {
        if (error instanceof NoMemoryError) return { status: MEMORY };
        throw error;
    }
}
