// What calls are given, checked, as arrays and texts. Vertices count from 0 in arrays and from 1 in texts.

const MOST = 2 ** 32 - 1;
const DEFAULT_HEIGHT = 2 ** 20;
const NONE = Uint32Array.of();

function checkInteger(what, value, least, most) {
    if (!Number.isInteger(value) || value < least || value > most) {
        throw new RangeError(`${what} must be an integer from ${least} to ${most}, not ${value}`);
    }
}

// The ends of the edges, one after the other: of pairs, or of an array that has them so.
function endsOf(edges) {
    const ends = ArrayBuffer.isView(edges) ? edges : Array.from(edges, pairOf).flat();
    if (ends.length % 2 !== 0) throw new RangeError("edges must have two ends each");
    for (const end of ends) checkInteger("a vertex", end, 0, MOST - 1);
    return Uint32Array.from(ends);
}

function pairOf(edge) {
    const [from, to] = edge;
    return [from, to];
}

function weightsOf(weights, edges) {
    const given = Array.from(weights);
    if (given.length !== edges) throw new RangeError("weights must have one for each edge");
    for (const weight of given) checkInteger("a weight", weight, 1, MOST);
    return Uint32Array.from(given);
}

/**
 * A graph of arrays. Without weights each edge has the weight 1.
 * @param {Iterable<readonly [number, number]> | Uint32Array} edges
 * @param {{ vertices?: number, weights?: Iterable<number> }} options
 * @returns {import("./samples.js").Graph}
 */
export function graphOf(edges, { vertices, weights }) {
    const ends = endsOf(edges);
    const count = vertices ?? ends.reduce((most, end) => Math.max(most, end + 1), 0);
    checkInteger("vertices", count, 0, MOST);
    return { vertices: count, ends, weights: weights === undefined ? NONE : weightsOf(weights, ends.length / 2) };
}

/**
 * The text of a graph.
 * @param {import("./samples.js").Graph} graph
 */
export function graphText({ vertices, ends, weights }) {
    const lines = [`p edge ${vertices} ${ends.length / 2}\n`];
    for (let edge = 0; 2 * edge < ends.length; edge++) {
        const weight = weights.length === 0 ? "" : ` ${weights[edge]}`;
        lines.push(`e ${ends[2 * edge] + 1} ${ends[2 * edge + 1] + 1}${weight}\n`);
    }
    return lines.join("");
}

/**
 * A formula of an array, of clauses of literals: `2` is that variable 2 is true, `-2` that it is
 * false. Without `variables` it has those up to the greatest one of a literal.
 * @param {Iterable<Iterable<number>>} clauses
 * @param {{ variables?: number }} options
 * @returns {import("./samples.js").Formula}
 */
export function formulaOf(clauses, { variables }) {
    const rows = Array.from(clauses, (clause) => Array.from(clause));
    let most = 0;
    for (const literal of rows.flat()) {
        checkInteger("the variable of a literal", Math.abs(literal), 1, 2 ** 31 - 1);
        most = Math.max(most, Math.abs(literal));
    }
    const count = variables ?? most;
    checkInteger("variables", count, 0, MOST);
    return { variables: count, literals: Int32Array.from(rows.flatMap((row) => [...row, 0])) };
}

/**
 * The text of a formula.
 * @param {import("./samples.js").Formula} formula
 */
export function formulaText({ variables, literals }) {
    const lines = [];
    for (let at = 0; at < literals.length; ) {
        const end = literals.indexOf(0, at) + 1;
        lines.push(`${literals.subarray(at, end).join(" ")}\n`);
        at = end;
    }
    return `p cnf ${variables} ${lines.length}\n${lines.join("")}`;
}

/** The number of entries of each stack. */
export function heightOf({ height = DEFAULT_HEIGHT }) {
    checkInteger("height", height, 1, 2 ** 31 - 1);
    return height;
}

/** The root, a vertex that counts from 0. */
export function rootOf({ root = 0 }) {
    checkInteger("root", root, 0, MOST - 1);
    return root;
}
