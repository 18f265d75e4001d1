// All outcomes of a small input with their exact weights, worked out apart from the program, and how often each came.
import { otherEnd, readGraph } from "./graph.js";
import { holds, readFormula } from "./formula_subject.js";

/** The greatest number of edges or variables of which all outcomes are listed. */
export const MOST = 12;

// Each list of 0 and 1 of this length.
const allBits = (length) =>
    Array.from({ length: 2 ** length }, (_, number) => Array.from({ length }, (_, i) => (number >> i) & 1));

// Whether the chosen edges join all vertices without a cycle.
function isTree({ vertices, edges }, bits) {
    const part = Array.from({ length: vertices + 1 }, (_, i) => i);
    const partOf = (vertex) => (part[vertex] === vertex ? vertex : partOf(part[vertex]));
    const chosen = edges.filter((_, i) => bits[i] === 1);
    if (chosen.length !== vertices - 1) return false;
    return chosen.every(({ from, to }) => {
        const [a, b] = [partOf(from), partOf(to)];
        part[a] = b;
        return a !== b;
    });
}

// Whether some edge leaves each vertex, as an edge from a vertex to itself does.
function hasNoSink({ vertices, edges }, bits) {
    const left = new Set(edges.map((edge, i) => (bits[i] === 0 ? edge.from : otherEnd(edge, edge.from))));
    return left.size === vertices;
}

function treesOf(text) {
    const graph = readGraph(text);
    const weight = (bits) => graph.edges.reduce((product, edge, i) => product * (bits[i] === 1 ? edge.weight : 1), 1);
    const chosen = (bits) => graph.edges.filter((_, i) => bits[i] === 1);
    const shown = (bits) => chosen(bits).map(({ from, to }) => `${from}–${to}`).join(" ");
    return { size: graph.edges.length, isOutcome: (bits) => isTree(graph, bits), weight, shown };
}

function orientationsOf(text) {
    const graph = readGraph(text);
    const shown = (bits) =>
        graph.edges.map(({ from, to }, i) => (bits[i] === 0 ? `${from}→${to}` : `${to}→${from}`)).join(" ");
    return { size: graph.edges.length, isOutcome: (bits) => hasNoSink(graph, bits), weight: () => 1, shown };
}

function solutionsOf(text) {
    const { variables, clauses } = readFormula(text);
    const isOutcome = (bits) => clauses.every((clause) => clause.some((literal) => holds(literal, bits)));
    const shown = (bits) => bits.map((bit, i) => (bit === 1 ? i + 1 : -i - 1)).join(" ");
    return { size: variables, isOutcome, weight: () => 1, shown };
}

const KINDS = { tree: treesOf, orient: orientationsOf, formula: solutionsOf };

/**
 * The outcomes of a command on a text, or null if it is too large.
 * @returns {{ bits: string, shown: string, weight: number }[] | null}
 */
export function outcomesOf(command, text) {
    const { size, isOutcome, weight, shown } = KINDS[command](text);
    if (size > MOST) return null;
    return allBits(size)
        .filter(isOutcome)
        .map((bits) => ({ bits: bits.join(""), shown: shown(bits), weight: weight(bits) }));
}

// The outcome of one sample of a batch, as bits in the order of the edges or variables.
function bitsOf(command, text, sample, size) {
    const bits = new Array(size).fill(0);
    if (command === "formula") {
        const [, literals] = /^v (.*)$/m.exec(sample);
        for (const literal of literals.split(" ")) if (Number(literal) > 0) bits[literal - 1] = 1;
        return bits.join("");
    }
    const { edges } = readGraph(text);
    for (const [, from, edge] of sample.matchAll(/^a (\d+) \d+ (\d+)$/gm)) {
        bits[edge - 1] = command === "tree" ? 1 : Number(edges[edge - 1].from !== Number(from));
    }
    return bits.join("");
}

/** How often each outcome came in a batch: by its bits. */
export function countsOf(command, text, output) {
    const { size } = KINDS[command](text);
    const counts = new Map();
    for (const sample of output.split(/^sample \d+$/m).slice(1)) {
        const bits = bitsOf(command, text, sample, size);
        counts.set(bits, (counts.get(bits) ?? 0) + 1);
    }
    return counts;
}

/** Pearson's chi-squared of counts against expected numbers, and what 19 in 20 batches of exact samples stay below. */
export function chiSquared(rows) {
    const value = rows.reduce((sum, { count, expected }) => sum + (count - expected) ** 2 / expected, 0);
    const freedom = rows.length - 1;
    // Wilson and Hilferty 1931, with the 95th percentile of the normal distribution.
    const bound = freedom === 0 ? 0 : freedom * (1 - 2 / (9 * freedom) + 1.645 * Math.sqrt(2 / (9 * freedom))) ** 3;
    return { value, freedom, bound };
}
