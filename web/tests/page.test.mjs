// Tests of what the page works out by itself: entries of a key, replayed runs, and all outcomes of small inputs.
// PACKAGE names the folder of the package.
import assert from "node:assert/strict";
import { test } from "node:test";
import { pathToFileURL } from "node:url";
import { block, Entries, keyWords } from "../page/entries.js";
import { FormulaSubject } from "../page/formula_subject.js";
import { readGraph, writeGraph } from "../page/graph.js";
import { MazeSubject } from "../page/maze_subject.js";
import { OrientationSubject } from "../page/orientation_subject.js";
import { chiSquared, countsOf, MOST, outcomesOf } from "../page/outcomes.js";
import { Run } from "../page/run.js";
import { TreeSubject } from "../page/tree_subject.js";

const { load, seedKey } = await import(new URL("index.js", pathToFileURL(`${process.env.PACKAGE}/`)));
const popsample = await load();

const PETERSEN = `p edge 10 15\n${[
    ...[[1, 2], [2, 3], [3, 4], [4, 5], [5, 1], [1, 6], [2, 7], [3, 8], [4, 9], [5, 10]],
    ...[[6, 8], [8, 10], [10, 7], [7, 9], [9, 6]],
].map(([from, to]) => `e ${from} ${to}\n`).join("")}`;
// With weights that sum to no power of two, parallel edges and an edge from a vertex to itself.
const WEIGHTED = "p edge 4 7\ne 1 2 3\ne 2 3\ne 3 4 5\ne 4 1\ne 2 2 9\ne 1 2 2\ne 4 2 7\n";
const EXTREMAL = "c a cycle\np cnf 6 5\n1 2 0\n-2 3 0\n-3 4 5 0\n-4 -5\n6 0 -6 -1\n";

test("a block is that of the standard", () => {
    // RFC 8439, 2.3.2, whose nonce is in the words 13 to 15.
    const key = keyWords(Array.from({ length: 32 }, (_, i) => i.toString(16).padStart(2, "0")).join(""));
    const words = block(key, [1, 0x09000000, 0x4a000000, 0]);
    const first = [0xe4e7f110, 0x15593bd1, 0x1fdd0f50, 0xc47120a3, 0xc7f4d1c7, 0x0368c033, 0x9aaa2204, 0x4e6cd4c3];
    const last = [0x466482d2, 0x09aa9f07, 0x05d7c214, 0xa2028bd9, 0xd19c12b5, 0xb94e16de, 0xe883d0cb, 0x4e3c50a2];
    assert.deepEqual([...words], [...first, ...last]);
});

test("values come by the shares of their weights", () => {
    const entries = new Entries(seedKey(7), [[1, 0, 3]]);
    const values = Array.from({ length: 4000 }, (_, entry) => entries.value(0, entry));
    const count = (wanted) => values.filter((value) => value === wanted).length;
    assert.equal(count(1), 0);
    // Of 4000 with a probability of 1/4, with a standard deviation of 27.
    assert.ok(Math.abs(count(0) - 1000) < 150, `${count(0)}`);
});

test("a replayed run ends at the printed sample, and goes back to where it was", () => {
    const inputs = [
        ["tree --root 3", PETERSEN, (text) => new TreeSubject(readGraph(text), 3)],
        ["tree", WEIGHTED, (text) => new TreeSubject(readGraph(text), 1)],
        ["tree", writeGraph(new MazeSubject(7).graph), () => new MazeSubject(7)],
        ["orient", PETERSEN, (text) => new OrientationSubject(readGraph(text))],
        ["formula", EXTREMAL, (text) => new FormulaSubject(text)],
    ];
    for (const [line, text, subjectOf] of inputs) {
        for (let seed = 0; seed < 20; seed++) {
            const key = seedKey(seed);
            const { output, status } = popsample.run([...line.split(" "), "--key", key, "--log", "on"], text);
            assert.equal(status, 0);
            const subject = subjectOf(text);
            const run = new Run(subject, key, output);
            const first = [...run.values];
            run.goTo(run.records.length);
            assert.deepEqual(run.values, subject.sampled(output), `${line}, seed ${seed}`);
            run.goTo(0);
            assert.deepEqual(run.values, first);
        }
    }
});

// The weight of all spanning trees by Kirchhoff's theorem: a determinant, in fractions that stay exact here.
function kirchhoff({ vertices, edges }) {
    const matrix = Array.from({ length: vertices }, () => new Array(vertices).fill(0));
    for (const { from, to, weight } of edges) {
        if (from === to) continue;
        for (const [i, j] of [[from, to], [to, from]]) {
            matrix[i - 1][i - 1] += weight;
            matrix[i - 1][j - 1] -= weight;
        }
    }
    let determinant = 1;
    for (let k = 1; k < vertices; k++) {
        determinant *= matrix[k][k];
        for (let i = k + 1; i < vertices; i++) {
            const factor = matrix[i][k] / matrix[k][k];
            for (let j = k; j < vertices; j++) matrix[i][j] -= factor * matrix[k][j];
        }
    }
    return determinant;
}

test("the trees of a graph weigh what Kirchhoff's theorem says", () => {
    for (const text of [WEIGHTED, "p edge 4 6\ne 1 2\ne 1 3\ne 1 4\ne 2 3\ne 2 4\ne 3 4\n"]) {
        const sum = outcomesOf("tree", text).reduce((all, { weight }) => all + weight, 0);
        assert.ok(Math.abs(sum - kirchhoff(readGraph(text))) < 1e-6, `${sum}`);
    }
});

test("outcomes of small inputs, worked by hand", () => {
    const triangle = "p edge 3 3\ne 1 2\ne 2 3\ne 3 1\n";
    assert.equal(outcomesOf("tree", triangle).length, 3);
    assert.equal(outcomesOf("orient", triangle).length, 2);
    assert.equal(outcomesOf("formula", "p cnf 2 1\n1 2 0\n").length, 3);
    assert.equal(outcomesOf("formula", `p cnf ${MOST + 1} 0\n`), null);
});

test("a batch has only outcomes that are listed, about as often as they weigh", () => {
    const inputs = { tree: WEIGHTED, orient: "p edge 4 5\ne 1 2\ne 2 3\ne 3 4\ne 4 1\ne 1 3\n", formula: EXTREMAL };
    for (const [command, text] of Object.entries(inputs)) {
        const words = [command, "--count", "4096", "--key", seedKey(1)];
        const counts = countsOf(command, text, popsample.run(words, text).output);
        const outcomes = outcomesOf(command, text);
        const sum = outcomes.reduce((all, { weight }) => all + weight, 0);
        assert.equal([...counts.values()].reduce((all, count) => all + count, 0), 4096);
        for (const bits of counts.keys()) assert.ok(outcomes.some((outcome) => outcome.bits === bits), bits);
        const rows = outcomes.map(({ bits, weight }) => {
            return { count: counts.get(bits) ?? 0, expected: (4096 * weight) / sum };
        });
        const { value, freedom } = chiSquared(rows);
        // Six standard deviations: under this key it is so or not.
        assert.ok(value < freedom + 6 * Math.sqrt(2 * freedom), `${command}: ${value} of ${freedom}`);
    }
});

test("the bound of chi-squared is about that of the tables", () => {
    // The 95th percentiles of chi-squared, to one digit.
    for (const [freedom, wanted] of [[1, 3.8], [10, 18.3], [30, 43.8], [100, 124.3]]) {
        const rows = Array.from({ length: freedom + 1 }, () => ({ count: 1, expected: 1 }));
        assert.ok(Math.abs(chiSquared(rows).bound - wanted) < 0.2, `${freedom}: ${chiSquared(rows).bound}`);
    }
});

test("a graph is written as it is read", () => {
    const text = "p edge 3 2\nv 1 10 20\nv 3 500 500\ne 1 2\ne 2 3 4\n";
    assert.equal(writeGraph(readGraph(text)), text);
});
