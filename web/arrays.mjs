// Samples in arrays beside those of the same graphs and formulas as texts.

/**
 * Draws a tree and an orientation of each of so many random graphs, and a solution of each of so
 * many random formulas; `told` shows what differs and how many agree.
 * @param {import("./package/index.js").Popsample} popsample
 */
export function compareArrays(popsample, inputs) {
    const lines = [];
    let agree = 0;
    for (let seed = 0; seed < inputs; seed++) {
        const [graph, formula] = [randomGraph(seed), randomFormula(seed)];
        for (const [command, sample, input] of [
            ["tree", treeOf, graph],
            ["orient", orientationOf, graph],
            ["rounds", solutionOf, formula],
        ]) {
            const wanted = byText(popsample, command, input);
            const found = answered(() => sample(popsample, input));
            if (found === wanted) agree++;
            else lines.push(`input ${seed}, ${command}: ${found}instead of ${wanted}`);
        }
    }
    const differ = lines.length;
    return { differ, told: [...lines, `arrays: ${agree} agree, ${differ} differ`].join("\n") };
}

// A graph with parallel edges and self-loops, and how it is sampled. Some such graphs aren't connected, and some stacks
// run out.
function randomGraph(seed) {
    const below = randomNumbers(seed);
    const vertices = 1 + below(8);
    const edges = Array.from({ length: vertices + below(8) }, () => [below(vertices), below(vertices)]);
    const weights = edges.map(() => 1 + below(1000));
    return { vertices, edges, weights, root: below(vertices), height: 1 + below(20), key: key(seed) };
}

// A formula whose clauses may clash or be empty. Some such formulas have no solution, and some
// stacks run out.
function randomFormula(seed) {
    const below = randomNumbers(seed);
    const variables = 1 + below(6);
    const literal = () => (1 + below(variables)) * (below(2) === 0 ? 1 : -1);
    const clause = () => Array.from({ length: below(12) && 1 + below(3) }, literal);
    const clauses = Array.from({ length: below(8) }, clause);
    return { variables, clauses, height: 1 + below(20), key: key(seed) };
}

const key = (seed) => seed.toString(16).padStart(64, "0");

// Numbers below bounds, by a linear congruential generator.
function randomNumbers(seed) {
    let state = seed;
    return (bound) => {
        state = (Math.imul(state, 1664525) + 1013904223) >>> 0;
        return Math.floor((state / 2 ** 32) * bound);
    };
}

function byText(popsample, command, input) {
    const words = [command, "--key", input.key, "--height", String(input.height)];
    if (command === "tree") words.push("--root", String(input.root + 1));
    const text = command === "rounds" ? formulaText(input) : graphText(input);
    const { status, output } = popsample.run(words, text);
    return `${status}\n${output}`;
}

function graphText({ vertices, edges, weights }) {
    const lines = edges.map(([from, to], edge) => `e ${from + 1} ${to + 1} ${weights[edge]}\n`);
    return `p edge ${vertices} ${edges.length}\n${lines.join("")}`;
}

function formulaText({ variables, clauses }) {
    const lines = clauses.map((clause) => `${clause.map((literal) => `${literal} `).join("")}0\n`);
    return `p cnf ${variables} ${clauses.length}\n${lines.join("")}`;
}

// The status and the output that a call with arrays stands for.
function answered(call) {
    try {
        return `0\ns SAMPLE\n${call().map((line) => `${line}\n`).join("")}`;
    } catch (error) {
        return `${error.status}\n${error.output}`;
    }
}

// docs/FORMATS.md: the lines of a tree.
function treeOf(popsample, { edges, ...options }) {
    const tree = popsample.spanningTree(edges, options);
    const others = Array.from(tree.parents.keys()).filter((vertex) => vertex !== options.root);
    const arrows = others.map((vertex) => `a ${vertex + 1} ${tree.parents[vertex] + 1} ${tree.edges[vertex] + 1}`);
    return [...arrows, ["used", ...others.map((vertex) => tree.used[vertex])].join(" "), `pops ${tree.pops}`];
}

// docs/FORMATS.md: the lines of an orientation.
function orientationOf(popsample, { edges, ...options }) {
    const { directions, used, pops } = popsample.orientation(edges, options);
    const arrows = edges.map(([from, to], edge) => {
        const [tail, head] = directions[edge] === 0 ? [from, to] : [to, from];
        return `a ${tail + 1} ${head + 1} ${edge + 1}`;
    });
    return [...arrows, ["used", ...used].join(" "), `pops ${pops}`];
}

// docs/FORMATS.md: the lines of a solution by rounds.
function solutionOf(popsample, { clauses, ...options }) {
    const { values, used, rounds } = popsample.solution(clauses, options);
    const literals = Array.from(values, (value, i) => (value === 1 ? i + 1 : -i - 1));
    return [["v", ...literals, 0].join(" "), ["used", ...used].join(" "), `rounds ${rounds}`];
}
