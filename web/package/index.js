// popsample for browsers, workers and Node: random spanning trees, orientations without sinks and solutions of
// formulas.
//
//     import { load } from "popsample";
//     const popsample = await load();
//     const { parents, key } = popsample.spanningTree([[0, 1], [1, 2], [2, 0]]);
//
// README.md has the calls, index.d.ts their types.
import { bytesOf, keyOf, randomKey, seedKey } from "./keys.js";
import { answerOf, compiled, labelOf, MEMORY, ownModule } from "./module.js";
import { FROM_ZERO, RefusalError, refusalOf } from "./refusal_error.js";
import { orientationOf, solutionOf, treeOf } from "./samples.js";
import { formulaOf, formulaText, graphOf, graphText, heightOf, rootOf } from "./texts.js";

export { RefusalError, randomKey, refusalOf, seedKey };

const LIMIT = 4;

/** Compiles the module that the engine can run, or the one that is named. */
export async function load(source = ownModule()) {
    return new Popsample(await compiled(source));
}

/** A module that is ready for calls. Nothing is kept from one call to the next. */
export class Popsample {
    #module;

    /** @param {WebAssembly.Module} module */
    constructor(module) {
        this.#module = module;
    }

    /** How the module was built and what it was compared with. */
    get label() {
        return labelOf(this.#module);
    }

    /** The status and the output of the program for these arguments and this input; it throws no RefusalError. */
    run(words, text = "") {
        if (words.some((word) => word.includes("\0"))) throw new TypeError("an argument can't have a character 0");
        return answerOf(this.#module, words, text);
    }

    /** A random spanning tree, with a probability proportional to the product of its edges' weights. */
    spanningTree(edges, options = {}) {
        const graph = graphOf(edges, options);
        const wanted = { key: keyOf(options), height: heightOf(options), root: rootOf(options) };
        return this.#sampleOf("tree", graph, treeOf, wanted);
    }

    /** A random orientation in which some edge leaves each vertex; each such orientation is as likely as any other. */
    orientation(edges, options = {}) {
        const graph = graphOf(edges, { ...options, weights: undefined });
        return this.#sampleOf("orient", graph, orientationOf, { key: keyOf(options), height: heightOf(options) });
    }

    /** A random solution of a formula, by rounds; each solution is as likely as any other. */
    solution(clauses, options = {}) {
        const formula = formulaOf(clauses, options);
        const wanted = { key: keyOf(options), height: heightOf(options) };
        return this.#sampleOf("rounds", formula, solutionOf, wanted);
    }

    // A sample of a graph or a formula, by a call that takes and fills arrays.
    #sampleOf(command, input, call, wanted) {
        const { status, sample } = isTooLarge(input)
            ? { status: LIMIT }
            : call(this.#module, input, { ...wanted, key: bytesOf(wanted.key) });
        if (status === 0) return { key: wanted.key, ...sample };
        throw this.#refusalOf(command, input, wanted, status);
    }

    // The error for a call with arrays: that for the same input as a text.
    #refusalOf(command, input, wanted, status) {
        const [words, text] = [wordsOf(command, wanted), textOf(input)];
        const answer = status === MEMORY ? { status, output: "" } : this.run(words, text);
        return refusalOf(words, text, answer, FROM_ZERO);
    }
}

// Whether a graph or a formula is beyond the limits. No rows are made for it.
function isTooLarge({ vertices, ends, variables, literals }) {
    return literals === undefined
        ? vertices > 2 ** 22 || ends.length > 2 ** 24
        : variables > 2 ** 22 || literals.length > 2 ** 25 + 2 ** 22;
}

const textOf = (input) => (input.literals === undefined ? graphText(input) : formulaText(input));

// The arguments of the program for a sample.
function wordsOf(command, { key, height, root }) {
    const words = [command, "--key", key, "--height", String(height)];
    return root === undefined ? words : [...words, "--root", String(root + 1)];
}
