// Spanning trees of a graph: their values, and how a state of the run is drawn. The value of a vertex is the slot
// of its arrow among the edges at the vertex.
import { drawGraph } from "./draw_graph.js";
import { edgesAt, otherEnd } from "./graph.js";

export class TreeSubject {
    /**
     * @param {import("./graph.js").Graph} graph
     * @param {number} root
     */
    constructor(graph, root) {
        this.graph = graph;
        this.root = root;
        this.slots = edgesAt(graph);
        /** The names of the variables, in order. */
        this.names = Array.from({ length: graph.vertices }, (_, i) => i + 1).filter((vertex) => vertex !== root);
        /** The weights of each variable's values. */
        this.weights = this.names.map((vertex) => this.slots[vertex].map((edge) => graph.edges[edge].weight));
        /** A singular and a plural for what is popped. */
        this.event = ["cycle", "cycles"];
    }

    /** The values of a sample, of the lines `a FROM TO EDGE`. */
    sampled(output) {
        const slots = new Map();
        for (const [, from, edge] of output.matchAll(/^a (\d+) \d+ (\d+)$/gm)) {
            slots.set(Number(from), this.slots[from].indexOf(edge - 1));
        }
        return this.names.map((vertex) => slots.get(vertex));
    }

    /** The edge along which each vertex is left, by the number of the vertex; of the root it is null. */
    arrows(values) {
        const arrows = new Array(this.graph.vertices + 1).fill(null);
        for (const [i, vertex] of this.names.entries()) {
            arrows[vertex] = this.graph.edges[this.slots[vertex][values[i]]];
        }
        return arrows;
    }

    /** Whether the arrows lead from each vertex to the root. */
    settled(arrows) {
        const settled = new Array(this.graph.vertices + 1).fill(undefined);
        settled[this.root] = true;
        for (const start of this.names) {
            const way = [];
            let at = start;
            for (; settled[at] === undefined; at = otherEnd(arrows[at], at)) {
                settled[at] = false;
                way.push(at);
            }
            if (settled[at]) for (const vertex of way) settled[vertex] = true;
        }
        return settled;
    }

    /** Draws the arrows; those of the variables that are popped next are marked. */
    draw(canvas, values, popped) {
        const arrows = this.arrows(values);
        const settled = this.settled(arrows);
        drawGraph(canvas, this.graph, {
            arrows: this.names.map((from) => ({ from, edge: arrows[from], popped: popped.has(from) })),
            filled: (vertex) => settled[vertex],
            marked: (vertex) => vertex === this.root,
        });
    }

    told() {
        return `A spanning tree of ${this.graph.vertices} vertices`;
    }
}
