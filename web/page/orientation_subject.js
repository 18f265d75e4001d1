// Orientations without sinks: the value of an edge is 0 if it points from its first vertex to its second, and else 1.
import { drawGraph } from "./draw_graph.js";

export class OrientationSubject {
    /** @param {import("./graph.js").Graph} graph */
    constructor(graph) {
        this.graph = graph;
        this.names = graph.edges.map((_, i) => i + 1);
        this.weights = graph.edges.map(() => [1, 1]);
        this.event = ["sink", "sinks"];
    }

    sampled(output) {
        const { edges } = this.graph;
        const lines = Array.from(output.matchAll(/^a (\d+) \d+ (\d+)$/gm));
        return lines.map(([, from, edge]) => (edges[edge - 1].from === Number(from) ? 0 : 1));
    }

    draw(canvas, values, popped) {
        const left = new Set();
        const arrows = this.graph.edges.map((edge, i) => {
            const from = values[i] === 0 ? edge.from : edge.to;
            left.add(from);
            return { from, edge, popped: popped.has(i + 1) };
        });
        drawGraph(canvas, this.graph, { arrows, filled: (vertex) => left.has(vertex), marked: () => false });
    }

    told() {
        return `An orientation of ${this.graph.edges.length} edges: some edge leaves each vertex`;
    }
}
