// A graph with arrows along its edges.
import { arrow, cleared, disc, line, palette } from "./drawing.js";
import { otherEnd } from "./graph.js";
import { placesOf } from "./layout.js";

const MARGIN = 24;

/** The places of the vertices on a canvas of this size, and the radius of their discs. */
export function placed(graph, width, height) {
    const scale = ({ x, y }) => ({
        x: MARGIN + (x / 1000) * (width - 2 * MARGIN),
        y: MARGIN + (y / 1000) * (height - 2 * MARGIN),
    });
    const radius = Math.max(3, Math.min(16, width / 3 / Math.sqrt(graph.vertices + 1) / 2));
    return { places: placesOf(graph).map(scale), radius };
}

/**
 * @param {HTMLCanvasElement} canvas
 * @param {import("./graph.js").Graph} graph
 * @param {{ arrows: { from: number, edge: import("./graph.js").Edge, popped: boolean }[],
 *           filled: (vertex: number) => boolean, marked: (vertex: number) => boolean }} state
 */
export function drawGraph(canvas, graph, { arrows, filled, marked }) {
    const colors = palette();
    const { pen, width, height } = cleared(canvas, graph.vertices > 2 ? 0.8 : 0.5);
    const { places, radius } = placed(graph, width, height);
    for (const { from, to } of graph.edges) line(pen, places[from - 1], places[to - 1], colors.edge, 1);
    for (const { from, edge, popped } of arrows) {
        const to = places[otherEnd(edge, from) - 1];
        arrow(pen, places[from - 1], to, popped ? colors.popped : colors.arrow, popped ? 4 : 2.5, radius);
    }
    for (const [i, at] of places.entries()) {
        const full = filled(i + 1);
        disc(pen, at, radius, {
            fill: marked(i + 1) ? colors.text : full ? colors.accent : colors.ground,
            stroke: marked(i + 1) ? colors.text : full ? colors.accent : colors.popped,
            text: marked(i + 1) ? colors.ground : full ? colors["on-accent"] : colors.text,
            label: String(i + 1),
        });
    }
}
