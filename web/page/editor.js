// Draws a graph by hand: taps on a canvas, by the pointer or by a cross that the arrow keys move, change its text.
import { placed } from "./draw_graph.js";
import { cleared, disc, line, palette } from "./drawing.js";
import { readGraph, writeGraph } from "./graph.js";

const RATIO = 0.8;
const MOST = 2000;
const STEP = 0.05;
const MOVES = { ArrowLeft: [-STEP, 0], ArrowRight: [STEP, 0], ArrowUp: [0, -STEP], ArrowDown: [0, STEP] };

const byId = (id) => document.getElementById(id);

// The distance of a place from the line between two others.
function distanceFrom(at, a, b) {
    const [dx, dy] = [b.x - a.x, b.y - a.y];
    const along = ((at.x - a.x) * dx + (at.y - a.y) * dy) / Math.max(1, dx * dx + dy * dy);
    const near = Math.max(0, Math.min(1, along));
    return Math.hypot(at.x - a.x - near * dx, at.y - a.y - near * dy);
}

export class Editor {
    #canvas = byId("editor");
    #text = byId("graph");
    #chosen = null;
    #cross = null;

    constructor() {
        this.#canvas.addEventListener("click", (event) => {
            if (event.detail > 0) this.#tap(event.offsetX, event.offsetY);
        });
        this.#canvas.addEventListener("keydown", (event) => this.#press(event));
        this.#canvas.addEventListener("blur", () => this.#showCross(null));
        this.#text.addEventListener("input", () => this.draw());
    }

    get #tool() {
        return document.querySelector("[name=tool]:checked").value;
    }

    // The graph of the text, or null if popsample would refuse it or it is too large to be drawn by hand.
    #graph() {
        const graph = readGraph(this.#text.value);
        const isVertex = (number) => Number.isInteger(number) && number >= 1 && number <= graph.vertices;
        const isSound = graph.vertices <= MOST && graph.edges.every(({ from, to }) => isVertex(from) && isVertex(to));
        return isSound ? graph : null;
    }

    /** Draws the graph of the text. */
    draw() {
        const graph = this.#graph() ?? { vertices: 0, edges: [], places: new Map() };
        const colors = palette();
        const ratio = this.#canvas.clientHeight / this.#canvas.clientWidth || RATIO;
        const { pen, width, height } = cleared(this.#canvas, ratio);
        const { places, radius } = placed(graph, width, height);
        for (const { from, to } of graph.edges) line(pen, places[from - 1], places[to - 1], colors.edge, 2);
        for (const [i, at] of places.entries()) {
            const isChosen = this.#chosen === i + 1;
            const fill = isChosen ? colors.popped : colors.accent;
            disc(pen, at, radius, { fill, stroke: colors.text, text: colors["on-accent"], label: String(i + 1) });
        }
        if (this.#cross === null) return;
        const [x, y] = [this.#cross.x * width, this.#cross.y * height];
        line(pen, { x: x - 12, y }, { x: x + 12, y }, colors.text, 2);
        line(pen, { x, y: y - 12 }, { x, y: y + 12 }, colors.text, 2);
    }

    #showCross(cross) {
        this.#cross = cross;
        this.draw();
    }

    #press(event) {
        const cross = this.#cross ?? { x: 0.5, y: 0.5 };
        if (event.key in MOVES) {
            const [dx, dy] = MOVES[event.key];
            const within = (value) => Math.max(0.03, Math.min(0.97, value));
            this.#showCross({ x: within(cross.x + dx), y: within(cross.y + dy) });
        } else if (event.key === "Enter" || event.key === " ") {
            this.#cross = cross;
            this.#tap(cross.x * this.#canvas.clientWidth, cross.y * this.#canvas.clientHeight);
        } else return;
        event.preventDefault();
    }

    // What a tap does, by the tool; x and y are in the pixels of the page.
    #tap(x, y) {
        const graph = this.#graph();
        if (graph === null) {
            byId("editor-said").textContent = "This text isn't a graph that can be drawn here.";
            return;
        }
        const [width, height] = [this.#canvas.clientWidth, this.#canvas.clientHeight];
        const { places, radius } = placed(graph, width, height);
        // Vertices that had no place get the one that was drawn.
        const toPlane = (at, size) => Math.max(0, Math.min(1000, ((at - 24) / (size - 48)) * 1000));
        graph.places = new Map(places.map((at, i) => [i + 1, { x: toPlane(at.x, width), y: toPlane(at.y, height) }]));
        const found = places.findIndex((at) => Math.hypot(at.x - x, at.y - y) <= Math.max(radius, 14)) + 1;
        const place = { x: toPlane(x, width), y: toPlane(y, height) };
        const said = this.#change(graph, { found, place, at: { x, y }, places });
        byId("editor-said").textContent = said;
        this.#text.value = writeGraph(graph);
        this.draw();
        this.#text.dispatchEvent(new Event("change", { bubbles: true }));
    }

    #change(graph, tapped) {
        if (this.#tool === "draw") return this.#add(graph, tapped);
        return this.#tool === "move" ? this.#move(graph, tapped) : this.#erase(graph, tapped);
    }

    #add(graph, { found, place }) {
        if (found === 0) {
            graph.places.set(++graph.vertices, place);
            this.#chosen = null;
            return `Vertex ${graph.vertices} is new.`;
        }
        if (this.#chosen === null || this.#chosen === found) {
            this.#chosen = this.#chosen === found ? null : found;
            return this.#chosen === null ? "No vertex is chosen." : `Vertex ${found} is chosen: tap another one.`;
        }
        graph.edges.push({ from: this.#chosen, to: found, weight: 1 });
        const said = `Vertices ${this.#chosen} and ${found} are joined.`;
        this.#chosen = null;
        return said;
    }

    #move(graph, { found, place }) {
        if (this.#chosen === null) {
            this.#chosen = found || null;
            return found === 0 ? "There is no vertex." : `Vertex ${found} is chosen: tap its new place.`;
        }
        graph.places.set(this.#chosen, place);
        const said = `Vertex ${this.#chosen} is moved.`;
        this.#chosen = null;
        return said;
    }

    #erase(graph, { found, at, places }) {
        this.#chosen = null;
        if (found === 0) {
            const isNear = ({ from, to }) => distanceFrom(at, places[from - 1], places[to - 1]) < 8;
            const near = graph.edges.findLastIndex(isNear);
            if (near < 0) return "There is neither a vertex nor an edge.";
            const [{ from, to }] = graph.edges.splice(near, 1);
            return `The edge from ${from} to ${to} is gone.`;
        }
        // The vertices after it move up by one.
        const renamed = (vertex) => vertex - (vertex > found);
        graph.edges = graph.edges
            .filter(({ from, to }) => from !== found && to !== found)
            .map(({ from, to, weight }) => ({ from: renamed(from), to: renamed(to), weight }));
        graph.places.delete(found);
        graph.places = new Map(Array.from(graph.places, ([vertex, one]) => [renamed(vertex), one]));
        graph.vertices--;
        return `Vertex ${found} is gone.`;
    }
}
