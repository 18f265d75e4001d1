// Mazes: spanning trees of a grid. Walls are open between the two cells of an arrow.
import { cleared, palette } from "./drawing.js";
import { grid, otherEnd } from "./graph.js";
import { TreeSubject } from "./tree_subject.js";

export class MazeSubject extends TreeSubject {
    constructor(size) {
        super(grid(size), 1);
        this.size = size;
    }

    // The way from the last cell to the root, as cells; none while arrows form cycles.
    #way(arrows, settled) {
        const way = [];
        const last = this.size ** 2;
        if (settled.includes(false)) return way;
        for (let at = last; at !== this.root; at = otherEnd(arrows[at], at)) way.push(at);
        return [...way, this.root];
    }

    draw(canvas, values, popped) {
        const colors = palette();
        const { pen, width } = cleared(canvas, 1);
        const arrows = this.arrows(values);
        const settled = this.settled(arrows);
        const wall = Math.max(1, width / this.size / 6);
        const cell = (width - wall) / this.size;
        const corner = (vertex) => [(vertex - 1) % this.size, Math.floor((vertex - 1) / this.size)];
        // The room of two cells, from inner edge to inner edge.
        const room = (from, to, inset) => {
            const [a, b] = [corner(from), corner(to)];
            const low = a.map((x, i) => wall + cell * Math.min(x, b[i]) + inset);
            const size = a.map((x, i) => cell * (Math.abs(x - b[i]) + 1) - wall - 2 * inset);
            pen.fillRect(...low, ...size);
        };
        pen.fillStyle = colors.wall;
        pen.fillRect(0, 0, width, width);
        for (const vertex of [this.root, ...this.names]) {
            const next = arrows[vertex] === null ? vertex : otherEnd(arrows[vertex], vertex);
            pen.fillStyle = popped.has(vertex) ? colors.popped : settled[vertex] ? colors.room : colors["open-room"];
            room(vertex, next, 0);
        }
        pen.fillStyle = colors.accent;
        const way = this.#way(arrows, settled);
        for (const [i, vertex] of way.entries()) room(vertex, way[i + 1] ?? vertex, (cell - wall) / 3);
    }

    told() {
        return `A maze of ${this.size} by ${this.size} cells, with the way from corner to corner`;
    }
}
