// Graphs as texts, as the page reads and writes them. What popsample accepts, docs/FORMATS.md says; a text that it
// refuses isn't drawn. Lines `v VERTEX X Y`, which popsample passes over, keep where vertices were drawn, from 0 to
// 1000.

/**
 * @typedef {{ from: number, to: number, weight: number }} Edge  vertices count from 1
 * @typedef {{ vertices: number, edges: Edge[], places: Map<number, { x: number, y: number }> }} Graph
 */

/** @returns {Graph} */
export function readGraph(text) {
    const graph = { vertices: 0, edges: [], places: new Map() };
    for (const line of text.split("\n")) {
        const [word, ...rest] = line.trim().split(/[ \t\r]+/);
        const numbers = rest.map(Number);
        if (word === "p") graph.vertices = numbers[1] || 0;
        if (word === "v") graph.places.set(numbers[0], { x: numbers[1], y: numbers[2] });
        if (word === "e") graph.edges.push({ from: numbers[0], to: numbers[1], weight: numbers[2] ?? 1 });
    }
    return graph;
}

/** @param {Graph} graph */
export function writeGraph({ vertices, edges, places }) {
    const lines = [`p edge ${vertices} ${edges.length}`];
    for (const [vertex, { x, y }] of places) lines.push(`v ${vertex} ${Math.round(x)} ${Math.round(y)}`);
    for (const { from, to, weight } of edges) lines.push(`e ${from} ${to}${weight === 1 ? "" : ` ${weight}`}`);
    return `${lines.join("\n")}\n`;
}

/** The grid of some rows and columns: docs/FORMATS.md has the order of its edges. */
export function grid(size) {
    const edges = [];
    for (let vertex = 1; vertex <= size * size; vertex++) {
        if (vertex % size !== 0) edges.push({ from: vertex, to: vertex + 1, weight: 1 });
        if (vertex + size <= size * size) edges.push({ from: vertex, to: vertex + size, weight: 1 });
    }
    return { vertices: size * size, edges, places: new Map() };
}

/** The number of the other end of an edge. */
export const otherEnd = ({ from, to }, vertex) => (from === vertex ? to : from);

/** The numbers of the edges at each vertex, from 0, without loops, in their order; the list of vertex 0 is empty. */
export function edgesAt({ vertices, edges }) {
    const lists = Array.from({ length: vertices + 1 }, () => []);
    for (const [number, { from, to }] of edges.entries()) {
        if (from === to) continue;
        lists[from].push(number);
        lists[to].push(number);
    }
    return lists;
}
