// Places for the vertices of a graph that has none: on a circle, and then moved by springs along edges and by a force
// between all vertices (Fruchterman and Reingold 1991). Equal graphs get equal places.
const MIDDLE = 500;
const ROUNDS = 200;
const MOST = 150;

function circle(vertices) {
    return Array.from({ length: vertices }, (_, i) => {
        const angle = (2 * Math.PI * i) / vertices - Math.PI / 2;
        return { x: MIDDLE + 400 * Math.cos(angle), y: MIDDLE + 400 * Math.sin(angle) };
    });
}

// Moves two places along the line between them, by a force that depends on the distance.
function act(moves, places, i, j, force) {
    const [dx, dy] = [places[i].x - places[j].x, places[i].y - places[j].y];
    const distance = Math.max(1, Math.hypot(dx, dy));
    const by = force(distance) / distance;
    moves[i].x += dx * by;
    moves[i].y += dy * by;
    moves[j].x -= dx * by;
    moves[j].y -= dy * by;
}

function settle(places, edges, heat) {
    const length = 800 / Math.sqrt(places.length);
    const moves = places.map(() => ({ x: 0, y: 0 }));
    for (let i = 0; i < places.length; i++) {
        for (let j = 0; j < i; j++) act(moves, places, i, j, (distance) => length ** 2 / distance);
    }
    for (const { from, to } of edges) {
        if (from !== to) act(moves, places, from - 1, to - 1, (distance) => -(distance ** 2) / length);
    }
    for (const [i, { x, y }] of moves.entries()) {
        const by = Math.min(1, heat / Math.max(1, Math.hypot(x, y)));
        places[i].x += x * by;
        places[i].y += y * by;
    }
}

// Stretches places to the whole plane, but for a margin.
function stretch(places) {
    for (const axis of ["x", "y"]) {
        const low = Math.min(...places.map((place) => place[axis]));
        const high = Math.max(...places.map((place) => place[axis]));
        for (const place of places) place[axis] = 40 + (920 * (place[axis] - low + 1)) / (high - low + 2);
    }
}

/**
 * A place for each vertex: its own, or one on a plane of 1000 by 1000.
 * @param {import("./graph.js").Graph} graph
 * @returns {{ x: number, y: number }[]} vertex 1 comes first
 */
export function placesOf({ vertices, edges, places }) {
    const found = circle(vertices);
    if (places.size === 0 && vertices <= MOST) {
        for (let round = ROUNDS; round > 0; round--) settle(found, edges, (100 * round) / ROUNDS);
        stretch(found);
    }
    for (const [vertex, place] of places) if (vertex <= vertices) found[vertex - 1] = place;
    return found;
}
