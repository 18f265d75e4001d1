/** Options of every call that samples. `key` and `seed` exclude each other; without both a random key is generated. */
export interface SampleOptions {
    /** 64 hexadecimal digits, or 32 bytes: the same key and input give the same sample. */
    key?: string | Uint8Array;
    /** An integer of 0 or more, of which a key is made as in the Python module. */
    seed?: number | bigint;
    /** The number of entries of each stack, from 1 to 2147483647; 1048576 by default. */
    height?: number;
}

export interface GraphOptions extends SampleOptions {
    /** The number of vertices; by default 1 more than the greatest vertex of an edge. */
    vertices?: number;
}

export interface TreeOptions extends GraphOptions {
    /** The root, a vertex from 0 on; 0 by default. */
    root?: number;
    /** A weight for each edge, an integer from 1 to 4294967295; 1 by default. */
    weights?: Iterable<number>;
}

export interface FormulaOptions extends SampleOptions {
    /** The number of variables; by default the greatest one of a literal. */
    variables?: number;
}

/** Edges as pairs of vertices, which count from 0, or the ends of all edges one after the other. */
export type Edges = Iterable<readonly [number, number]> | Uint32Array | Int32Array | Uint16Array | Uint8Array;

export interface SpanningTree {
    key: string;
    /** For each vertex the next vertex on the way to the root, and -1 at the root. */
    parents: Int32Array;
    /** For each vertex the number of the edge to its parent, from 0, and -1 at the root. */
    edges: Int32Array;
    /** For each vertex how many of its stack entries were popped, 0 at the root. */
    used: Uint32Array;
    /** The number of cycles that were popped. */
    pops: number;
}

export interface Orientation {
    key: string;
    /** For each edge 0 if it points from its first vertex to its second, and 1 if it points back. */
    directions: Uint8Array;
    /** For each edge how many of its stack entries were popped. */
    used: Uint32Array;
    /** The number of sinks that were popped. */
    pops: number;
}

export interface Solution {
    key: string;
    /** For each variable, `values[0]` for variable 1, 1 if it is true and 0 if it is false. */
    values: Uint8Array;
    /** For each variable how many of its stack entries were used up. */
    used: Uint32Array;
    /** The number of rounds. */
    rounds: number;
}

export interface Answer {
    /** The status of the program, and 13 if the arguments aren't UTF-8. */
    status: number;
    /** What the program prints. */
    output: string;
}

/** The error for an output that is no sample; its message is the sentence of the reference. */
export class RefusalError extends Error {
    readonly status: number;
    /** The word of the first line that names the cause, such as `CUTOFF`. */
    readonly code: string;
    /** The numbers of the first line, as the program counts: vertices, variables and lines from 1. */
    readonly numbers: number[];
    readonly output: string;
}

export class Popsample {
    constructor(module: WebAssembly.Module);
    /** How the module was built and what it was compared with. */
    readonly label: string;
    /** What the program prints for these arguments and this input, with its status. It throws no RefusalError. */
    run(words: readonly string[], text?: string | Uint8Array): Answer;
    /** Throws RefusalError if there is no spanning tree, and TypeError or RangeError for wrong arguments. */
    spanningTree(edges: Edges, options?: TreeOptions): SpanningTree;
    /** Throws RefusalError if each orientation has a sink, and TypeError or RangeError for wrong arguments. */
    orientation(edges: Edges, options?: GraphOptions): Orientation;
    /** Throws RefusalError if no solution is found, and TypeError or RangeError for wrong arguments. */
    solution(clauses: Iterable<Iterable<number>>, options?: FormulaOptions): Solution;
}

/** Compiles the module that the engine can run, or the one that is named. */
export function load(source?: URL | BufferSource | WebAssembly.Module): Promise<Popsample>;

/** A new key, of the system's randomness. */
export function randomKey(): string;

/** The key of a seed. */
export function seedKey(seed: number | bigint): string;

/** The error for an answer of `run` to these arguments and this input, or null if it refuses nothing. */
export function refusalOf(words: readonly string[], text: string, answer: Answer): RefusalError | null;
