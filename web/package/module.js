// A compiled module of popsample, and its calls with arguments and texts, which docs/FORMATS.md has.
import { Instance, NoMemoryError } from "./instance.js";

/** The status of a call that found no memory. */
export const MEMORY = 9;

const NO_ROOM = 12;

const LEAST_ROOM = 1 << 20;
const PAGE = 65536;

// The smallest module with a memory and a table of 64 bits and a vector: an engine that takes it runs popsample.wasm.
const PROBE = Uint8Array.of(
    ...[0, 97, 115, 109, 1, 0, 0, 0, 1, 5, 1, 96, 0, 1, 123, 3, 2, 1, 0, 4, 4, 1, 112, 4, 0, 5, 3, 1, 4, 1],
    ...[10, 8, 1, 6, 0, 65, 0, 253, 15, 11],
);

/** The file beside this one that the engine can run: 64 bits with vectors, or the portable 32 bits. */
export function ownModule() {
    return WebAssembly.validate(PROBE)
        ? new URL("./popsample.wasm", import.meta.url)
        : new URL("./popsample32.wasm", import.meta.url);
}

async function bytesOf(url) {
    if (url.protocol === "file:") {
        const { readFile } = await import("node:fs/promises");
        return readFile(url);
    }
    const answer = await fetch(url);
    if (!answer.ok) throw new Error(`${url} isn't there: status ${answer.status}`);
    return answer.arrayBuffer();
}

/**
 * Compiles a module.
 * @param {URL | BufferSource | WebAssembly.Module} source
 * @returns {Promise<WebAssembly.Module>}
 */
export async function compiled(source) {
    if (source instanceof WebAssembly.Module) return source;
    return WebAssembly.compile(source instanceof URL ? await bytesOf(source) : source);
}

/** How the module was built, as it says itself in the section `popsample`. */
export function labelOf(module) {
    const [label] = WebAssembly.Module.customSections(module, "popsample");
    return label === undefined ? "" : new TextDecoder().decode(label);
}

/**
 * Answers as the program does.
 * @param {WebAssembly.Module} module
 * @param {readonly string[]} words
 * @param {string | Uint8Array} text
 * @returns {{ status: number, output: string }}
 */
export function answerOf(module, words, text) {
    try {
        return answerIn(new Instance(module), words, text);
    } catch (error) {
        if (error instanceof NoMemoryError) return { status: MEMORY, output: "" };
        throw error;
    }
}

function answerIn(instance, words, text) {
    const encoder = new TextEncoder();
    const lent = [
        ...instance.lend(encoder.encode(words.map((word) => `${word}\0`).join(""))),
        ...instance.lend(typeof text === "string" ? encoder.encode(text) : text),
    ];
    const written = instance.take(8);
    for (let room = LEAST_ROOM; ; ) {
        const output = instance.take(room);
        const status = instance.call("popsample_run", ...lent, output, BigInt(room), written);
        const length = Number(instance.seen(BigUint64Array, written, 1)[0]);
        if (status !== NO_ROOM) {
            const bytes = instance.seen(Uint8Array, output, status < NO_ROOM ? length : 0);
            return { status, output: new TextDecoder().decode(bytes) };
        }
        room = Math.ceil(length / PAGE) * PAGE;
    }
}
