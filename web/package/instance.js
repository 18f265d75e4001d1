// An instance of a module, for one call.

/** The module has no memory left. */
export class NoMemoryError extends Error {}

/**
 * Each call has an instance, and so a memory, of its own, which is let go at its end: what one call leaves, no other
 * one finds. Pointers and lengths have 64 bits in both modules.
 */
export class Instance {
    #exports;

    /** @param {WebAssembly.Module} module */
    constructor(module) {
        this.#exports = new WebAssembly.Instance(module).exports;
    }

    /** Room for so many bytes, which fits numbers of any size. */
    take(bytes) {
        const at = this.#exports.malloc(BigInt(bytes));
        if (at === 0n) throw new NoMemoryError();
        return at;
    }

    /** Copies an array of numbers, and gives the arguments for it: where they are, and how many. */
    lend(numbers) {
        const at = this.take(numbers.byteLength);
        const bytes = new Uint8Array(numbers.buffer, numbers.byteOffset, numbers.byteLength);
        this.seen(Uint8Array, at, bytes.length).set(bytes);
        return [at, BigInt(numbers.length)];
    }

    /** So many numbers in the memory, which may have moved after a call. */
    seen(Numbers, at, count) {
        return new Numbers(this.#exports.memory.buffer, Number(at), count);
    }

    /** Calls an export, and returns its status. */
    call(name, ...values) {
        return this.#exports[name](...values);
    }
}
