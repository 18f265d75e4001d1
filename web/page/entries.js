// The entries of a key, worked out apart from the program, so that a run can be drawn: docs/DEFINITIONS.md says how
// they are made. A picture of a run so made ends at the program's sample, or the two don't agree.

const CONSTANTS = [0x61707865, 0x3320646e, 0x79622d32, 0x6b206574];

const rotated = (x, by) => (x << by) | (x >>> (32 - by));

// The quarter round on four words of a state (RFC 8439, 2.1).
function quarterRound(state, a, b, c, d) {
    state[a] += state[b];
    state[d] = rotated(state[d] ^ state[a], 16);
    state[c] += state[d];
    state[b] = rotated(state[b] ^ state[c], 12);
    state[a] += state[b];
    state[d] = rotated(state[d] ^ state[a], 8);
    state[c] += state[d];
    state[b] = rotated(state[b] ^ state[c], 7);
}

/**
 * The 16 words of a block (RFC 8439, 2.3), with a counter and a stream number of 64 bits each in four words.
 * @param {Uint32Array} key 8 words
 * @param {readonly number[]} place the words 12 to 15 of the state
 */
export function block(key, place) {
    const first = Uint32Array.from([...CONSTANTS, ...key, ...place]);
    const state = Uint32Array.from(first);
    for (let round = 0; round < 10; round++) {
        for (let i = 0; i < 4; i++) quarterRound(state, i, i + 4, i + 8, i + 12);
        for (let i = 0; i < 4; i++) quarterRound(state, i, 4 + ((i + 1) % 4), 8 + ((i + 2) % 4), 12 + ((i + 3) % 4));
    }
    return state.map((word, i) => word + first[i]);
}

/** The words of a key, of 64 hexadecimal digits; the first two are byte 0. */
export function keyWords(key) {
    const bytes = Uint8Array.from(key.match(/../g), (digits) => parseInt(digits, 16));
    const view = new DataView(bytes.buffer);
    return Uint32Array.from({ length: 8 }, (_, i) => view.getUint32(4 * i, true));
}

/** The stacks of a key, of variables with weights for their values. */
export class Entries {
    #key;
    #weights;
    #blocks = new Map();

    /**
     * @param {string} key
     * @param {readonly (readonly number[])[]} weights of each variable's values
     */
    constructor(key, weights) {
        this.#key = keyWords(key);
        this.#weights = weights;
    }

    // The number of 64 bits of an entry, of which its value comes. A block has eight.
    #number(variable, entry) {
        const name = `${variable} ${entry >>> 3}`;
        if (!this.#blocks.has(name)) this.#blocks.set(name, block(this.#key, [entry >>> 3, 0, variable, 0]));
        const words = this.#blocks.get(name);
        const at = 2 * (entry & 7);
        return BigInt(words[at]) + (BigInt(words[at + 1]) << 32n);
    }

    /** The value of an entry; variables and entries count from 0. */
    value(variable, entry) {
        const weights = this.#weights[variable];
        const sum = weights.reduce((total, weight) => total + weight, 0);
        const mark = Number((this.#number(variable, entry) * BigInt(sum)) >> 64n);
        let below = 0;
        return weights.findIndex((weight) => (below += weight) > mark);
    }
}
