// SHA-256 (FIPS 180-4), at once: that of crypto.subtle comes later, and seeds are wanted within a call.

const PRIMES = [];
for (let n = 2; PRIMES.length < 64; n++) if (PRIMES.every((p) => n % p !== 0)) PRIMES.push(n);

// The first 32 bits of the fractional part of a root. A double has 53 bits, and the roots are below 8.
const fraction = (x) => ((x - Math.floor(x)) * 2 ** 32) >>> 0;
const START = PRIMES.slice(0, 8).map((p) => fraction(Math.sqrt(p)));
const STEPS = PRIMES.map((p) => fraction(Math.cbrt(p)));

const rotated = (x, by) => (x >>> by) | (x << (32 - by));

// The message in blocks of 16 words, with a bit 1 and its length in bits after it.
function padded(bytes) {
    const view = new DataView(new ArrayBuffer(Math.ceil((bytes.length + 9) / 64) * 64));
    new Uint8Array(view.buffer).set(bytes);
    view.setUint8(bytes.length, 0x80);
    view.setBigUint64(view.byteLength - 8, BigInt(bytes.length) * 8n);
    return view;
}

// The 64 words that the steps of a block take.
function schedule(view, at) {
    const words = new Int32Array(64);
    for (let t = 0; t < 16; t++) words[t] = view.getInt32(at + 4 * t);
    for (let t = 16; t < 64; t++) {
        const [x, y] = [words[t - 15], words[t - 2]];
        const low = rotated(x, 7) ^ rotated(x, 18) ^ (x >>> 3);
        const high = rotated(y, 17) ^ rotated(y, 19) ^ (y >>> 10);
        words[t] = words[t - 16] + low + words[t - 7] + high;
    }
    return words;
}

function compress(state, words) {
    let [a, b, c, d, e, f, g, h] = state;
    for (let t = 0; t < 64; t++) {
        const choice = (e & f) ^ (~e & g);
        const majority = (a & b) ^ (a & c) ^ (b & c);
        const first = (h + (rotated(e, 6) ^ rotated(e, 11) ^ rotated(e, 25)) + choice + STEPS[t] + words[t]) | 0;
        const second = ((rotated(a, 2) ^ rotated(a, 13) ^ rotated(a, 22)) + majority) | 0;
        [a, b, c, d, e, f, g, h] = [(first + second) | 0, a, b, c, (d + first) | 0, e, f, g];
    }
    return [a, b, c, d, e, f, g, h].map((word, i) => (word + state[i]) | 0);
}

/**
 * The hash of some bytes, as 64 hexadecimal digits.
 * @param {Uint8Array} bytes
 */
export function sha256(bytes) {
    const view = padded(bytes);
    let state = START;
    for (let at = 0; at < view.byteLength; at += 64) state = compress(state, schedule(view, at));
    return state.map((word) => (word >>> 0).toString(16).padStart(8, "0")).join("");
}
