// Keys: 64 hexadecimal digits, of which all entries come.
import { sha256 } from "./sha256.js";

const FORM = /^[0-9a-fA-F]{64}$/;

const hexOf = (bytes) => Array.from(bytes, (byte) => byte.toString(16).padStart(2, "0")).join("");

/** A new key, of the system's randomness. */
export function randomKey() {
    return hexOf(crypto.getRandomValues(new Uint8Array(32)));
}

/**
 * The key of a seed, an integer of 0 or more: the SHA-256 hash of the text `popsample seed N`, with N in decimal
 * digits. The Python module makes the same keys.
 * @param {number | bigint} seed
 */
export function seedKey(seed) {
    if (!(typeof seed === "bigint" ? seed >= 0n : Number.isSafeInteger(seed) && seed >= 0)) {
        throw new RangeError(`seed must be an integer of 0 or more, not ${seed}`);
    }
    return sha256(new TextEncoder().encode(`popsample seed ${seed}`));
}

/**
 * The key that a call asks for: that of `key` or `seed`, or a new one.
 * @param {{ key?: string | Uint8Array, seed?: number | bigint }} options
 */
export function keyOf({ key, seed }) {
    if (key !== undefined && seed !== undefined) throw new TypeError("key and seed exclude each other");
    if (seed !== undefined) return seedKey(seed);
    if (key === undefined) return randomKey();
    const digits = typeof key === "string" ? key : hexOf(key);
    if (!FORM.test(digits)) throw new RangeError("key must be 64 hexadecimal digits or 32 bytes");
    return digits.toLowerCase();
}

/** The 32 bytes of a key. */
export function bytesOf(key) {
    return Uint8Array.from(key.match(/../g), (digits) => parseInt(digits, 16));
}
