// Lowers the tables of a module from 64 bits to 32, for engines and tools that know 64 bits only for memories:
//
//     node web/lower_tables.mjs IN OUT
//
// A table of 64 bits becomes one of 32, and each index of a call through it is cut to 32 bits. An instruction or a
// segment of a kind that it doesn't know is refused. The numbers are those of the WebAssembly core specification.
import { readFileSync, writeFileSync } from "node:fs";

const [from, to] = process.argv.slice(2);
const bytes = readFileSync(from);
let at = 8;

const byte = () => bytes[at++];
function unsigned() {
    let value = 0n;
    for (let shift = 0n; ; shift += 7n) {
        const next = byte();
        value |= BigInt(next & 127) << shift;
        if (next < 128) return Number(value);
    }
}
const passLeb = () => {
    while (byte() >= 128);
};
const passLebs = (count) => {
    for (let i = 0; i < count; i++) passLeb();
};
function leb(value) {
    const written = [];
    for (; value >= 128; value = Math.floor(value / 128)) written.push((value % 128) | 128);
    return [...written, value];
}
const refuse = (what) => {
    throw new Error(`${from}: ${what} at ${at}`);
};

// Passes an instruction, and says whether it is a call through a table.
function passInstruction() {
    const code = byte();
    if (code === 0x11) {
        passLebs(2);
        return true;
    }
    if ((code >= 0x02 && code <= 0x04) || code === 0x0c || code === 0x0d || code === 0x10) passLeb();
    else if (code === 0x0e) passLebs(unsigned() + 1);
    else if (code === 0x1c) passLebs(unsigned());
    else if (code >= 0x20 && code <= 0x24) passLeb();
    else if (code >= 0x28 && code <= 0x3e) passLebs(2);
    else if (code >= 0x3f && code <= 0x42) passLeb();
    else if (code === 0x43) at += 4;
    else if (code === 0x44) at += 8;
    else if (code === 0xfc) {
        const more = unsigned();
        if (more >= 8) passLebs(more === 8 || more === 10 ? 2 : more === 9 || more === 11 ? 1 : refuse(`0xfc ${more}`));
    } else if (code === 0xfd) {
        const more = unsigned(); // of vectors
        if (more <= 11 || more === 92 || more === 93) passLebs(2);
        else if (more === 12 || more === 13) at += 16;
        else if (more >= 21 && more <= 34) at += 1;
        else if (more >= 84 && more <= 91) {
            passLebs(2);
            at += 1;
        }
    } else if (code > 0xc4 || code === 0x12 || code === 0x13 || code === 0x25 || code === 0x26) refuse(`code ${code}`);
    return false;
}

// The body of a function, with the index of each call through a table cut.
function loweredBody() {
    const end = unsigned() + at;
    const parts = [];
    let kept = at;
    for (let groups = unsigned(); groups > 0; groups--) passLebs(2);
    while (at < end) {
        const here = at;
        if (passInstruction()) {
            parts.push(bytes.subarray(kept, here), Uint8Array.of(0xa7)); // i32.wrap_i64
            kept = here;
        }
    }
    parts.push(bytes.subarray(kept, end));
    const body = Buffer.concat(parts);
    return Buffer.concat([Uint8Array.from(leb(body.length)), body]);
}

function loweredTables(end) {
    const copy = Buffer.from(bytes.subarray(at, end));
    const begin = at;
    for (let tables = unsigned(); tables > 0; tables--) {
        if (byte() !== 0x70) refuse("a table of another kind");
        copy[at - begin] &= ~4;
        passLebs(1 + (byte() & 1));
    }
    return copy;
}

function loweredElements(end) {
    const copy = Buffer.from(bytes.subarray(at, end));
    const begin = at;
    for (let segments = unsigned(); segments > 0; segments--) {
        if (unsigned() !== 0 || bytes[at] !== 0x42) refuse("a segment of another kind");
        copy[at - begin] = 0x41; // i32.const
        at++;
        passLebs(1);
        if (byte() !== 0x0b) refuse("an offset that is no number");
        passLebs(unsigned());
    }
    return copy;
}

const parts = [bytes.subarray(0, 8)];
let calls = 0;
while (at < bytes.length) {
    const id = byte();
    const end = unsigned() + at;
    let section;
    if (id === 4) section = loweredTables(end);
    else if (id === 9) section = loweredElements(end);
    else if (id === 10) {
        const bodies = [];
        for (let count = unsigned(); count > 0; count--) bodies.push(loweredBody());
        section = Buffer.concat([Uint8Array.from(leb(bodies.length)), ...bodies]);
        calls = section.length - (end - at);
    } else section = bytes.subarray(at, end);
    parts.push(Uint8Array.from([id, ...leb(section.length)]), section);
    at = end;
}
writeFileSync(to, Buffer.concat(parts));
