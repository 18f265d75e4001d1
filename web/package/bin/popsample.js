#!/usr/bin/env node
// The program popsample over the module, for Node: `popsample WORD.. < text`. POPSAMPLE_WASM names another module than
// that of the package.
import { readFileSync, writeSync } from "node:fs";
import { pathToFileURL } from "node:url";
import { load } from "../index.js";

// Statuses of the program that the library doesn't have, and that of an argument that isn't UTF-8, which Node decodes
// with this character.
const READ_FAULT = 7;
const WRITE_FAULT = 8;
const NOT_BEGUN = 9;
const NOT_UTF_8 = "\ufffd";

function write(text) {
    const bytes = Buffer.from(text);
    try {
        for (let done = 0; done < bytes.length; ) done += writeSync(1, bytes, done);
    } catch {
        process.exit(WRITE_FAULT);
    }
}

const words = process.argv.slice(2);
if (words.some((word) => word.includes(NOT_UTF_8))) process.exit(NOT_BEGUN);
const named = process.env.POPSAMPLE_WASM;
const popsample = await load(named ? pathToFileURL(named) : undefined);
let text = "";
try {
    if (words[0] !== "make") text = readFileSync(0);
} catch {
    write("s READFAULT\n");
    process.exit(READ_FAULT);
}
const { status, output } = popsample.run(words, text);
write(output);
process.exitCode = status;
