// Puts into a module how it was built and what it was compared with, as the custom section `popsample`:
//
//     node web/label.mjs MODULE
//
// The package shows it as `label`.
import { appendFileSync, readFileSync } from "node:fs";
import { basename } from "node:path";

const [path] = process.argv.slice(2);
const version = readFileSync(new URL("../VERSION", import.meta.url), "utf8").trim();
const bits = basename(path).includes("32") ? 32 : 64;
const label = `popsample ${version} for WebAssembly with ${bits} bits. It was built outside the gate's compiler call,
from the code of the proved crates, and compared with the expected outputs of all cases in examples/cases.
`;

// An unsigned number in LEB128.
function leb(value) {
    return value < 128 ? [value] : [(value % 128) | 128, ...leb(Math.floor(value / 128))];
}

const [name, content] = ["popsample", label].map((text) => Buffer.from(text));
const section = Buffer.concat([Uint8Array.from(leb(name.length)), name, content]);
appendFileSync(path, Buffer.concat([Uint8Array.from([0, ...leb(section.length)]), section]));
