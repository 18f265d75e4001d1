// The cases of examples/cases, run by the package:
//
//     node web/cases.mjs PACKAGE MODULE    runs them by a module, under Node
//     node web/cases.mjs --json            prints them for a browser
//
// PACKAGE is the folder that build.sh made, MODULE a file in it. The status is 0 if all agree.
import { existsSync, readFileSync, readdirSync } from "node:fs";
import { resolve } from "node:path";
import { pathToFileURL } from "node:url";
import { compare } from "./compare.mjs";

const folder = new URL("../examples/cases/", import.meta.url);

// The command of a case, what it prints and its status: examples/cases/README.md has the form.
function partsOf(name) {
    const lines = readFileSync(new URL(`${name}.case`, folder), "utf8").trimEnd().split("\n");
    const [, command, file] = /^\$ popsample (.*?)(?: < (\S+))?$/.exec(lines.shift());
    const status = Number(/^status (\d+)$/.exec(lines.pop())[1]);
    return { name, words: command.split(" "), file, wanted: lines.map((line) => `${line}\n`).join(""), status };
}

// An input: an example, a certificate, or what another case prints.
function inputOf(file) {
    if (file === undefined) return "";
    if (file.endsWith(".out")) return partsOf(file.slice(0, -4)).wanted;
    const beside = new URL(file, folder);
    return readFileSync(existsSync(beside) ? beside : new URL(`../${file}`, folder), "utf8");
}

const cases = readdirSync(folder)
    .filter((file) => file.endsWith(".case"))
    .map((file) => partsOf(file.slice(0, -5)))
    .map(({ file, ...parts }) => ({ ...parts, text: inputOf(file) }));

if (process.argv[2] === "--json") {
    process.stdout.write(JSON.stringify(cases));
} else {
    const [packed, module] = process.argv.slice(2).map((path) => pathToFileURL(resolve(path)));
    const { load } = await import(new URL("index.js", `${packed}/`));
    const { differ, told } = compare(await load(module), cases);
    console.log(told);
    process.exitCode = differ === 0 ? 0 : 1;
}
