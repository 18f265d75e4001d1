// Writes the sentences of the reference as a module, so that the package has no words of its own for what it refuses:
//
//     node web/sentences.mjs > OUT/sentences.js
//
// Of docs/FORMATS.md it takes the table under `## Answers`, that of the codes of malformed lines and that of the
// limits.
import { readFileSync } from "node:fs";

const reference = readFileSync(new URL("../docs/FORMATS.md", import.meta.url), "utf8");

// The cells of each row of the tables whose first heading is this word.
function rowsUnder(heading) {
    const rows = [];
    let within = false;
    for (const line of reference.split("\n")) {
        const cells = line.startsWith("|") ? line.split(/(?<!\\)\|/).slice(1, -1).map((cell) => cell.trim()) : null;
        if (cells === null) within = false;
        else if (cells[0] === heading) within = true;
        else if (within && /^\d/.test(cells[0])) rows.push(cells);
    }
    if (rows.length === 0) throw new Error(`docs/FORMATS.md has no table under ${heading}`);
    return rows;
}

// The statuses of a row, and the first lines that it names: `s LIMIT 7 1`, or none.
function answersOf([statuses, first, sentence]) {
    const forms = Array.from(first.matchAll(/`([^`]+)`/g), ([, form]) => form);
    const numbers = statuses.split(",").map(Number);
    return numbers.flatMap((status) => forms.map((form) => ({ status, form, sentence: sentence.replaceAll("`", "") })));
}

const byNumber = (rows) => Object.fromEntries(rows.map(([number, words]) => [number, words.replaceAll("`", "")]));

const tables = {
    ANSWERS: rowsUnder("Status").flatMap(answersOf),
    REASONS: byNumber(rowsUnder("Code")),
    LIMITS: byNumber(rowsUnder("Kind")),
};
process.stdout.write("// Made of docs/FORMATS.md: answers and their sentences, codes of malformed lines, and limits.\n");
for (const [name, table] of Object.entries(tables)) {
    process.stdout.write(`export const ${name} = ${JSON.stringify(table, null, 4)};\n`);
}
