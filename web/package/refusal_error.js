// The error for each output that is no sample, with the sentence of docs/FORMATS.md.
import { ANSWERS, LIMITS, REASONS } from "./sentences.js";

const PLACEHOLDER = /\b[A-Z]+\b/g;
const NUMBER = /^[A-Z]$/;

/** An output that is no sample. Its message is the sentence of the reference for the first line. */
export class RefusalError extends Error {
    /**
     * @param {string} message
     * @param {{ status: number, output: string, code: string, numbers: number[] }} what
     */
    constructor(message, { status, output, code, numbers }) {
        super(message);
        this.name = "RefusalError";
        /** The status of the program. */
        this.status = status;
        /** The word of the first line that names the cause, such as `CUTOFF`. */
        this.code = code;
        /** The numbers of the first line, as the program counts: vertices, variables and lines from 1. */
        this.numbers = numbers;
        /** The output as it was printed. */
        this.output = output;
    }
}

// The numbers of a first line by the letters of a form, as `s LIMIT K L` names them, or null if it is of another form.
function readBy(form, line) {
    const [wanted, given] = [form.split(" "), line.split(" ")];
    if (wanted.length !== given.length) return null;
    const numbers = {};
    for (const [i, word] of wanted.entries()) {
        if (NUMBER.test(word)) numbers[word] = Number(given[i]);
        else if (word !== given[i]) return null;
    }
    return numbers;
}

// The entry of the reference for an output, and the numbers of its first line. A form without letters goes first.
function entryOf(status, line) {
    let found = null;
    for (const { form, ...entry } of ANSWERS) {
        const letters = entry.status === status ? readBy(form, line) : null;
        if (letters && (found === null || Object.keys(letters).length < Object.keys(found.letters).length)) {
            found = { ...entry, form, letters };
        }
    }
    return found;
}

const lineAt = (text, number) => text.split("\n")[number - 1];
const quoted = (line) => (line === undefined || line === "" ? "after its end" : JSON.stringify(line));

// The part of a text in which lines are counted, with its name. Of a certificate it depends on the code: 21 and 22 are
// of the certificate itself, 31 and 32 of its log, and the others of its input.
function partOf(words, text, code) {
    if (words[0] !== "replay" && words[0] !== "resume") return ["the text", text];
    if (code === 21 || code === 22) return ["the certificate", text];
    const [head, size] = /^(?:.*\n){2,4}?input (\d+)\n/.exec(text);
    const bytes = new TextEncoder().encode(text.slice(head.length));
    const decoded = (from, to) => new TextDecoder().decode(bytes.subarray(from, to));
    return code >= 31 ? ["the log", decoded(Number(size))] : ["the input", decoded(0, Number(size))];
}

// What comes first in a list `stuck ..`: a clause, a vertex, or the vertices of a cycle.
function stuckOf(words, output, subject) {
    const [, first] = /^stuck (.*)$/m.exec(output) ?? [];
    const command = words[0];
    if (first === undefined) return "an event";
    if (command === "tree") return `the cycle of the vertices ${first.split(" ").map(subject.vertex).join(", ")}`;
    if (command === "make") return `one of ${first} cycles`;
    return command === "orient" ? `vertex ${subject.vertex(first)}` : `clause ${first}`;
}

// The literals of a clause, which counts from 1, of a text that was read.
function clauseOf(text, number) {
    const lines = text.split("\n").filter((line) => !/^[ \t\r]*(c|$)/.test(line));
    const end = lines.findIndex((line, i) => i > 0 && /^[ \t\r]*%/.test(line));
    const clauses = [[]];
    for (const literal of lines.slice(1, end < 0 ? undefined : end).join(" ").match(/[^ \t\r]+/g) ?? []) {
        if (Number(literal) === 0) clauses.push([]);
        else clauses.at(-1).push(literal);
    }
    return clauses[number - 1].join(" ");
}

// What the words in capitals of a sentence mean.
function meaningsOf(words, text, { output, status }, { letters }, subject) {
    const { I, J, K, L, P, V } = letters;
    const meanings = { ...letters, STUCK: stuckOf(words, output, subject) };
    if (P !== undefined) meanings.WORD = P > words.length ? "the end" : JSON.stringify(words[P - 1]);
    if (status === 3 && L !== undefined) {
        const [name, part] = partOf(words, text, letters.C);
        Object.assign(meanings, { PART: name, TEXT: quoted(lineAt(part, L)), WHY: REASONS[letters.C] });
    }
    if (status === 4) {
        const kind = K ?? Number(output.split(" ")[2]);
        meanings.WHICH = LIMITS[kind].split(";")[0];
        meanings.PLACE = kind === 6 ? `vertex ${subject.vertex(L)}` : `line ${L}`;
    }
    if (status === 5) Object.assign(meanings, { FIRST: clauseOf(text, I), SECOND: clauseOf(text, J) });
    if (status === 11) meanings.TEXT = quoted(lineAt(partOf(words, text, 31)[1], I + 1));
    if (status === 6 && V !== undefined) meanings.V = subject.vertex(V);
    if (status === 6 && letters.R !== undefined) meanings.R = subject.vertex(letters.R);
    return meanings;
}

// The line that says what an output means: the first one, but of a batch that of its first exhausted sample. Without
// memory there is none, and a witness that isn't there follows a sample.
function tellingLine({ status, output }) {
    const [line] = output.split("\n", 1);
    if (line === "") return "s MEMORY";
    if (line.startsWith("batch ")) return "s EXHAUSTED";
    return (status === 6 && /^witness none .*$/m.exec(output)?.[0]) || line;
}

/** In texts vertices have their own numbers. */
export const AS_WRITTEN = { vertex: Number };

/** In arrays vertices count from 0. */
export const FROM_ZERO = { vertex: (number) => Number(number) - 1 };

/**
 * The error for an output, or null if it refuses nothing.
 * @param {readonly string[]} words
 * @param {string} text
 * @param {{ status: number, output: string }} answer
 * @param {{ vertex: (number: number | string) => number }} subject
 */
export function refusalOf(words, text, answer, subject = AS_WRITTEN) {
    const { status, output } = answer;
    if (status === 0) return null;
    const line = tellingLine(answer);
    const entry = entryOf(status, line);
    if (entry === null) {
        const what = { ...answer, code: "", numbers: [] };
        return new RefusalError(`The status is ${status}, and the output begins with "${line}".`, what);
    }
    const meanings = meaningsOf(words, text, answer, entry, subject);
    const message = entry.sentence.replace(PLACEHOLDER, (word) => String(meanings[word] ?? word));
    const [, code] = entry.form.split(" ");
    return new RefusalError(message, { ...answer, code, numbers: Object.values(entry.letters) });
}
