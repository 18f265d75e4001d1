// Solutions of a formula: the value of a variable is 1 if it is true, and else 0.
import { drawFormula } from "./draw_formula.js";

/** The clauses of a text in DIMACS CNF, and the number of variables. */
export function readFormula(text) {
    const lines = text.split("\n").filter((line) => !/^[ \t\r]*(c|$)/.test(line));
    const end = lines.findIndex((line) => /^[ \t\r]*%/.test(line));
    const variables = Number(lines[0]?.trim().split(/[ \t]+/)[2]) || 0;
    const clauses = [];
    let clause = [];
    for (const word of lines.slice(1, end < 0 ? undefined : end).join(" ").split(/[ \t\r]+/)) {
        if (Number(word) === 0) {
            if (word !== "") clauses.push(clause.splice(0));
        } else clause.push(Number(word));
    }
    if (clause.length > 0) clauses.push(clause);
    return { variables, clauses };
}

/** Whether a literal is true under values that count from 0. */
export const holds = (literal, values) => (literal > 0) === (values[Math.abs(literal) - 1] === 1);

export class FormulaSubject {
    constructor(text) {
        this.formula = readFormula(text);
        this.names = Array.from({ length: this.formula.variables }, (_, i) => i + 1);
        this.weights = this.names.map(() => [1, 1]);
        this.event = ["false clause", "false clauses"];
    }

    sampled(output) {
        const [, literals] = /^v (.*)$/m.exec(output);
        return literals.split(" ").slice(0, -1).map((literal) => Number(Number(literal) > 0));
    }

    draw(canvas, values, popped) {
        drawFormula(canvas, this.formula, values, popped);
    }

    told() {
        return `A solution for ${this.formula.variables} variables: each clause has a true literal`;
    }
}
