// A formula as a table: a row for each clause, a column for each variable. The first row has the variables' values.
import { cleared, palette } from "./drawing.js";
import { holds } from "./formula_subject.js";

const MOST_ROWS = 60;
const LARGEST = 44;

// A literal in its box: a disc for a plain one, a ring with a bar for a negated one, full if it is true.
function drawLiteral(pen, x, y, size, literal, isTrue, color) {
    pen.strokeStyle = pen.fillStyle = color;
    pen.lineWidth = Math.max(1.5, size / 10);
    pen.beginPath();
    pen.arc(x + size / 2, y + size / 2, size * 0.3, 0, 2 * Math.PI);
    pen.stroke();
    if (isTrue) pen.fill();
    if (literal > 0) return;
    pen.beginPath();
    pen.moveTo(x + size * 0.25, y + size * 0.08);
    pen.lineTo(x + size * 0.75, y + size * 0.08);
    pen.stroke();
}

function drawValue(pen, x, y, size, value, colors, isPopped) {
    pen.fillStyle = isPopped ? colors.popped : value === 1 ? colors.accent : colors.ground;
    pen.strokeStyle = isPopped ? colors.popped : colors.accent;
    pen.lineWidth = 2;
    pen.fillRect(x + 2, y + 2, size - 4, size - 4);
    pen.strokeRect(x + 2, y + 2, size - 4, size - 4);
    if (size < 14) return;
    pen.fillStyle = isPopped || value === 1 ? colors["on-accent"] : colors.text;
    pen.font = `${Math.round(size * 0.5)}px system-ui, sans-serif`;
    pen.textAlign = "center";
    pen.textBaseline = "middle";
    pen.fillText(value === 1 ? "T" : "F", x + size / 2, y + size / 2 + 1);
}

/** Draws values beside the clauses; a false clause and the variables that are popped next are marked. */
export function drawFormula(canvas, { variables, clauses }, values, popped) {
    const colors = palette();
    const shown = clauses.slice(0, MOST_ROWS);
    const size = Math.min(canvas.clientWidth / Math.max(variables, 1), LARGEST);
    const { pen, width } = cleared(canvas, (size * (shown.length + 1.5)) / canvas.clientWidth);
    const left = (width - size * variables) / 2;
    for (const [i, value] of values.entries()) {
        drawValue(pen, left + i * size, 0, size, value, colors, popped.has(i + 1));
    }
    for (const [row, clause] of shown.entries()) {
        const y = size * (row + 1.5);
        const isTrue = clause.some((literal) => holds(literal, values));
        pen.fillStyle = isTrue ? colors.panel : colors.popped;
        pen.globalAlpha = isTrue ? 1 : 0.25;
        pen.fillRect(left, y + 1, size * variables, size - 2);
        pen.globalAlpha = 1;
        for (const literal of clause) {
            const x = left + (Math.abs(literal) - 1) * size;
            drawLiteral(pen, x, y, size, literal, holds(literal, values), isTrue ? colors.arrow : colors.popped);
        }
    }
}
