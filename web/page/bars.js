// A histogram as a picture, and as a table for whoever can't see it.

const SVG = "http://www.w3.org/2000/svg";
// The units of the picture, which is stretched to its place.
const [WIDTH, HEIGHT] = [640, 240];

function shape(name, attributes) {
    const element = document.createElementNS(SVG, name);
    for (const [key, value] of Object.entries(attributes)) element.setAttribute(key, value);
    return element;
}

// The greatest number that is shown, of samples that came or are expected.
const greatest = (rows) => Math.max(...rows.map(({ count, expected }) => Math.max(count, expected)), 1);

function picture(rows, total) {
    const box = { viewBox: `0 0 ${WIDTH} ${HEIGHT}`, preserveAspectRatio: "none" };
    const svg = shape("svg", { ...box, role: "img", "aria-labelledby": "said" });
    const most = greatest(rows);
    const step = WIDTH / rows.length;
    const y = (value) => HEIGHT - ((HEIGHT - 4) * value) / most;
    for (const [i, { count, expected, shown }] of rows.entries()) {
        const width = step * 0.8;
        const bar = shape("rect", { x: i * step + step * 0.1, y: y(count), width, height: y(0) - y(count) });
        const title = shape("title", {});
        title.textContent = `${shown}: ${count} of ${total}, expected ${expected.toFixed(1)}`;
        bar.append(title);
        svg.append(bar, shape("line", { x1: i * step, x2: (i + 1) * step, y1: y(expected), y2: y(expected) }));
    }
    return svg;
}

function table(rows) {
    const element = document.createElement("table");
    const add = (tag, cells) => {
        const row = element.insertRow();
        for (const cell of cells) {
            const one = document.createElement(tag);
            one.textContent = cell;
            row.append(one);
        }
    };
    add("th", ["outcome", "weight", "expected", "came"]);
    for (const { shown, weight, expected, count } of rows) add("td", [shown, weight, expected.toFixed(1), count]);
    return element;
}

/**
 * Shows a histogram in an element.
 * @param {HTMLElement} place
 * @param {{ shown: string, weight: number, expected: number, count: number }[]} rows
 * @param {number} total
 */
export function showBars(place, rows, total) {
    const details = document.createElement("details");
    const summary = document.createElement("summary");
    summary.textContent = "The numbers as a table";
    const scrolled = document.createElement("div");
    scrolled.className = "table";
    scrolled.tabIndex = 0;
    scrolled.append(table(rows));
    details.append(summary, scrolled);
    const scale = document.createElement("p");
    scale.className = "hint";
    scale.textContent = `The top of the picture is ${Math.round(greatest(rows))} samples.`;
    place.replaceChildren(picture(rows, total), scale, details);
}
