// What the pictures share: the canvas in the pixels of the screen, colours of the style sheet, arrows.

/** The colours by name, as the style sheet has them now: `wall` is `--wall`. */
export function palette() {
    const style = getComputedStyle(document.documentElement);
    return new Proxy({}, { get: (_, name) => style.getPropertyValue(`--${name}`).trim() });
}

/**
 * Fits a canvas to its width on the page and a ratio of height to width, and clears it.
 * @returns {{ pen: CanvasRenderingContext2D, width: number, height: number }} in the pixels of the page
 */
export function cleared(canvas, ratio) {
    const scale = devicePixelRatio || 1;
    const width = Math.max(1, canvas.clientWidth);
    canvas.width = Math.round(width * scale);
    canvas.height = Math.round(width * ratio * scale);
    const pen = canvas.getContext("2d");
    pen.scale(canvas.width / width, canvas.height / (width * ratio));
    return { pen, width, height: width * ratio };
}

/** A line between two places. */
export function line(pen, from, to, color, width) {
    pen.strokeStyle = color;
    pen.lineWidth = width;
    pen.lineCap = "round";
    pen.beginPath();
    pen.moveTo(from.x, from.y);
    pen.lineTo(to.x, to.y);
    pen.stroke();
}

/** A line with the head of an arrow, which stops at a distance before the place to which it points. */
export function arrow(pen, from, to, color, width, gap) {
    const angle = Math.atan2(to.y - from.y, to.x - from.x);
    const tip = { x: to.x - gap * Math.cos(angle), y: to.y - gap * Math.sin(angle) };
    const size = 3 + 2.5 * width;
    line(pen, from, { x: tip.x - size * Math.cos(angle), y: tip.y - size * Math.sin(angle) }, color, width);
    pen.fillStyle = color;
    pen.beginPath();
    pen.moveTo(tip.x, tip.y);
    for (const side of [0.45, -0.45]) {
        pen.lineTo(tip.x - size * 1.4 * Math.cos(angle + side), tip.y - size * 1.4 * Math.sin(angle + side));
    }
    pen.fill();
}

/** A disc with a label in it. */
export function disc(pen, at, radius, { fill, stroke, text, label }) {
    pen.fillStyle = fill;
    pen.strokeStyle = stroke;
    pen.lineWidth = 2;
    pen.beginPath();
    pen.arc(at.x, at.y, radius, 0, 2 * Math.PI);
    pen.fill();
    pen.stroke();
    if (radius < 8) return;
    pen.fillStyle = text;
    pen.font = `${Math.round(radius)}px system-ui, sans-serif`;
    pen.textAlign = "center";
    pen.textBaseline = "middle";
    pen.fillText(label, at.x, at.y);
}
