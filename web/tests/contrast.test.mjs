// The colours of the page stand out as WCAG 2.2 asks at AA: 4.5 to 1 for text, 3 to 1 for what a picture shows.
import assert from "node:assert/strict";
import { readFileSync } from "node:fs";
import { test } from "node:test";

const style = readFileSync(new URL("../page/style.css", import.meta.url), "utf8");
const [light, dark] = Array.from(style.matchAll(/:root \{([^}]*)\}/g), ([, block]) =>
    Object.fromEntries(Array.from(block.matchAll(/--([a-z-]+): (#[0-9a-f]{6})/g), ([, name, color]) => [name, color])),
);

const TEXTS = [
    ...["text", "quiet", "error", "accent"].flatMap((name) => [[name, "ground"], [name, "panel"]]),
    ["on-accent", "accent"],
    ["on-accent", "popped"],
];
const SHAPES = [
    ["border", "ground"], ["border", "panel"], ["wall", "room"], ["wall", "open-room"], ["popped", "room"],
    ["accent", "room"], ["arrow", "ground"], ["popped", "ground"], ["popped", "panel"], ["edge", "ground"],
    ["bar", "panel"], ["line", "panel"], ["line", "bar"], ["arrow", "panel"],
];

// Relative luminance (WCAG 2.2, definitions).
function luminance(color) {
    const parts = [1, 3, 5].map((at) => parseInt(color.slice(at, at + 2), 16) / 255);
    const [red, green, blue] = parts.map((part) => (part <= 0.04045 ? part / 12.92 : ((part + 0.055) / 1.055) ** 2.4));
    return 0.2126 * red + 0.7152 * green + 0.0722 * blue;
}

function contrast(one, other) {
    const [low, high] = [luminance(one), luminance(other)].sort((a, b) => a - b);
    return (high + 0.05) / (low + 0.05);
}

for (const [theme, colors] of Object.entries({ light, dark })) {
    for (const [pairs, least] of [[TEXTS, 4.5], [SHAPES, 3]]) {
        test(`${theme}: ${least} to 1`, () => {
            for (const [one, other] of pairs) {
                const ratio = contrast(colors[one], colors[other]);
                assert.ok(ratio >= least, `${one} on ${other}: ${ratio.toFixed(2)}`);
            }
        });
    }
}
