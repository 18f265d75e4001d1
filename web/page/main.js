// The page: reads what is asked for, has the worker sample it, and shows the sample.
import { readAddress, writeAddress } from "./address.js";
import { showBars } from "./bars.js";
import { Editor } from "./editor.js";
import { EXAMPLE_FORMULA, EXAMPLE_GRAPH } from "./examples.js";
import { FormulaSubject } from "./formula_subject.js";
import { grid, readGraph, writeGraph } from "./graph.js";
import { MazeSubject } from "./maze_subject.js";
import { OrientationSubject } from "./orientation_subject.js";
import { chiSquared, countsOf, MOST, outcomesOf } from "./outcomes.js";
import { Player } from "./player.js";
import { randomKey } from "./popsample/index.js";
import { ownModule } from "./popsample/module.js";
import { Run } from "./run.js";
import { Sampler } from "./sampler.js";
import { TreeSubject } from "./tree_subject.js";

const CLASH = 5;
const KEY = /^[0-9a-fA-F]{64}$/;

const byId = (id) => document.getElementById(id);
const mode = () => document.querySelector("[name=mode]:checked").value;
const isOfFormula = () => mode() === "formula" || (mode() === "histogram" && byId("what").value === "formula");

const ownFile = () => ownModule().pathname.split("/").pop();
const sampler = new Sampler(new URLSearchParams(location.search).get("module") ?? ownFile());
const canvas = byId("canvas");
const player = new Player((run, popped) => player.subject.draw(canvas, run.values, popped));
const editor = new Editor();
// Draws again what is shown, after a change of the width or the colours.
let shown = () => {};
// How many samples were asked for.
let turns = 0;

// Shows the controls of the mode.
function showMode() {
    for (const part of document.querySelectorAll("[data-mode]")) {
        part.hidden = !part.dataset.mode.split(" ").includes(mode());
    }
    byId("what").querySelector("[value=formula]").hidden = mode() === "graph";
    if (mode() === "graph" && byId("what").value === "formula") byId("what").value = "tree";
    byId("graph-part").hidden = mode() === "maze" || isOfFormula();
    byId("formula-part").hidden = !isOfFormula();
    byId("bars").hidden = mode() !== "histogram";
    canvas.hidden = mode() === "histogram";
    if (mode() === "graph") editor.draw();
}

// What the address keeps of the controls.
function settings() {
    const common = { mode: mode(), key: byId("key").value };
    if (mode() === "maze") return { ...common, size: byId("size").value };
    const text = byId(isOfFormula() ? "formula" : "graph").value;
    if (mode() === "formula") return { ...common, text };
    const what = byId("what").value;
    return mode() === "graph"
        ? { ...common, what, root: byId("root").value, text }
        : { ...common, what, count: byId("count").value, text };
}

// Gives a control a value, unless it takes no such value.
function put(id, value) {
    const control = byId(id);
    const before = control.value;
    control.value = value;
    if (control.value !== value) control.value = before;
}

// Puts the settings of the address into the controls.
function setControls(wanted) {
    const radio = document.querySelector(`[name=mode][value="${CSS.escape(wanted.mode ?? "maze")}"]`);
    if (radio) radio.checked = true;
    for (const id of ["size", "what", "root", "count"]) {
        if (wanted[id] !== undefined) put(id, wanted[id]);
    }
    byId("key").value = KEY.test(wanted.key ?? "") ? wanted.key : randomKey();
    if (wanted.text !== undefined) byId(isOfFormula() ? "formula" : "graph").value = wanted.text;
    showMode();
}

// The arguments and the input for these settings.
function asked({ mode, size, what, root, text }) {
    if (mode === "maze") return { words: ["tree"], text: writeGraph(grid(Number(size))) };
    if (mode === "formula") return { words: ["formula"], text };
    return { words: what === "orient" ? ["orient"] : ["tree", "--root", root], text };
}

// What is drawn for settings whose text popsample accepted.
function subjectOf({ mode, size, what, root, text }) {
    if (mode === "maze") return new MazeSubject(Number(size));
    if (mode === "formula") return new FormulaSubject(text);
    if (what === "orient") return new OrientationSubject(readGraph(text));
    return new TreeSubject(readGraph(text), Number(root));
}

function setBusy(busy) {
    byId("stop").disabled = !busy;
    byId("progress").hidden = !busy;
    byId("controls").setAttribute("aria-busy", String(busy));
    if (busy) byId("said").textContent = "Sampling …";
}

// Shows the sentence of a refusal, or none.
function showRefusal(sentence) {
    byId("refused").hidden = sentence === null;
    byId("refused").textContent = sentence ?? "";
    if (sentence !== null) {
        byId("said").textContent = "No sample.";
        player.load(null);
        shown = () => {};
        canvas.getContext("2d").clearRect(0, 0, canvas.width, canvas.height);
        byId("bars").replaceChildren();
    }
}

const timed = (milliseconds) => (milliseconds < 10 ? milliseconds.toFixed(1) : Math.round(milliseconds));

// How many pops or rounds an output has.
function stepsOf(output) {
    const [, steps, count] = /^(pop|round)s (\d+)$/m.exec(output);
    return `${count} ${steps}${count === "1" ? "" : "s"}`;
}

async function call(words, text, key) {
    const answer = await sampler.run([...words, "--key", key], text);
    byId("label").textContent = answer.label;
    byId("output").textContent = answer.output.slice(0, 100000);
    return answer;
}

// Samples a subject with its log, shows the sample, and says whether the replayed run ends there.
// The controls may change before that.
async function showSample(wanted) {
    const { words, text } = asked(wanted);
    let answer = await call([...words, "--log", "on"], text, wanted.key);
    let note = "";
    if (answer.status === CLASH && wanted.mode === "formula") {
        note = " Clauses of this formula clash, so it was sampled by rounds, which have no pops to play.";
        answer = await call(["rounds"], text, wanted.key);
    }
    showRefusal(answer.refusal);
    if (answer.refusal !== null) return;
    const subject = subjectOf(wanted);
    const sample = subject.sampled(answer.output);
    byId("said").textContent = `${subject.told()}; ${stepsOf(answer.output)}, ${timed(answer.milliseconds)} ms.${note}`;
    if (note !== "") {
        player.load(null);
        shown = () => subject.draw(canvas, sample, new Set());
        shown();
        return;
    }
    const run = new Run(subject, wanted.key, answer.output);
    shown = () => player.redraw();
    player.load(run, subject);
    if (run.values.some((value, i) => value !== sample[i])) showRefusal("The replayed run ends at another sample.");
}

async function showHistogram({ what, count, text, key }) {
    const total = Number(count);
    const answer = await call([what, "--count", count], text, key);
    showRefusal(answer.refusal);
    if (answer.refusal !== null) return;
    const outcomes = outcomesOf(what, text);
    if (outcomes === null) {
        showRefusal(`All outcomes are listed for at most ${MOST} edges or variables: use a smaller input.`);
        return;
    }
    const counts = countsOf(what, text, answer.output);
    const sum = outcomes.reduce((all, { weight }) => all + weight, 0);
    const rows = outcomes.map((outcome) => {
        return { ...outcome, expected: (total * outcome.weight) / sum, count: counts.get(outcome.bits) ?? 0 };
    });
    const { value, freedom, bound } = chiSquared(rows);
    byId("said").textContent =
        `${total} samples of ${rows.length} outcomes, ${timed(answer.milliseconds)} ms. Chi-squared is ` +
        `${value.toFixed(1)} with ${freedom} degrees of freedom; 19 of 20 such batches stay below ${bound.toFixed(1)}.`;
    player.load(null);
    showBars(byId("bars"), rows, total);
}

async function sample() {
    const turn = ++turns;
    const wanted = settings();
    if (!KEY.test(wanted.key)) {
        sampler.stop();
        setBusy(false);
        showRefusal("A key has 64 hexadecimal digits.");
        return;
    }
    const fits = writeAddress(wanted);
    byId("link").href = location.href;
    byId("link").textContent = fits ? "Link to this sample" : "Link with this key; the input is too long for a link";
    setBusy(true);
    try {
        await (wanted.mode === "histogram" ? showHistogram(wanted) : showSample(wanted));
    } catch (error) {
        // A call that a later one stopped has nothing to say.
        if (turn !== turns) return;
        if (error.name === "AbortError") byId("said").textContent = error.message;
        else showRefusal(String(error));
    }
    if (turn === turns) setBusy(false);
}

function sampleAnew() {
    byId("key").value = randomKey();
    return sample();
}

byId("waiting").hidden = true;
byId("graph").value = EXAMPLE_GRAPH;
byId("formula").value = EXAMPLE_FORMULA;
byId("controls").addEventListener("submit", (event) => {
    event.preventDefault();
    sampleAnew();
});
byId("same").addEventListener("click", sample);
byId("stop").addEventListener("click", () => sampler.stop());
for (const radio of document.querySelectorAll("[name=mode]")) {
    radio.addEventListener("change", () => {
        showMode();
        sample();
    });
}
for (const id of ["size", "what", "root", "count", "key", "graph", "formula"]) {
    byId(id).addEventListener("change", () => {
        showMode();
        sample();
    });
}
addEventListener("hashchange", () => {
    setControls(readAddress());
    sample();
});
const redraw = () => {
    shown();
    if (mode() === "graph") editor.draw();
};
addEventListener("resize", redraw);
matchMedia("(prefers-color-scheme: dark)").addEventListener("change", redraw);

setControls(readAddress());
sample().then(() => performance.mark("first sample"));
