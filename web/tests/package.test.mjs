// Tests of the package as build.sh lays it out, in the folder that PACKAGE names, over both modules.
import assert from "node:assert/strict";
import { createHash } from "node:crypto";
import { readFileSync } from "node:fs";
import { test } from "node:test";
import { pathToFileURL } from "node:url";
import { Worker } from "node:worker_threads";
import { compareArrays } from "../arrays.mjs";

const folder = pathToFileURL(`${process.env.PACKAGE}/`);
const { load, randomKey, RefusalError, refusalOf, seedKey } = await import(new URL("index.js", folder));
const { sha256 } = await import(new URL("sha256.js", folder));
const { ANSWERS } = await import(new URL("sentences.js", folder));

const KEY = "a7e8b266ea9514109c9a658bc61f21124fe41c0814138e4855d11a7599f94bc6";
// A formula of one clause, up to its log.
const CERTIFICATE = "cert 1 formula\nstacks 0,0,1\ninput 14\np cnf 1 1\n1 0\n";
const TRIANGLE = [[0, 1], [1, 2], [2, 0]];
const bytes = (text) => new TextEncoder().encode(text);

test("hashes are those of FIPS 180-4", () => {
    // The examples of the standard, and lengths about a block's end by Node's own hash.
    assert.equal(sha256(bytes("abc")), "ba7816bf8f01cfea414140de5dae2223b00361a396177a9cb410ff61f20015ad");
    for (let length = 0; length < 200; length++) {
        const message = bytes("a".repeat(length));
        assert.equal(sha256(message), createHash("sha256").update(message).digest("hex"), `length ${length}`);
    }
});

test("a seed gives the key that the reference says", () => {
    for (const seed of [0, 42, 2 ** 53 - 1, 2n ** 70n]) {
        assert.equal(seedKey(seed), createHash("sha256").update(`popsample seed ${seed}`).digest("hex"));
    }
    for (const seed of [-1, 0.5, 2 ** 53, -1n]) assert.throws(() => seedKey(seed), RangeError);
});

test("random keys are keys, and differ", () => {
    const keys = new Set(Array.from({ length: 100 }, randomKey));
    assert.equal(keys.size, 100);
    for (const key of keys) assert.match(key, /^[0-9a-f]{64}$/);
});

test("the version is that of the repository", () => {
    const version = readFileSync(new URL("../../VERSION", import.meta.url), "utf8").trim();
    assert.equal(JSON.parse(readFileSync(new URL("package.json", folder), "utf8")).version, version);
});

test("the module of the engine is loaded if none is named", async () => {
    assert.equal((await load()).run(["make", "grid", "2"]).status, 0);
});

// The way from a vertex to the root has at most as many steps as there are vertices.
function leadsToRoot(parents, vertex) {
    let at = vertex;
    for (let step = 0; step < parents.length && parents[at] >= 0; step++) at = parents[at];
    return parents[at] < 0;
}

for (const file of ["popsample.wasm", "popsample32.wasm"]) {
    const module = new URL(file, folder);
    // An engine without tables of 64 bits can't run popsample.wasm, and Node 20 is one.
    const runs = WebAssembly.validate(readFileSync(module));
    const on = (name, body) => test(`${file}: ${name}`, { skip: !runs && "this Node has no tables of 64 bits" }, body);
    const popsample = runs ? await load(module) : null;

    on("says how it was built", () => {
        assert.match(popsample.label, /built outside the gate's compiler call/);
        assert.match(popsample.label, /compared with the expected outputs of all cases/);
    });

    on("blocks of memory are aligned and apart, and too large ones are refused", () => {
        const { memory, malloc } = new WebAssembly.Instance(new WebAssembly.Module(readFileSync(module))).exports;
        const blocks = Array.from({ length: 2000 }, (_, i) => {
            const size = (i * i * 37) % 5000;
            const at = Number(malloc(BigInt(size)));
            assert.ok(at > 0 && at % 16 === 0, `${at}`);
            new Uint8Array(memory.buffer, at, size).fill(i % 251);
            return { at, size };
        });
        for (const [i, { at, size }] of blocks.entries()) {
            assert.ok(new Uint8Array(memory.buffer, at, size).every((byte) => byte === i % 251), `block ${i}`);
        }
        assert.equal(malloc(1n << 41n), 0n);
        if (file === "popsample32.wasm") assert.equal(malloc(5n << 30n), 0n);
    });

    on("a tree leads to its root along edges of the graph", () => {
        const edges = [[0, 1], [1, 2], [2, 0], [2, 3], [3, 3], [3, 4], [4, 0], [1, 0]];
        for (let seed = 0; seed < 20; seed++) {
            const root = seed % 5;
            const tree = popsample.spanningTree(edges, { root, seed });
            assert.equal(tree.parents[root], -1);
            for (let vertex = 0; vertex < 5; vertex++) {
                assert.ok(leadsToRoot(tree.parents, vertex));
                if (vertex === root) continue;
                const ends = [vertex, tree.parents[vertex]].sort();
                assert.deepEqual([...edges[tree.edges[vertex]]].sort(), ends);
            }
            assert.deepEqual(popsample.spanningTree(Uint32Array.from(edges.flat()), { root, key: tree.key }), tree);
        }
    });

    on("the first output of the reference in arrays", () => {
        const text = readFileSync(new URL("../../examples/roads.col", import.meta.url), "utf8");
        const matches = text.matchAll(/^e (\d+) (\d+)(?: (\d+))?$/gm);
        const lines = Array.from(matches, ([, ...numbers]) => numbers.map(Number));
        const edges = lines.map(([from, to]) => [from - 1, to - 1]);
        const weights = lines.map(([, , weight]) => weight || 1);
        const tree = popsample.spanningTree(edges, { root: 1, weights, key: KEY });
        // README.md: the lines `a`, `used` and `pops` under this key.
        assert.deepEqual([...tree.parents], [1, -1, 1, 1, 3, 2, 7, 4]);
        assert.deepEqual([...tree.edges], [0, -1, 2, 3, 7, 6, 12, 9]);
        assert.deepEqual([...tree.used], [0, 0, 0, 0, 0, 2, 1, 2]);
        assert.equal(tree.pops, 2);
    });

    on("the limits of formulas are those of texts", () => {
        assert.throws(() => popsample.solution([], { variables: 2 ** 22 + 1 }), { code: "LIMIT" });
        assert.throws(() => popsample.solution([[3]], { variables: 2 }), { code: "MALFORMED" });
    });

    on("samples in arrays are those of texts", () => {
        const { differ, told } = compareArrays(popsample, 200);
        assert.equal(differ, 0, told);
    });

    on("weights weigh", () => {
        let heavy = 0;
        for (let seed = 0; seed < 200; seed++) {
            heavy += Number(popsample.spanningTree([[0, 1], [0, 1]], { weights: [1, 99], seed }).edges[1] === 1);
        }
        // Of 200 draws with a probability of 0.99, fewer than 190 come once in 30000 such tests.
        assert.ok(heavy >= 190, `${heavy} of 200`);
    });

    on("an orientation leaves no vertex without an edge", () => {
        const edges = [...TRIANGLE, [2, 3], [3, 0]];
        for (let seed = 0; seed < 20; seed++) {
            const { directions } = popsample.orientation(edges, { seed });
            const left = new Set(edges.map(([from, to], i) => (directions[i] === 0 ? from : to)));
            assert.equal(left.size, 4);
        }
    });

    on("a solution satisfies each clause, whether or not clauses clash", () => {
        const clauses = [[1, 2], [1, 3], [-2, -3], [2, -4, 5]];
        for (let seed = 0; seed < 20; seed++) {
            const { values } = popsample.solution(clauses, { seed });
            assert.equal(values.length, 5);
            const holds = (literal) => (literal > 0) === (values[Math.abs(literal) - 1] === 1);
            assert.ok(clauses.every((clause) => clause.some(holds)));
        }
    });

    on("no vertices and no variables", () => {
        assert.deepEqual([...popsample.spanningTree([], { vertices: 1 }).parents], [-1]);
        assert.equal(popsample.orientation([]).directions.length, 0);
        assert.equal(popsample.solution([]).values.length, 0);
    });

    on("a new key is random, and comes back", () => {
        const first = popsample.spanningTree(TRIANGLE);
        assert.notEqual(first.key, popsample.spanningTree(TRIANGLE).key);
        assert.deepEqual(popsample.spanningTree(TRIANGLE, { key: Buffer.from(first.key, "hex") }), first);
    });

    on("wrong arguments are refused in the words of the call", () => {
        for (const [call, options, kind, what] of [
            ["spanningTree", { key: "12" }, RangeError, /key/],
            ["spanningTree", { key: KEY, seed: 1 }, TypeError, /exclude/],
            ["spanningTree", { weights: [1] }, RangeError, /weights/],
            ["spanningTree", { weights: [1, 0.5, 1] }, RangeError, /weight .* 0.5/],
            ["spanningTree", { root: -1 }, RangeError, /root/],
            ["orientation", { height: 0 }, RangeError, /height/],
            ["orientation", { vertices: -2 }, RangeError, /vertices/],
        ]) {
            const isWanted = (error) => error instanceof kind && what.test(error.message);
            assert.throws(() => popsample[call](TRIANGLE, options), isWanted);
        }
        assert.throws(() => popsample.spanningTree([[0, -1]]), RangeError);
        assert.throws(() => popsample.solution([[0]]), RangeError);
        assert.throws(() => popsample.run(["a\0b"]), TypeError);
    });

    on("refusals count from 0, and have the numbers of the program", () => {
        assert.throws(() => popsample.spanningTree([[0, 1], [2, 3]]), (error) => {
            assert.ok(error instanceof RefusalError && error instanceof Error);
            assert.deepEqual([error.name, error.code, error.status, error.numbers], ["RefusalError", "CUTOFF", 6, [3]]);
            return /\bVertex 2\b/.test(error.message);
        });
        assert.throws(() => popsample.spanningTree(TRIANGLE, { root: 7 }), { code: "ROOT", message: /\broot 7\b/ });
        assert.throws(() => popsample.orientation(TRIANGLE, { vertices: 5 }), { code: "ISOLATED", message: /\b3\b/ });
        const exhausted = { code: "EXHAUSTED", message: /vertex [01]/ };
        assert.throws(() => popsample.orientation([[0, 1]], { height: 5 }), exhausted);
        assert.throws(() => popsample.solution([[1], []]), { code: "EMPTY", message: /\b2\b/ });
        const weights = [4294967295, 4294967295, 1];
        assert.throws(() => popsample.spanningTree(TRIANGLE, { weights }), { code: "LIMIT", message: /vertex 1/ });
    });

    on("each refusal of a text has the sentence of the reference", () => {
        // The arguments, the input, and the form of the first line in docs/FORMATS.md.
        const refused = [
            ["orient --height 3", "p edge 2 1\ne 1 2\n", "s EXHAUSTED"],
            ["tree --roof 1", "", "s USAGE P"],
            ["tree", "p edge 2 1\ne 1 x\n", "s MALFORMED L C"],
            ["formula", "p cnf 1 1\n1 0\n1 0\n", "s COUNT D F"],
            ["formula --stacks 0", "p cnf 2 0\n", "s ROWS G W"],
            ["formula --stacks 0;", "p cnf 2 0\n", "s EMPTYROW V"],
            ["formula --stacks 0,2;0", "p cnf 2 0\n", "s VALUE V K"],
            ["formula", "p cnf 4194305 0\n", "s LIMIT K L"],
            ["formula --count 9", "p cnf 4194304 0\n", "s LIMIT 9 N"],
            ["formula", "p cnf 2 2\nc\n1 0\n1 2 0\n", "s CLASH I J"],
            ["formula", "p cnf 1 2\n1 0\n0\n", "s EMPTY N"],
            ["orient", "p edge 3 1\ne 1 2\n", "s ISOLATED V"],
            ["tree --root 6", "p edge 2 1\ne 1 2\n", "s ROOT R"],
            ["tree", "p edge 3 1\ne 1 2\n", "s CUTOFF V"],
            ["resample --stacks 0,1 --witness 1,1", "p cnf 1 1\n1 0\n", "witness none V K C"],
            ["formula --stacks 0,0,1 --pops 1", "p cnf 1 1\n1 0\n", "cert 1 C"],
            ["replay", "cert 2 formula\n", "s MALFORMED L C"],
            ["resume", `${CERTIFICATE}log 2 1\npop 1 1 1:1\n`, "s NOTLEGAL I"],
        ];
        for (const [line, text, form] of refused) {
            const words = line.split(" ");
            const error = refusalOf(words, text, popsample.run(words, text));
            const { sentence } = ANSWERS.find((answer) => answer.form === form);
            const literal = (part) => part.replace(/[.*+?^${}()|[\]\\]/g, "\\$&");
            const pattern = sentence.split(/\b[A-Z]+\b/).map(literal).join(".+");
            assert.match(error.message, new RegExp(`^${pattern}$`), line);
            assert.doesNotMatch(error.message, /\b[A-Z]{2,}\b|undefined|NaN/, line);
        }
        assert.equal(refusalOf(["make", "grid", "2"], "", popsample.run(["make", "grid", "2"])), null);
        const clashing = "p cnf 2 2\nc\n1 0\n1 2 0\n";
        const { message } = refusalOf(["formula"], clashing, popsample.run(["formula"], clashing));
        assert.match(message, /1 \(1\).* 2 \(1 2\)/);
        // Lines of a certificate count in its parts: the log, the input, or the certificate.
        for (const [text, part, line] of [
            [`${CERTIFICATE}log 2 1\nrop 1 1 1:0\n`, "log", "rop 1 1 1:0"],
            [`${CERTIFICATE.replace("1 0", "x 0")}log 2 1\npop 1 1 1:0\n`, "input", "x 0"],
            [CERTIFICATE.replace("stacks", "stick"), "certificate", "stick 0,0,1"],
        ]) {
            const told = refusalOf(["replay"], text, popsample.run(["replay"], text)).message;
            assert.ok(told.includes(` of the ${part}`) && told.includes(JSON.stringify(line)), told);
        }
    });

    on("a batch that is exhausted tells where", () => {
        const text = "p cnf 1 1\n1 0\n";
        const words = ["formula", "--height", "1", "--count", "64"];
        assert.match(refusalOf(words, text, popsample.run(words, text)).message, /clause 1\b/);
    });
}

test("it runs in a worker", async () => {
    const body = `
        import { parentPort, workerData } from "node:worker_threads";
        const { load } = await import(workerData);
        parentPort.postMessage((await load()).spanningTree([[0, 1], [1, 2]], { seed: 1 }).parents);
    `;
    const worker = new Worker(new URL(`data:text/javascript,${encodeURIComponent(body)}`), {
        workerData: String(new URL("index.js", folder)),
    });
    const parents = await new Promise((resolve, reject) => worker.once("message", resolve).once("error", reject));
    assert.deepEqual([...parents], [-1, 0, 1]);
});
