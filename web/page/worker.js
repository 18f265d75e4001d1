// Runs popsample beside the page, so that the page stays alive and a run can be stopped.
import { load, refusalOf } from "./popsample/index.js";

const loaded = load(new URL(`./popsample/${new URL(location.href).searchParams.get("module")}`, import.meta.url));

onmessage = async ({ data: { number, words, text } }) => {
    try {
        const popsample = await loaded;
        const begin = performance.now();
        const answer = popsample.run(words, text);
        const milliseconds = performance.now() - begin;
        const refusal = refusalOf(words, text, answer)?.message ?? null;
        postMessage({ number, ...answer, refusal, milliseconds, label: popsample.label });
    } catch (error) {
        postMessage({ number, status: -1, output: "", refusal: String(error), milliseconds: 0, label: "" });
    }
};
