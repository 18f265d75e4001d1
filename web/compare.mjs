/**
 * Runs each case and compares output and status; `told` shows what differs and how many agree.
 * @param {{ run: (words: string[], text: string) => { status: number, output: string } }} popsample
 */
export function compare(popsample, cases) {
    const lines = [];
    for (const { name, words, text, wanted, status } of cases) {
        const answer = popsample.run(words, text);
        if (answer.status !== status || answer.output !== wanted) {
            lines.push(`${name}: status ${answer.status}\n${answer.output}`);
        }
    }
    const differ = lines.length;
    return { differ, told: [...lines, `cases: ${cases.length - differ} agree, ${differ} differ`].join("\n") };
}
