"""Measures how hard the documents are to read, and fails if a page has got harder than the style guide allows.

    python3 -B -m checks.prose [--all] [--show PAGE]

A page fails if a sentence has more than 35 words, if its sentences have more than 22 words in the mean, or if it has
more than 6 flagged words in 1000: those that docs/development/style.md replaces. A page for users fails if the mean is
above 18, or if more than 5 of 100 sentences have more than 30 words. Pages, docstrings of the Python package and doc
comments of the crates are measured. Code, tables, headings and links' targets are left out.

`--all` prints what each part measures, and `--show` prints the longest sentences and the flagged words of one page.
The status is 0 if nothing failed, 1 if something did, and 2 if the call is wrong.
"""

import argparse
import ast
import re
import sys
from collections.abc import Iterable, Iterator
from pathlib import Path
from typing import NamedTuple

TOP = Path(__file__).resolve().parents[1]
LONGEST = 35
MEAN = 22
FLAGGED = 6
FLAGS = re.compile(
    r"\b(?:where|tells?|told|stands?|stood|but for|behind|else|hand(?:ed)? in|(?:of|in|by|to|from) wh(?:ich|om))\b",
    re.IGNORECASE,
)
DOCSTRINGS = "docstrings of python/popsample"
COMMENTS = "doc comments of crates"
# Pages that users read: their sentences are shorter.
USER_PAGES = ("README.md", "docs/FORMATS.md", "docs/index.md", "docs/tutorial/", "docs/howto/", "docs/reference/")
USER_MEAN = 18
USER_OVER_THIRTY = 5
LEFT_OUT = {".git", "out", "_build", "worked"}


class Measure(NamedTuple):
    """What was measured of a page: its sentences, and how many words they have."""

    sentences: list[str]
    lengths: list[int]

    @property
    def mean(self) -> float:
        """The mean number of words in a sentence."""
        return sum(self.lengths) / max(1, len(self.lengths))

    @property
    def over_thirty(self) -> float:
        """How many of 100 sentences have more than 30 words."""
        return 100 * sum(length > 30 for length in self.lengths) / max(1, len(self.lengths))

    @property
    def flagged(self) -> float:
        """How many flagged words there are in 1000."""
        found = sum(len(FLAGS.findall(sentence)) for sentence in self.sentences)
        return 1000 * found / max(1, sum(self.lengths))

    def faults(self, for_users: bool) -> list[str]:
        """What the style guide does not allow."""
        most = USER_MEAN if for_users else MEAN
        long = [sentence for sentence in self.sentences if len(sentence.split()) > LONGEST]
        faults = [f"a sentence of {len(sentence.split())} words: {sentence}" for sentence in long]
        if self.mean > most:
            faults.append(f"{self.mean:.1f} words a sentence in the mean, and at most {most} are allowed")
        if for_users and self.over_thirty > USER_OVER_THIRTY:
            share = f"{self.over_thirty:.0f} of 100 sentences over 30 words"
            faults.append(f"{share}, and at most {USER_OVER_THIRTY} are allowed")
        # A short page may have one flagged word.
        if self.flagged > FLAGGED and len(FLAGS.findall(" ".join(self.sentences))) > 1:
            faults.append(f"{self.flagged:.0f} flagged words in 1000, and at most {FLAGGED} are allowed")
        return faults


def items_of(markdown: str) -> Iterator[str]:
    """The paragraphs and list items of a text, as one line each."""
    text = re.sub(r"(?ms)^ *(```|:::|\$\$).*?^ *\1[^\n]*$|<!--.*?-->", "\n\n", markdown)
    for part in re.split(r"\n\s*\n|\n(?=\s*(?:[-*]|\d+\.)\s)|\n(?=\|)", text):
        lines = [line.lstrip("> ") for line in part.splitlines() if not re.match(r"\s*([|#<]|\$ |    |\[)", line) or "](" in line]
        words = " ".join(" ".join(lines).split())
        if words and not words.startswith("|"):
            yield re.sub(r"^(?:[-*]|\d+\.) ", "", words)


def plain(item: str) -> str:
    """A paragraph without the targets of its links; what is in code font counts as one word."""
    return re.sub(r"`[^`]*`", "CODE", re.sub(r"!?\[([^\]]*)\]\([^)]*\)", r"\1", item))


def measure(items: Iterable[str]) -> Measure:
    """Measures paragraphs. What has at most two words is no sentence."""
    found = (sentence for item in items for sentence in re.split(r"(?<=[.!?])\s+(?=[A-Z(\"*])", plain(item)))
    sentences = [sentence for sentence in found if len(sentence.split()) > 2]
    return Measure(sentences, [len(sentence.split()) for sentence in sentences])


def pages() -> Iterator[Path]:
    """The Markdown pages of the repository that have a text of their own."""
    for page in sorted(TOP.rglob("*.md")):
        inside = page.relative_to(TOP)
        if not LEFT_OUT & set(inside.parts) and not page.read_text(encoding="utf-8").startswith("<!-- source:"):
            yield page


def docstrings() -> Iterator[str]:
    """The docstrings of the Python package, without their examples and directives."""
    for module in sorted((TOP / "python" / "popsample").rglob("*.py")):
        for node in ast.walk(ast.parse(module.read_text(encoding="utf-8"))):
            if isinstance(node, (ast.Module, ast.FunctionDef, ast.ClassDef)):
                text = re.sub(r"(?s)\n\s*(?:>>>|\.\. ).*?(?=\n\s*\n|$)", "", ast.get_docstring(node) or "")
                # The heading of a section, and the names and the type above what is said of a parameter.
                text = re.sub(r"(?m)^[A-Z][A-Za-z ]+\n-{3,}$|^[*\w, ]+ : .+$|^[\w., ]+\n(?=    )", "\n", text)
                yield from items_of(re.sub(r"(?m)^    ", "", text))


def comments() -> Iterator[str]:
    """The doc comments of the crates."""
    for source in sorted(TOP.glob("crates/*/src/**/*.rt")):
        found = [re.match(r"\s*//[/!] ?(.*)", line) for line in source.read_text(encoding="utf-8").splitlines()]
        yield from items_of("\n".join(line[1] if line else "" for line in found))


def measures() -> dict[str, Measure]:
    """What is measured, by name."""
    found = {str(page.relative_to(TOP)): measure(items_of(page.read_text(encoding="utf-8"))) for page in pages()}
    found[DOCSTRINGS] = measure(docstrings())
    found[COMMENTS] = measure(comments())
    return {name: measured for name, measured in found.items() if measured.lengths}


def table(found: dict[str, Measure]) -> str:
    """A row for each part."""
    rows = ["| page | sentences | mean words | longest | over 30 | flagged in 1000 |", "|---|---|---|---|---|---|"]
    rows += [
        f"| {name} | {len(m.lengths)} | {m.mean:.1f} | {max(m.lengths)} | {m.over_thirty:.0f} % | {m.flagged:.0f} |"
        for name, m in found.items()
    ]
    return "\n".join(rows)


def show(measured: Measure) -> None:
    """Prints the longest sentences of a page, and those with flagged words."""
    for sentence in sorted(measured.sentences, key=lambda text: -len(text.split()))[:8]:
        print(len(sentence.split()), sentence)
    for sentence in measured.sentences:
        if FLAGS.search(sentence):
            print(f"{', '.join(FLAGS.findall(sentence))}: {sentence}")


def main() -> int:
    """Runs the call, and returns its status."""
    words = argparse.ArgumentParser(description="Measures how hard the documents are to read.")
    words.add_argument("--all", action="store_true", help="print what each page measures")
    words.add_argument("--show", metavar="PAGE", help="print the longest sentences of a page")
    given = words.parse_args()
    found = measures()
    if given.show:
        show(found[given.show])
        return 0
    if given.all:
        print(table(found))
    faults = [f"{name}: {fault}" for name in found for fault in found[name].faults(name.startswith(USER_PAGES))]
    print("\n".join(faults), end="\n" if faults else "")
    print(f"prose: {len(found)} pages and kinds of comments measured, {len(faults)} faults")
    return int(bool(faults))


if __name__ == "__main__":
    sys.exit(main())
