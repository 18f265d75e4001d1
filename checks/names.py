"""Sees that the names and files of which the documents speak are there, so that no page goes stale.

    python3 -B -m checks.names [--link]

- Each link of a Markdown page to a file of the repository has its file, and each link to a heading its heading.
- Each link of the pages on verification that has a name in code font as its text leads to a file that defines the name.
- In the table of docs/PROVED.md each crate, each public call and each file of definitions is there.
- On the pages `LINKED` the name of each theorem is a link to the file of its law. In the table of docs/PROVED.md the
  name of each file of definitions is a link to it. `--link` writes the links that are missing or lead elsewhere.

The status is 0 if all is there, 1 if something is not, and 2 if the call is wrong.
"""

import functools
import os
import re
import sys
from collections.abc import Iterator
from pathlib import Path

TOP = Path(__file__).resolve().parents[1]
LEFT_OUT = {".git", "out", "_build"}
LINK = re.compile(r"\[((?:[^\[\]]|\[[^\]]*\])*)\]\(([^)\s]+)\)")
SOURCE = re.compile(r"<!-- source: (\S+) -->")
PROVED = TOP / "docs" / "PROVED.md"
VERIFICATION = sorted((TOP / "docs" / "verification").glob("*.md"))
# The table of PROVED: the line above it, and its columns.
PROMISES = "| Crate | Proved |"
COLUMN_CRATE, COLUMN_CALL, COLUMN_SPECS = 0, 2, 3
# Pages on which the name of each theorem is a link.
LINKED = (TOP / "README.md", PROVED, TOP / "docs" / "verification" / "index.md")
NAME = re.compile(r"\[`(\w+)`\]\([^)\s]*\.rt\)|`(\w+)`")
SPEC = re.compile(r"\[([\w/]+)\]\([^)\s]*\.antt\)|(?<![`(/\w])([\w/]+)")


def pages() -> Iterator[Path]:
    """The Markdown pages of the repository."""
    for page in sorted(TOP.rglob("*.md")):
        if not LEFT_OUT & set(page.relative_to(TOP).parts):
            yield page


def prose_of(page: Path) -> str:
    """The text of a page without its blocks of code."""
    return re.sub(r"(?ms)^```.*?^```", "", page.read_text(encoding="utf-8"))


def anchor_of(heading: str) -> str:
    """The anchor of a heading, as GitHub and MyST make it."""
    words = re.sub(r"\[([^\]]*)\]\([^)]*\)", r"\1", heading).strip().lower().replace("`", "")
    return re.sub(r"[^\w\- ]", "", words).replace(" ", "-")


def text_of(page: Path) -> str:
    """The text of a page, or of the file that it shows."""
    text = page.read_text(encoding="utf-8")
    named = SOURCE.match(text)
    return (page.parent / named[1]).read_text(encoding="utf-8") if named else text


def anchors_of(page: Path) -> set[str]:
    """The anchors of a page's headings."""
    text = re.sub(r"(?ms)^```.*?^```", "", text_of(page))
    return {anchor_of(heading) for heading in re.findall(r"(?m)^#{1,6} (.*)$", text)}


def dead_links() -> Iterator[str]:
    """Links to files or headings that are not there."""
    for page in pages():
        for _, target in LINK.findall(prose_of(page)):
            path, _, anchor = target.partition("#")
            if "://" in target or target.startswith("mailto:"):
                continue
            file = (page.parent / path).resolve() if path else page
            if not file.exists():
                yield f"{page.relative_to(TOP)}: there is no {path}"
            elif anchor and file.suffix == ".md" and anchor not in anchors_of(file):
                yield f"{page.relative_to(TOP)}: {path or 'this page'} has no heading #{anchor}"


def defines(file: Path, name: str) -> bool:
    """Whether a file of definitions or of functions defines a name."""
    form = rf"(?m)^\s*(?:(?:abbrev|record|data)? *pub (?:abbrev |record |data |fn )?|pub fn ){re.escape(name)}\b"
    return re.search(form, file.read_text(encoding="utf-8")) is not None


def stale_claims() -> Iterator[str]:
    """Names on the pages of verification that the files to which they link do not define."""
    for page in [PROVED, *VERIFICATION]:
        for text, target in LINK.findall(prose_of(page)):
            file = (page.parent / target).resolve()
            named = re.fullmatch(r"`(\w+)`", text)
            if named and file.suffix in (".antt", ".rt") and file.exists() and not defines(file, named[1]):
                yield f"{page.relative_to(TOP)}: {target} does not define {named[1]}"


def rows_of_proved() -> Iterator[list[str]]:
    """The rows of the table of promises, without links; a row without a crate has that of the row before."""
    crate = ""
    _, _, table = LINK.sub(r"\1", PROVED.read_text(encoding="utf-8")).partition(f"\n{PROMISES}")
    for line in table.partition("\n\n")[0].splitlines()[2:]:
        cells = [cell.strip() for cell in re.split(r"(?<!\\)\|", line)[1:-1]]
        crate = cells[COLUMN_CRATE].strip("`") or crate
        yield [crate, *cells[1:]]


@functools.cache
def sources_of(crate: Path) -> str:
    """The functions, types and definitions of a crate, as one text."""
    files = [*crate.glob("src/**/*.rt"), *crate.glob("specs/**/*.antt")]
    return "\n".join(file.read_text(encoding="utf-8") for file in files)


def is_defined(crate: Path, name: str) -> bool:
    """Whether a crate, or the one that the name begins with, defines the last part of the name."""
    first, _, last = name.rpartition("::")
    other = TOP / "crates" / first.partition("::")[0]
    form = rf"(?m)\b(?:fn|struct|enum|trait|mod|rule|abbrev pub|record pub|pub record|pub) {last}\b"
    return re.search(form, sources_of(other if first and other.is_dir() else crate)) is not None


def stale_promises() -> Iterator[str]:
    """Crates, calls and files of definitions of PROVED's table that are not there."""
    for row in rows_of_proved():
        crate = TOP / "crates" / row[COLUMN_CRATE]
        if not crate.is_dir():
            yield f"docs/PROVED.md: there is no crate {crate.name}"
            continue
        for name in sorted(set(re.findall(r"`([\w:]+)`", row[COLUMN_CALL])) - {"laws"}):
            if not is_defined(crate, name):
                yield f"docs/PROVED.md: {crate.name} does not define {name}"
        for entry in filter(None, (part.strip().strip("`") for part in row[COLUMN_SPECS].split(","))):
            there, _, file = entry.rpartition("/")
            folder = TOP / "crates" / (there or crate.name) / "specs"
            is_name = re.fullmatch(r"\w+", file) is not None
            if is_name and not list(folder.rglob(f"{file}.antt")) and not is_defined(folder.parent, file):
                yield f"docs/PROVED.md: {folder.relative_to(TOP)} has no {file}"


@functools.cache
def laws() -> dict[str, dict[str, Path]]:
    """The files of the theorems of each name, by crate: of the public functions in files of laws."""
    found: dict[str, dict[str, Path]] = {}
    for file in sorted(TOP.glob("crates/*/src/*laws.rt")):
        for name in re.findall(r"(?m)^pub fn (\w+)", file.read_text(encoding="utf-8")):
            found.setdefault(name, {})[file.parents[1].name] = file
    return found


def name_link(match: re.Match[str], page: Path, crate: str = "") -> str:
    """A name in code font, as a link to the file of its law if it is that of a theorem: of `crate`, if one is given."""
    name = match[1] or match[2]
    files = laws().get(name, {})
    # The name of a crate may be that of a theorem, too.
    is_crate = match[1] is None and (TOP / "crates" / name).is_dir()
    if not crate and len(files) == 1 and not is_crate:
        (crate,) = files
    return f"[`{name}`]({os.path.relpath(files[crate], page.parent)})" if crate in files else match[0]


def spec_link(match: re.Match[str], crate: str) -> str:
    """The name of a file of definitions in the table of promises, as a link to the file."""
    shown = match[1] or match[2]
    there, _, name = shown.rpartition("/")
    files = list((TOP / "crates" / (there or crate) / "specs").rglob(f"{name}.antt"))
    return f"[{shown}]({os.path.relpath(files[0], PROVED.parent)})" if len(files) == 1 else match[0]


def linked(page: Path) -> list[str]:
    """The lines of a page, with a link for each name that has one."""
    lines, crate, promises = page.read_text(encoding="utf-8").splitlines(), "", False
    for place, line in enumerate(lines):
        promises = line.startswith(PROMISES) or promises and bool(line)
        if promises:
            cells = line.split("|")[1:-1]
            crate = cells[COLUMN_CRATE].strip(" `") or crate
            cells[COLUMN_CALL] = NAME.sub(lambda match: name_link(match, page, crate), cells[COLUMN_CALL])
            cells[COLUMN_SPECS] = SPEC.sub(lambda match: spec_link(match, crate), cells[COLUMN_SPECS])
            lines[place] = "|".join(["", *cells, ""])
        else:
            lines[place] = NAME.sub(lambda match: name_link(match, page), line)
    return lines


def missing_links() -> Iterator[str]:
    """Names of theorems, and of files of definitions, that are no links to their files."""
    for page in LINKED:
        for place, (line, wanted) in enumerate(zip(page.read_text(encoding="utf-8").splitlines(), linked(page)), 1):
            if line != wanted:
                yield f"{page.relative_to(TOP)}:{place}: a name is not a link to its file; call checks.names --link"


def main() -> int:
    """Runs the call, and returns its status."""
    if sys.argv[1:] not in ([], ["--link"]):
        print("usage: python3 -B -m checks.names [--link]", file=sys.stderr)
        return 2
    for page in LINKED if sys.argv[1:] else ():
        page.write_text("\n".join(linked(page)) + "\n", encoding="utf-8")
    faults = [*dead_links(), *stale_claims(), *stale_promises(), *missing_links()]
    print("\n".join(faults), end="\n" if faults else "")
    print(f"names: {len(faults)} that are not there")
    return int(bool(faults))


if __name__ == "__main__":
    sys.exit(main())
