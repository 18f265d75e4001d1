"""Compares the tables that several documents and programs repeat with docs/tables.toml, which has each once.

    python3 -B -m checks.tables

Statuses, codes, limits and options are compared with docs/FORMATS.md, docs/reference/limits.md, the manual page, the
header of the library for C, and the Python package. It takes Python 3.11, and is left out without it.

The status is 0 if all agree, 1 if some differ, and 2 if the call is wrong.
"""

import importlib
import re
import sys
from collections.abc import Iterator
from pathlib import Path
from typing import Any

TOP = Path(__file__).resolve().parents[1]
FORMATS = "docs/FORMATS.md"
LIMITS = "docs/reference/limits.md"
MANUAL = "docs/popsample.1"
HEADER = "c/include/popsample.h"
ERRORS = "python/popsample/errors.py"


def read(name: str) -> str:
    """The text of a file of the repository."""
    return (TOP / name).read_text(encoding="utf-8")


def rows_of(markdown: str, heading: str) -> list[list[str]]:
    """The cells of the rows of the tables below a heading, up to the next one."""
    part = re.split(rf"(?m)^#+ {re.escape(heading)}$", markdown)[1]
    lines = [line for line in re.split(r"(?m)^#", part)[0].splitlines() if line.startswith("| ")]
    return [[cell.strip() for cell in line.split("|")[1:-1]] for line in lines]


def section_of(manual: str, heading: str) -> dict[str, str]:
    """The items of a list of the manual page below a heading: each by its first word."""
    part = manual.partition(f"{heading}\n")[2].partition("\n.El\n")[0]
    return {item.partition("\n")[0]: item.partition("\n")[2].strip() for item in re.split(r"(?m)^\.It ", part)[1:]}


def without_code(text: str) -> str:
    """A meaning as the manual page has it: without examples in code font, as a sentence."""
    short = re.sub(r" ?\(?`[^`]*`(?: or `[^`]*`)?\)?", "", text)
    return f"{short[0].upper()}{short[1:]}."


def number(text: str) -> int:
    """The number in a cell: the one in brackets, if there is one."""
    return int((re.search(r"\(([\d,]+)\)", text) or re.search(r"([\d,]+)", text))[1].replace(",", ""))


def status_faults(data: dict[str, Any]) -> Iterator[str]:
    """Statuses and first lines that FORMATS, the manual page or the header lacks."""
    answers = rows_of(read(FORMATS), "Answers")
    manual = section_of(read(MANUAL), ".Sh EXIT STATUS")
    for status in data["status"]:
        shown = " ".join(row[1] for row in answers if str(status["number"]) in re.findall(r"\d+", row[0]))
        for first in status["first"]:
            if f"`{first}`" not in shown:
                yield f"{FORMATS}: status {status['number']} lacks {first}"
        if str(status["number"]) not in manual:
            yield f"{MANUAL}: status {status['number']} is missing"
        for first in status["first"]:
            if first.startswith("s ") and first.split()[1] not in read(MANUAL):
                yield f"{MANUAL}: {first} is missing"
        if "header" in status and f"{status['header']} = {status['number']}," not in read(HEADER):
            yield f"{HEADER}: {status['header']} is not {status['number']}"
    known = {str(status["number"]) for status in data["status"]}
    yield from (f"{MANUAL}: status {item} is unknown" for item in set(manual) - known)


def code_faults(data: dict[str, Any], errors: Any) -> Iterator[str]:
    """Codes that differ."""
    codes = {code["number"]: code["meaning"] for code in data["code"]}
    if codes != errors.REASONS:
        yield f"{ERRORS}: REASONS differ"
    if codes != {int(row[0]): row[1] for row in rows_of(read(FORMATS), "`s MALFORMED L C`") if row[0].isdigit()}:
        yield f"{FORMATS}: the codes differ"
    manual = section_of(read(MANUAL), ".Ss Codes of s MALFORMED")
    if manual != {str(code): without_code(meaning) for code, meaning in codes.items()}:
        yield f"{MANUAL}: the codes differ"


def limit_faults(data: dict[str, Any], errors: Any) -> Iterator[str]:
    """Limits that differ."""
    limits = {limit["kind"]: f"{limit['most']} {limit['what']}" for limit in data["limit"]}
    if limits != errors.LIMITS:
        yield f"{ERRORS}: LIMITS differ"
    if limits != {int(row[0]): row[1] for row in rows_of(read(FORMATS), "`s LIMIT K L`") if row[0].isdigit()}:
        yield f"{FORMATS}: the limits differ"
    if section_of(read(MANUAL), ".Ss Kinds of s LIMIT") != {str(kind): f"{text}." for kind, text in limits.items()}:
        yield f"{MANUAL}: the limits differ"
    shown = {int(row[0]): number(row[2]) for row in rows_of(read(LIMITS), "Inputs") if row[0].isdigit()}
    if shown != {limit["kind"]: limit["most"] for limit in data["limit"]}:
        yield f"{LIMITS}: the limits of inputs differ"


def option_faults(data: dict[str, Any], options: Any) -> Iterator[str]:
    """Options whose commands or numbers differ."""
    if {option["name"]: set(option["commands"]) for option in data["option"]} != {
        name: set(option.commands) for name, option in options.items()
    }:
        yield "the Python package: the options or their commands differ"
    formats = {row[0].strip("`"): row for row in rows_of(read(FORMATS), "The command line")}
    limits = {row[0].strip("`"): row for row in rows_of(read(LIMITS), "Options")}
    for option in data["option"]:
        name = option["name"]
        if name not in formats or f"Fl {name[1:]}" not in read(MANUAL):
            yield f"{FORMATS} or {MANUAL}: {name} is missing"
        elif "most" in option:
            if f"from {option['least']} to {option['most']}" not in formats[name][2]:
                yield f"{FORMATS}: the range of {name} differs"
            if [number(cell) for cell in limits[name][1:3]] != [option["least"], option["most"]]:
                yield f"{LIMITS}: the range of {name} differs"
        if "default" in option and not (
            formats[name][3] == str(option["default"]) and number(limits[name][3]) == option["default"]
        ):
            yield f"{FORMATS} or {LIMITS}: the default of {name} differs"


def module(name: str) -> Any:
    """A module of the Python package by its file's name, wherever it stands in the package."""
    file = next((TOP / "python" / "popsample").rglob(f"{name}.py"))
    inside = file.relative_to(TOP / "python").with_suffix("")
    return importlib.import_module(".".join(inside.parts))


def main() -> int:
    """Runs the call, and returns its status."""
    if len(sys.argv) > 1:
        print("usage: python3 -B -m checks.tables", file=sys.stderr)
        return 2
    if sys.version_info < (3, 11):
        print("tables: not compared, since there is no python3 from 3.11 on")
        return 0
    import tomllib

    sys.path.insert(0, str(TOP / "python"))
    data = tomllib.loads(read("docs/tables.toml"))
    errors = module("errors")
    faults = [*status_faults(data), *code_faults(data, errors), *limit_faults(data, errors)]
    faults += option_faults(data, module("program_words").OPTIONS)
    print("\n".join(faults), end="\n" if faults else "")
    print(f"tables: {len(faults)} differences")
    return int(bool(faults))


if __name__ == "__main__":
    sys.exit(main())
