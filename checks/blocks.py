"""Runs the code blocks of the tutorials and how-to guides, and compares what they print with what the pages show.

    python3 -B -m checks.blocks --program PROGRAM [--library LIBRARY] [PAGE..]

Each page is run in a folder of its own, from its first block to its last:

- a block `sh` has commands behind `$ `, and below each what it prints;
- a block `python` with `>>>` is a doctest, in which `...` stands for any text; another one is run as it is;
- blocks of other languages are shown and not run.

A line `<!-- needs: NAME.. -->` before a block names what has to be installed: modules of Python, names in modules as
`MODULE.NAME`, commands as `command:NAME`, and `library` for the library for C. Otherwise the block is skipped, and that
is printed.

The status is 0 if everything agrees, 1 if something differs, and 2 if the call is wrong.
"""

import argparse
import contextlib
import doctest
import importlib.util
import io
import os
import re
import shutil
import subprocess
import sys
import tempfile
from pathlib import Path
from typing import NamedTuple

TOP = Path(__file__).resolve().parents[1]
FOLDERS = ("tutorial", "howto")
BLOCK = re.compile(r"(?ms)(?:^<!-- needs: ([^\n]*) -->\n)?^```(\w+)\n(.*?)^```$")
FLAGS = doctest.ELLIPSIS | doctest.NORMALIZE_WHITESPACE
# A command may take so many seconds.
PATIENCE = 120


class Block(NamedTuple):
    """A block of a page: its language, its text, the line where it begins, and what it needs."""

    language: str
    text: str
    line: int
    needs: list[str]


def blocks_of(page: Path) -> list[Block]:
    """The blocks of a page, in order."""
    text = page.read_text(encoding="utf-8")
    return [
        Block(found[2], found[3], text.count("\n", 0, found.start(3)) + 1, (found[1] or "").split())
        for found in BLOCK.finditer(text)
    ]


def is_there(name: str) -> bool:
    """Whether something that a block needs is installed."""
    if name == "library":
        return bool(os.environ["POPSAMPLE_LIBRARY"])
    if name.startswith("command:"):
        return shutil.which(name.partition(":")[2]) is not None
    module, _, inner = name.partition(".")
    if importlib.util.find_spec(module) is None:
        return False
    return not inner or hasattr(importlib.import_module(module), inner)


def commands_of(text: str) -> list[tuple[str, str]]:
    """Each command of a block, and what is shown below it."""
    parts = re.split(r"(?m)^\$ ", text)
    return [(part.partition("\n")[0], part.partition("\n")[2]) for part in parts[1:]]


def shell_differences(block: Block) -> list[str]:
    """What differs in the commands of a block."""
    differences = []
    commands = commands_of(block.text)
    if not commands:
        differences.append("there is no command behind '$ '")
    for command, shown in commands:
        call = ["bash", "-c", command]
        ran = subprocess.run(call, capture_output=True, text=True, stdin=subprocess.DEVNULL, timeout=PATIENCE)
        printed = ran.stdout + ran.stderr
        if printed != shown:
            differences.append(f"$ {command}\n--- shown\n{shown}--- printed\n{printed}")
    return differences


def python_differences(block: Block, names: dict[str, object], page: str) -> list[str]:
    """What differs in a block of Python, which is run among the names of the page."""
    printed = io.StringIO()
    if ">>>" in block.text:
        test = doctest.DocTestParser().get_doctest(block.text, {}, page, page, block.line - 1)
        test.globs = names
        runner = doctest.DocTestRunner(optionflags=FLAGS, verbose=False)
        runner.run(test, out=printed.write, clear_globs=False)
        return [printed.getvalue()] if runner.failures else []
    try:
        with contextlib.redirect_stdout(printed):
            exec(compile(block.text, page, "exec"), names)
    except Exception as error:
        return [f"{type(error).__name__}: {error}"]
    return []


def judge(page: Path) -> tuple[int, int]:
    """Runs a page in the current folder: how many blocks agree, and how many differ."""
    name = os.path.relpath(page, TOP)
    names: dict[str, object] = {"__name__": "__main__"}
    agreed = differed = 0
    for block in blocks_of(page):
        if block.language not in ("sh", "python"):
            continue
        missing = [need for need in block.needs if not is_there(need)]
        if missing:
            print(f"{name}:{block.line}: skipped, since this is not installed: {', '.join(missing)}")
            continue
        is_shell = block.language == "sh"
        differences = shell_differences(block) if is_shell else python_differences(block, names, name)
        for difference in differences:
            print(f"{name}:{block.line}: {difference}")
        differed += bool(differences)
        agreed += not differences
    return agreed, differed


def judge_apart(page: Path) -> tuple[int, int]:
    """Runs a page in a folder of its own, from which the repository's folders are seen."""
    with tempfile.TemporaryDirectory() as folder:
        for name in ("examples", "docs", "checker", "c"):
            os.symlink(TOP / name, Path(folder, name))
        os.chdir(folder)
        try:
            return judge(page)
        finally:
            os.chdir(TOP)


def set_up(room: str, program: str, library: str | None) -> None:
    """Names the program and the library for all that is run, and the package for Python: in a folder for commands."""
    os.symlink(os.path.realpath(program), os.path.join(room, "popsample"))
    os.environ["PATH"] = f"{room}:{os.environ['PATH']}"
    os.environ["POPSAMPLE"] = os.path.realpath(program)
    os.environ["POPSAMPLE_LIBRARY"] = os.path.realpath(library) if library else ""
    os.environ["PYTHONPATH"] = str(TOP / "python")
    os.environ["PYTHONDONTWRITEBYTECODE"] = "1"
    os.environ["MPLBACKEND"] = "Agg"
    sys.path.insert(0, str(TOP / "python"))


def main() -> int:
    """Runs the call, and returns its status."""
    words = argparse.ArgumentParser(description="Runs the code blocks of the tutorials and how-to guides.")
    words.add_argument("--program", required=True)
    words.add_argument("--library")
    words.add_argument("pages", nargs="*", type=Path, metavar="PAGE")
    given = words.parse_args()
    pages = [page.resolve() for page in given.pages]
    pages = pages or sorted(page for folder in FOLDERS for page in (TOP / "docs" / folder).glob("*.md"))
    with tempfile.TemporaryDirectory() as room:
        set_up(room, given.program, given.library)
        counts = [judge_apart(page) for page in pages]
    differed = sum(bad for _, bad in counts)
    print(f"blocks: {sum(good for good, _ in counts)} agree, {differed} differ")
    return int(differed > 0)


if __name__ == "__main__":
    sys.exit(main())
