#!/usr/bin/env python3
"""Prints whose a release is: the text of LICENSE, and the notices that go with the program.

    release/copyright.py [NOTICE]

The notices are those of the kit's crates that the program stands on, as the kit has them: of a crate under a choice
of licences, that of the MIT licence. NOTICE is a file with the one of the C library, for a program that is linked with
it as a whole.
"""

from __future__ import annotations

import subprocess
import sys
import textwrap
from pathlib import Path

TOP = Path(__file__).resolve().parents[1]
RULE = "-" * 72


def kit() -> Path:
    """The folder of the kit."""
    told = subprocess.run(["rt", "doc"], check=True, stdout=subprocess.PIPE, text=True).stdout
    return Path(told.strip()).parent


def named_crates() -> set[str]:
    """The crates of the kit that `crates.txt` names."""
    lines = (TOP / "crates.txt").read_text(encoding="utf-8").splitlines()
    crates = dict(line.partition("#")[0].split(":") for line in lines if line.partition("#")[0].strip())
    return {below for names in crates.values() for below in names.split()} - set(crates)


def crates_below(folder: Path, named: set[str]) -> list[str]:
    """These crates of the kit, and those that they stand on."""
    found, ahead = set(named), sorted(named)
    while ahead:
        library = (folder / "rlibs" / f"{ahead.pop()}.rlib" / "format").read_text(encoding="utf-8", errors="replace")
        below = {line.removeprefix("dep ") for line in library.splitlines() if line.startswith("dep ")}
        ahead += below - found
        found |= below
    return sorted(found)


def notice_of(crate: Path) -> str:
    """The licence of a crate of the kit, or nothing where the kit states none."""
    files = sorted(crate.glob("LICENSE-MIT")) or sorted(crate.glob("LICENSE*"))
    return "\n".join(file.read_text(encoding="utf-8").strip("\n") for file in files)


def own_licence() -> str:
    """What popsample's owner says."""
    return (TOP / "LICENSE").read_text(encoding="utf-8").strip("\n")


def main() -> int:
    """Runs the call, and tells its status."""
    if len(sys.argv) > 2:
        print("usage: release/copyright.py [NOTICE]", file=sys.stderr)
        return 2
    folder = kit()
    notices = {crate: notice_of(folder / "rattle" / crate) for crate in crates_below(folder, named_crates())}
    silent = ", ".join(crate for crate, notice in notices.items() if not notice)
    held = (
        "The program holds code of crates of the Rattle kit. Those that are ports of others have the notices below. "
        f"For its own ones the kit states no licence: {silent}."
    )
    parts = ["popsample\n\nCopyright: the authors of popsample.", own_licence(), textwrap.fill(held, 78)]
    parts += [f"{RULE}\n{crate}\n\n{notice}" for crate, notice in notices.items() if notice]
    for file in sys.argv[1:]:
        notice = Path(file).read_text(encoding="utf-8").strip("\n")
        parts.append(f"{RULE}\nthe C library, which the program is linked with\n\n{notice}")
    print("\n\n".join(parts))
    return 0


if __name__ == "__main__":
    sys.exit(main())
