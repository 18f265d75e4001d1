#!/usr/bin/env python3
"""Tries wrong bodies of the crates named, or of all: edits that the check has to refuse.

The gate tries those in `must-fail/`. The others stand beside it, in `wrong-bodies/`, and are tried here, on a copy of
the crates in a temporary folder. The status is 0 where all are refused. README.md says more.
"""
import argparse
import os
import re
import shutil
import subprocess
import sys
import tempfile
from concurrent.futures import ThreadPoolExecutor

TOP = os.path.dirname(os.path.dirname(os.path.abspath(__file__)))
CRATES = os.path.join(TOP, "crates")
# The folders in which the edits of a crate stand: the gate reads the first alone.
GATE, SECOND = "must-fail", "wrong-bodies"
PARTS = ("src/", "specs/", "proofs/")
REFUSED = "refused, as it must be"


class BadEdit(Exception):
    """An edit that can't be made, and why."""


def files_in(name, tier):
    """The files in a folder of edits of a crate, in their order."""
    folder = os.path.join(CRATES, name, tier)
    return [os.path.join(folder, file) for file in sorted(os.listdir(folder))] if os.path.isdir(folder) else []


def text_of(path):
    with open(path, encoding="utf-8") as file:
        return file.read()


def word_and_rest(line):
    """What a line of an edit begins with, and what it says."""
    read = re.fullmatch(r"(file|old): (.+)|(new):(?: (.*))?", line)
    if not read:
        raise BadEdit(f"a line is none of an edit: {line!r}")
    return read[1] or read[3], read[2] or read[4] or ""


def pairs_of(text):
    """The replacements of an edit, in their order: each a file, the text that goes, and the text that comes."""
    pairs, path, old = [], None, None
    for word, rest in map(word_and_rest, text.splitlines()):
        if (word == "new") != (old is not None) or (path is None and word != "file"):
            raise BadEdit("its lines aren't a file, and then an old and a new text in turn")
        if word == "file":
            path = rest
        elif word == "old":
            old = rest
        else:
            pairs.append((path, old, rest))
            old = None
    if old is not None or not pairs:
        raise BadEdit("it has an old text without a new one, or none")
    return pairs


def source_of(name, path):
    """The text of a file of a crate that an edit may change."""
    if not path.startswith(PARTS) or os.path.normpath(path) != path:
        raise BadEdit(f"{path} isn't a file of the crate's sources, specs or proofs")
    try:
        return text_of(os.path.join(CRATES, name, path))
    except FileNotFoundError:
        raise BadEdit(f"there is no file {path}") from None


def make(name, edit):
    """Makes an edit on the texts of its files, as they would be. A BadEdit says why it can't be made."""
    if not edit.endswith(".edit") or not os.path.isfile(edit):
        raise BadEdit("it isn't a file whose name ends in .edit")
    texts = {}
    for path, old, new in pairs_of(text_of(edit)):
        text = texts[path] if path in texts else source_of(name, path)
        if text.count(old) != 1:
            raise BadEdit(f"a text stands {text.count(old)} times in {path}, and not once: {old!r}")
        texts[path] = text.replace(old, new)


def faults_of(name):
    """A line for each edit of a crate, of both folders, that can't be made, or whose name another one has."""
    lines, names = [], set()
    for edit in files_in(name, GATE) + files_in(name, SECOND):
        try:
            make(name, edit)
            if os.path.basename(edit) in names:
                raise BadEdit("an edit of this name stands in both folders")
        except BadEdit as why:
            lines.append(f"{os.path.relpath(edit, TOP)}: BAD EDIT: {why}")
        names.add(os.path.basename(edit))
    return lines


def build_below(name):
    """Builds the libraries that a crate stands on, where they stand, since work that is kept there serves again."""
    listed = re.search(rf"^{name}(?: staticlib)?:([^#\n]*)", text_of(os.path.join(TOP, "crates.txt")), re.MULTILINE)
    for library in listed[1].split() if listed else []:
        folder = os.path.join(CRATES, library)
        if not os.path.isdir(folder):
            # A library of the kit.
            continue
        if subprocess.run(["rt", "lib", "--jobs", "1"], cwd=folder, stdout=sys.stderr).returncode:
            sys.exit(f"{library} isn't proved, so nothing above it was tried")


def copy_into(folder, edits):
    """Copies the crates with their built libraries, and puts edits where the check looks for them."""
    for file in ("crates.txt", "HANDLES"):
        shutil.copy2(os.path.join(TOP, file), folder)
    skipped = shutil.ignore_patterns("incremental", GATE, SECOND)
    shutil.copytree(CRATES, os.path.join(folder, "crates"), ignore=skipped)
    for name, paths in edits.items():
        tried = os.path.join(folder, "crates", name, GATE)
        os.mkdir(tried)
        for path in paths:
            shutil.copy2(path, tried)


def try_all(folder, name, paths):
    """Tries the edits of a crate in the copy. Prints what is said of each, and tells how many are refused."""
    ran = subprocess.run(["rt", "must-fail", name], cwd=folder, capture_output=True, text=True, errors="replace")
    said = dict(re.findall(rf"must-fail {name}/(\S+): (.*)", ran.stdout))
    lines = []
    for path in paths:
        file = os.path.basename(path)
        lines.append(f"{name}/{file}: {said.get(file, 'NOT TRIED')}")
    print("\n".join(lines), flush=True)
    if len(said) < len(paths):
        print(ran.stdout + ran.stderr, file=sys.stderr, flush=True)
    return sum(said.get(os.path.basename(path), "").startswith(REFUSED) for path in paths)


def edits_of(names, tiers):
    """The edits of each crate that has any in these folders."""
    found = {name: [path for tier in tiers for path in files_in(name, tier)] for name in names}
    return {name: paths for name, paths in found.items() if paths}


def refused_in(edits, jobs):
    """Tries edits, the crates side by side in so many jobs, and tells how many are refused."""
    if not edits:
        return 0
    for name in edits:
        build_below(name)
    with tempfile.TemporaryDirectory(prefix="wrong-bodies-") as folder, ThreadPoolExecutor(jobs) as pool:
        copy_into(folder, edits)
        return sum(pool.map(lambda one: try_all(folder, *one), edits.items()))


def arguments():
    parser = argparse.ArgumentParser(description=__doc__.splitlines()[0])
    known = sorted(os.listdir(CRATES))
    parser.add_argument("names", nargs="*", metavar="NAME", help="a crate; without any, all are meant")
    parser.add_argument("--stands", action="store_true", help="only see that each edit can be made, in both folders")
    parser.add_argument("--all-tiers", action="store_true", help=f"also try those in {GATE}/")
    parser.add_argument("--jobs", type=int, default=1, metavar="N", help="how many crates are tried side by side")
    asked = parser.parse_args()
    for name in asked.names:
        if name not in known:
            parser.error(f"there is no crate {name}")
    if asked.jobs < 1:
        parser.error("there is no work without a job")
    asked.names = asked.names or known
    return asked


def main():
    asked = arguments()
    if faults := [line for name in asked.names for line in faults_of(name)]:
        sys.exit("\n".join(faults))
    if asked.stands:
        print(f"{sum(map(len, edits_of(asked.names, (GATE, SECOND)).values()))} edits stand")
        return
    edits = edits_of(asked.names, (GATE, SECOND) if asked.all_tiers else (SECOND,))
    count, refused = sum(map(len, edits.values())), refused_in(edits, asked.jobs)
    print(f"{refused} refused, {count - refused} not")
    sys.exit(0 if refused == count else 1)


if __name__ == "__main__":
    main()
