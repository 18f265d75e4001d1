#!/usr/bin/env bash
# Checks the text of the module with the tools that are installed:
#
#     python/lint.sh
#
# mypy checks the types, strictly; ruff, or else pyflakes, looks for faults and unused names; pydocstyle checks that the
# docstrings are in numpy's form; and numpydoc checks the sections of the docstrings of what the module exports.
#
# A tool is looked for as a command, as a package of `python3`, and as one of the system's Python. One that isn't
# installed is named and left out. The status is 0 if nothing is wrong, and 1 if something is.
set -euo pipefail

cd "$(dirname "$0")"
checked=(popsample wheel_backend.py lint_docstrings.py)
failed=0

# Prints the Python that has a package, if there is one of a version that the module takes.
python_with() {
    local python
    for python in python3 /usr/bin/python3; do
        if "$python" -c "import sys, $1; sys.exit(sys.version_info < (3, 11))" 2> /dev/null; then
            echo "$python"
            return
        fi
    done
}

# Runs a tool on what is checked, if it is installed: NAME WORD..
lint() {
    local name=$1 python
    shift
    local command=("$name")
    if ! command -v "$name" > /dev/null; then
        python=$(python_with "$name")
        command=(${python:+"$python" -B -m "$name"})
    fi
    if [ ${#command[@]} -eq 0 ]; then
        echo "$name: left out, since it isn't installed"
    elif "${command[@]}" "$@" "${checked[@]}"; then
        echo "$name: ok"
    else
        failed=1
    fi
}

cache=$(mktemp -d)
trap 'rm -rf "$cache"' EXIT
lint mypy --cache-dir "$cache"
lint pydocstyle
if command -v ruff > /dev/null; then
    lint ruff check --no-cache
elif command -v pyflakes3 > /dev/null; then
    lint pyflakes3
else
    lint pyflakes
fi
python=$(python_with numpydoc)
"${python:-python3}" -B lint_docstrings.py || failed=1
exit $failed
