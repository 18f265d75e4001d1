#!/usr/bin/env bash
# Checks the text of the Python module, as `python/lint.sh` does, and runs its tests with a built program, if there is a
# python3 that the module takes, and once more with a built library, if one is named:
#
#     python/test.sh PROGRAM [LIBRARY]
#
# LIBRARY is a libpopsample.so. The status is 0 if all passed or there is no such python3, 1 if some failed, and 2 if the
# call is wrong.
set -euo pipefail

if [ $# -lt 1 ] || [ $# -gt 2 ] || [ ! -x "$1" ] || [ -d "$1" ] || [ ! -f "${2:-$1}" ]; then
    echo "usage: python/test.sh PROGRAM [LIBRARY]" >&2
    exit 2
fi
if ! python3 -c 'import sys; sys.exit(sys.version_info < (3, 11))' 2> /dev/null; then
    echo "python: not tested, since there is no python3 from 3.11 on"
    exit 0
fi
# The repository stays as it is.
export PYTHONDONTWRITEBYTECODE=1
POPSAMPLE=$(realpath "$1")
export POPSAMPLE
# The empty name says that there is none.
libraries=("" ${2:+"$(realpath "$2")"})
cd "$(dirname "$0")"
./lint.sh
for POPSAMPLE_LIBRARY in "${libraries[@]}"; do
    export POPSAMPLE_LIBRARY
    python3 -m unittest discover -s tests -t .
done
