#!/usr/bin/env bash
# Checks the documents: their prose, the names and tables in them, the code blocks of tutorials and how-to guides, and
# the site, which is left in OUT:
#
#     docs/check.sh PROGRAM OUT [LIBRARY]
#
# PROGRAM is a built program, and LIBRARY a libpopsample.so. What needs a package that is not installed is left out, and
# a line says so.
#
# The status is 0 if all is well, 1 if something is not, and 2 if the call is wrong.
set -euo pipefail

if [ $# -lt 2 ] || [ $# -gt 3 ] || [ ! -x "$1" ] || [ -d "$1" ] || [ ! -f "${3:-$1}" ]; then
    echo "usage: docs/check.sh PROGRAM OUT [LIBRARY]" >&2
    exit 2
fi
program=$(realpath "$1")
out=$(realpath -m "$2")
library=${3:+$(realpath "$3")}
cd "$(dirname "$0")/.."
python3 -B -m checks.prose
python3 -B -m checks.names
python3 -B -m checks.tables
# The system's Python has the packages of the system.
for python in /usr/bin/python3 python3; do
    if "$python" -c 'import sys; sys.exit(sys.version_info < (3, 11))' 2> /dev/null; then
        "$python" -B -m checks.blocks --program "$program" ${library:+--library "$library"}
        break
    fi
done
docs/build.sh "$out"
