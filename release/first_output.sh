#!/usr/bin/env bash
# Makes the first call of popsample that README shows, and compares what is printed:
#
#     release/first_output.sh COMMAND..
#
# COMMAND stands in the place of `popsample`, as `chroot FOLDER popsample`. The status is 0 where the output is that of
# README, 1 where it isn't, and 2 where the call is wrong.
set -euo pipefail

if [ $# -eq 0 ]; then
    echo "usage: release/first_output.sh COMMAND.." >&2
    exit 2
fi
cd "$(dirname "$0")/.."
# The call, and behind it what it prints: up to the next call, or to the end of the block.
shown=$(awk '/^\$ popsample / && !shown { shown = 1; print; next }
    shown && (/^\$ / || /^```/) { exit } shown { print }' README.md)
call=$(head -n 1 <<< "$shown")
place=("$@")
popsample() { command "${place[@]}" "$@"; }
diff <(tail -n +2 <<< "$shown") <(eval "${call#"\$ "}")
