#!/usr/bin/env bash
# Tries what release/aarch64/build.sh made, under qemu where this machine has another processor:
#
#     release/aarch64/test.sh OUT
#
# The program answers all cases, and several workers on both boards print what one prints; the libraries pass c/test.sh.
# It takes Debian's gcc-aarch64-linux-gnu, libc6-dev-arm64-cross and qemu-user.
#
# The status is 0 if all is well, 1 if something isn't, and 2 if the call is wrong.
set -euo pipefail

if [ $# -ne 1 ] || [ ! -x "$1/popsample" ]; then
    echo "usage: release/aarch64/test.sh OUT, as release/aarch64/build.sh makes it" >&2
    exit 2
fi
out=$(realpath "$1")
cd "$(dirname "$0")/../.."
room=$(mktemp -d)
trap 'rm -rf "$room"' EXIT
program=$room/popsample
cp "$out/popsample" "$program"
release/runnable.sh "$program"

# Several workers print what one prints, on both boards: WORD.., with the input of the call.
workers_agree() {
    local workers board
    cat > "$room/input"
    "$program" "$@" < "$room/input" > "$room/alone"
    for workers in 4 8; do
        for board in words lock; do
            if ! "$program" "$@" --workers $workers --board $board < "$room/input" | cmp - "$room/alone"; then
                echo "release/aarch64/test.sh: $workers workers on $board differ from one: popsample $*" >&2
                exit 1
            fi
        done
    done
}

examples/cases/compare.sh "$program"
workers_agree make grid 100 < /dev/null
workers_agree tree --root 2 --log on < examples/roads.col
python3 -B examples/grid.py 40 | workers_agree tree
python3 -B examples/grid.py 30 | workers_agree orient --log on
workers_agree formula < examples/petersen.cnf
echo "workers for aarch64: ok"
CROSS=aarch64-linux-gnu- c/test.sh "$out"
