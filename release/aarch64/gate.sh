#!/usr/bin/env bash
# What the gate asks of ARM64 Linux: it is built, tried under qemu, packed twice into the same bytes, and what was
# packed passes release/test.sh:
#
#     release/aarch64/gate.sh RECORD
#
# RECORD is what the run printed that proved the crates. It is left out where Debian's gcc-aarch64-linux-gnu,
# libc6-dev-arm64-cross or qemu-user isn't installed, and a line says so.
#
# The status is 0 if all is well, 1 if something isn't, and 2 if the call is wrong or a crate isn't built.
set -euo pipefail

if [ $# -ne 1 ] || [ ! -f "$1" ]; then
    echo "usage: release/aarch64/gate.sh RECORD" >&2
    exit 2
fi
record=$(realpath "$1")
cd "$(dirname "$0")/../.."
for tool in aarch64-linux-gnu-gcc qemu-aarch64; do
    if ! command -v $tool > /dev/null; then
        echo "aarch64: left out, since $tool isn't installed"
        exit 0
    fi
done
if [ ! -e /usr/aarch64-linux-gnu/include/stdlib.h ]; then
    echo "aarch64: left out, since libc6-dev-arm64-cross isn't installed"
    exit 0
fi
room=$(mktemp -d)
trap 'rm -rf "$room"' EXIT
release/aarch64/build.sh "$room/built"
release/aarch64/test.sh "$room/built"
for packed in first second; do
    LIBRARIES=$room/built release/build.sh "$room/built/popsample" "$room/$packed" "$record"
done
diff -r "$room/first" "$room/second"
release/test.sh "$room/first"
echo "aarch64: ok"
