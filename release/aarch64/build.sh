#!/usr/bin/env bash
# Makes the program and the library for C for ARM64 Linux, over the crates as `rt ci` has proved and built them:
#
#     release/aarch64/build.sh OUT
#
# OUT gets popsample, libpopsample.a and libpopsample.so, to be packed by release/build.sh. The compiler proves
# popsample and popsample_c once more, for this target. The kit has no C for it: heap.c and os.c replace that. The
# script takes the kit and Debian's gcc-aarch64-linux-gnu with libc6-dev-arm64-cross. Equal crates and tools make equal
# bytes.
#
# The status is 0 if all is made, 2 if the call is wrong or a crate isn't built, and else that of the tool that failed.
set -euo pipefail

if [ $# -ne 1 ]; then
    echo "usage: release/aarch64/build.sh OUT" >&2
    exit 2
fi
out=$(realpath -m "$1")
cd "$(dirname "$0")"
. ../../c/built_crates.sh
cross=aarch64-linux-gnu-
target=(--target aarch64-unknown-linux-gnu --toolchain "$kit/toolchain" --backend llvm)
room=$(mktemp -d)
trap 'rm -rf "$room"' EXIT
mkdir -p "$out"

build_over_crates popsample src/main.rt "$room/popsample.o" "${target[@]}" &
build_over_crates popsample_c src/lib.rt "$room/libpopsample_c.a" --crate-type staticlib "${target[@]}"
wait $!
for name in heap os; do
    "${cross}gcc" -O2 -Wall -Wextra -Werror -fPIC -c "$name.c" -o "$room/$name.o"
done
"${cross}gcc" -pthread -s -Wl,--gc-sections,-z,relro,-z,now,-z,noexecstack -Wl,--build-id=none -o "$out/popsample" \
    "$room/popsample.o" "$room/heap.o" "$room/os.o"
ARCHIVE=$room/libpopsample_c.a MEMORY=$room/heap.o CROSS=$cross ../../c/build.sh "$out"
