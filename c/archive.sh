#!/usr/bin/env bash
# Makes crates/popsample_c/out/libpopsample_c.a over the crates as `rt ci` has just proved and built them:
#
#     c/archive.sh
#
# `rt ci` only checks a static library. If checks of somebody's own are kept in this checkout, `rt lib` takes these.
#
# The status is that of the compiler, and 2 if a crate isn't built.
set -euo pipefail

cd "$(dirname "$0")/../crates/popsample_c"
# Only what `rt ci` built has no stamp.
if compgen -G "../*/out/rlib/stamp" > /dev/null; then
    exec rt lib
fi
. ../../c/built_crates.sh
build_over_crates popsample_c src/lib.rt out/libpopsample_c.a --crate-type staticlib --toolchain "$kit/toolchain" \
    --backend llvm
