#!/usr/bin/env bash
# Makes the library for C of what `rt lib` in crates/popsample_c, or c/archive.sh, built:
#
#     c/build.sh [OUT]
#
# OUT, which is crates/popsample_c/out where none is named, gets libpopsample.a and libpopsample.so. Of what they hold,
# the calls of include/popsample.h alone can be seen from outside, and of others they need malloc, realloc, free and three
# functions that copy and fill memory. It takes the kit, whose object calls malloc for the library, and a C compiler with
# its linker.
#
# Three variables are for another machine: ARCHIVE is what the compiler built for it, MEMORY the object or the archive
# that calls malloc, and CROSS the prefix of its C compiler and its binutils.
#
# The status is 0 where both are made, 1 where something failed, and 2 where the call is wrong.
set -euo pipefail

here=$(realpath "$(dirname "$0")")
crate=$here/../crates/popsample_c/out
archive=${ARCHIVE:-$crate/libpopsample_c.a}
cross=${CROSS:-}
if [ $# -gt 1 ] || [ ! -f "$archive" ]; then
    echo "usage: c/build.sh [OUT], behind \`rt lib\` in crates/popsample_c, or c/archive.sh" >&2
    exit 2
fi
out=${1:-$crate}
mkdir -p "$out"
kit=$(dirname "$(rt doc)")
room=$(mktemp -d)
trap 'rm -rf "$room"' EXIT

# The calls that the header declares.
mapfile -t kept < <(sed -n 's/^uint32_t \(popsample_[a-z]*\)(.*/--keep-global-symbol=\1/p' "$here/include/popsample.h")

# All of the crate, and what that calls of the memory, as one object.
"${cross}ld" -r -o "$room/popsample.o" --whole-archive "$archive" --no-whole-archive "${MEMORY:-$kit/c/liblibc_c.a}"
"${cross}objcopy" "${kept[@]}" --strip-unneeded -R .comment "$room/popsample.o"
rm -f "$out/libpopsample.a"
"${cross}ar" rcsD "$out/libpopsample.a" "$room/popsample.o"
"${CC:-${cross:+${cross}g}cc}" -shared -s -nostartfiles -o "$out/libpopsample.so" -Wl,-soname,libpopsample.so.0 \
    -Wl,--gc-sections -Wl,-z,defs,-z,relro,-z,now,-z,noexecstack -Wl,--build-id=none "$room/popsample.o"
