#!/usr/bin/env bash
# Links the program with the C library as a whole, for systems with an older glibc than the program asks for, or none:
#
#     release/static.sh OBJECT PROGRAM
#
# OBJECT is what the build leaves beside the program, crates/popsample/out/popsample.o. It takes the kit, whose runtime
# is linked too, and a C compiler with a static C library, as of Debian's packages gcc and libc6-dev. Who passes the
# program on owes what glibc's licence, the LGPL, asks of a program that it is linked with.
#
# The status is that of the linker, and 2 where the call is wrong.
set -euo pipefail

if [ $# -ne 2 ] || [ ! -f "$1" ]; then
    echo "usage: release/static.sh OBJECT PROGRAM" >&2
    exit 2
fi
kit=$(dirname "$(rt doc)")
exec "${CC:-cc}" -static-pie -s -Wl,--gc-sections,-z,relro,-z,now,-z,noexecstack -o "$2" "$1" \
    "$kit/c/libos_c.a" "$kit/c/liblibc_c.a"
