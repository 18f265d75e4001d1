#!/usr/bin/env bash
# Makes a program runnable on this machine, where it stands:
#
#     release/runnable.sh PROGRAM
#
# A program for this processor stays as it is. One for aarch64 becomes PROGRAM.foreign, and PROGRAM a script that runs
# it by qemu, which Debian's package qemu-user has, over the libraries of libc6-arm64-cross.
#
# The status is 0 if PROGRAM can be run, 1 if qemu is missing or its processor isn't known, and 2 if the call is wrong.
set -euo pipefail

if [ $# -ne 1 ] || [ ! -f "$1" ]; then
    echo "usage: release/runnable.sh PROGRAM" >&2
    exit 2
fi
program=$(realpath "$1")
# The processor in the head of an ELF file (System V ABI, 4.1).
case $(od -An -tx1 -j 18 -N 2 "$program" | tr -d ' ')-$(uname -m) in
3e00-x86_64 | b700-aarch64) exit 0 ;;
b700-*) ;;
*)
    echo "release/runnable.sh: $program is for a processor that isn't known" >&2
    exit 1
    ;;
esac
if ! command -v qemu-aarch64 > /dev/null; then
    echo "release/runnable.sh: qemu-aarch64 isn't installed" >&2
    exit 1
fi
mv "$program" "$program.foreign"
# shellcheck disable=SC2016 # The words are those of the script.
printf '#!/bin/sh\nexec qemu-aarch64 -L /usr/aarch64-linux-gnu "%s" "$@"\n' "$program.foreign" > "$program"
chmod +x "$program"
