#!/usr/bin/env bash
# Replaces clang in a toolchain folder that build.sh lays out. It takes the LLVM module that the compiler wrote for
# x86-64, and compiles it for wasm64 with the flags that the compiler uses for that target: into the object that is
# asked for, with vectors, and into plain.o of the folder, without. clang-22 of the folder is the kit's clang.
set -euo pipefail

folder=$(dirname "$0")/..
while [ $# -gt 0 ]; do
    case $1 in
    -o) object=$2 && shift ;;
    *.bc) module=$1 ;;
    esac
    shift
done
"$folder/bin/clang-22" --target=x86_64-unknown-linux-gnu -S -emit-llvm -Xclang -disable-llvm-passes -x ir \
    "$module" -o module.ll
# Only what sed changes below names a processor. The linker sees what the object calls of C.
if grep -qE '^declare .*@llvm\.(x86|aarch64)|^module asm|call .* asm ' module.ll; then
    echo "clang_wasm64.sh: the module has code of another processor" >&2
    exit 1
fi
layout="e-m:e-p:64:64-p10:8:8-p20:8:8-i64:64-i128:128-n32:64-S128-ni:1:10:20"
sed -i -e "s/^target datalayout = .*/target datalayout = \"$layout\"/" \
    -e 's/^target triple = .*/target triple = "wasm64-unknown-unknown"/' \
    -e '/^attributes /s/ "probe-stack"="[^"]*"/ "no-builtin-bcmp" "no-builtin-memcmp" "no-builtin-strlen"/' \
    -e '/^define internal/!s/^\(define .*@\([A-Za-z0-9_]*\)(.*)\) #/\1 "wasm-export-name"="\2" #/' \
    -e '/^attributes /s/ "\(stack-probe-size\|target-cpu\|target-features\)"="[^"]*"//g' module.ll

# Compiles the module: OUTPUT FLAG..
compile() {
    "$folder/bin/clang-22" --target=wasm64-unknown-unknown -mcpu=lime1 "${@:2}" -mllvm -expand-div-rem-bits=64 \
        -mllvm -expand-fp-convert-bits=64 -ffunction-sections -fdata-sections -mllvm -trap-unreachable \
        -mllvm -disable-machine-licm -mllvm -disable-postra-machine-licm -mllvm -sink-common-insts=false \
        --no-default-config -no-canonical-prefixes -fintegrated-cc1 -fno-crash-diagnostics -Werror -c -x ir module.ll \
        -o "$1" -O3
}

compile "$object" -msimd128 &
compile "$folder/plain.o"
wait $!
