#!/usr/bin/env bash
# Makes popsample for browsers and Node, over the crates as `rt ci` has proved and built them:
#
#     web/build.sh OUT
#
# OUT gets package/, the npm package, and site/, the page that draws samples, which any web server can serve. Both have
# two modules: popsample.wasm with vectors and 64 bits, and popsample32.wasm, which is portable.
#
# The compiler writes no module for wasm64 that takes memory from C. So it compiles popsample_c for x86-64 with a
# toolchain folder whose clang compiles the code for wasm64 (clang_wasm64.sh), and heap.c has the memory. The script
# takes the kit, Node and Debian's binaryen. Equal crates and tools make equal bytes.
#
# The status is 0 if all is made, 2 if the call is wrong or a crate isn't built, and else that of the tool that failed.
set -euo pipefail

if [ $# -ne 1 ]; then
    echo "usage: web/build.sh OUT" >&2
    exit 2
fi
out=$(realpath -m "$1")
cd "$(dirname "$0")"
. ../c/built_crates.sh
tools=$kit/toolchain/bin
wasm64="wasm64-unknown-unknown"
room=$(mktemp -d)
trap 'rm -rf "$room"' EXIT

# The toolchain folder with the other clang, which leaves plain.o there.
lay_out_toolchain() {
    mkdir -p "$room/toolchain/bin"
    ln -s "$kit/toolchain/lib" "$room/toolchain"
    ln -s "$tools"/* "$room/toolchain/bin"
    mv "$room/toolchain/bin/clang" "$room/toolchain/bin/clang-22"
    ln -s "$PWD/clang_wasm64.sh" "$room/toolchain/bin/clang"
}

# The library with its memory: vectors.a, and plain.a without vectors.
compile_library() {
    build_over_crates popsample_c src/lib.rt "$room/vectors.a" --crate-type staticlib --backend llvm \
        --target x86_64-unknown-linux-gnu --cpu x86-64 --toolchain "$room/toolchain"
    "$tools/clang" --target=$wasm64 -mcpu=lime1 -O3 -Wall -Wextra -Werror -ffreestanding -c heap.c -o "$room/heap.o"
    "$tools/llvm-ar" r "$room/vectors.a" "$room/heap.o"
    "$tools/llvm-ar" rc "$room/plain.a" "$room/toolchain/plain.o" "$room/heap.o"
}

# Links a module: NAME OUTPUT, of the archive NAME.a.
link_module() {
    "$kit/bin/rattle-link" --target $wasm64 --toolchain "$kit/toolchain" -o "$2" "$room/$1.a"
}

# The module of 32 bits, of the one without vectors: wasm-opt 108 lowers neither vectors nor tables of 64 bits.
lower_module() {
    local features=(--enable-bulk-memory --enable-sign-ext --enable-nontrapping-float-to-int --enable-mutable-globals)
    link_module plain "$room/plain.wasm"
    node lower_tables.mjs "$room/plain.wasm" "$room/tables.wasm"
    wasm-opt --enable-memory64 "${features[@]}" --memory64-lowering "$room/tables.wasm" -o "$room/lowered.wasm"
    wasm-opt "${features[@]}" -O3 "$room/lowered.wasm" -o "$1"
}

lay_out_package() {
    mkdir -p "$out/package"
    cp -r package/. "$out/package"
    node sentences.mjs > "$out/package/sentences.js"
    ../release/copyright.py > "$out/package/copyright"
    link_module vectors "$out/package/popsample.wasm"
    lower_module "$out/package/popsample32.wasm"
    node label.mjs "$out/package/popsample.wasm"
    node label.mjs "$out/package/popsample32.wasm"
}

lay_out_site() {
    mkdir -p "$out/site/popsample"
    cp -r page/. "$out/site"
    cp "$out"/package/*.{js,wasm} "$out/site/popsample"
    cp "$out/package/copyright" "$out/site/popsample/copyright.txt"
}

lay_out_toolchain
compile_library
lay_out_package
lay_out_site
