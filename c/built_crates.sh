# shellcheck shell=bash
# For scripts that have the kit's compiler build a crate over the others, as `rt ci` has proved and built them. They
# source it, at any place:
#
#     . c/built_crates.sh
#
# `rt lib` and `rt run` take over nothing of `rt ci`, and would prove all crates below once more.
kit=$(dirname "$(rt doc)")
crates=$(realpath "$(dirname "${BASH_SOURCE[0]}")/../crates")

# Proves a crate and builds it: NAME ROOT OUTPUT FLAG.. The flags name the kind of the output, its target and the
# toolchain. The status is the compiler's, and 2 if a crate below isn't built.
build_over_crates() (
    name=$1 root=$2 output=$(realpath -m "$3")
    shift 3
    cd "$crates/$name" || exit
    words=(--extern "std=$kit/rlibs/std.rlib" -L "dependency=$kit/rlibs")
    # The line of the crate names those that it uses directly; the compiler finds the others beside them.
    read -r -a lower < <(sed -n "s/^$name\( staticlib\)\?: *\([^#]*\).*/\2/p" ../../crates.txt)
    for used in "${lower[@]}"; do
        built=$crates/$used/out/rlib/$used.rlib
        [ -d "$crates/$used" ] || built=$kit/rlibs/$used.rlib
        if [ ! -d "$built" ]; then
            echo "$(basename "$0"): $used isn't built: run \`rt ci\` first" >&2
            exit 2
        fi
        words+=(--extern "$used=$built")
    done
    for folder in "$crates"/*/out/rlib; do
        words+=(-L "dependency=$folder")
    done
    mkdir -p "$(dirname "$output")"
    exec "$kit/bin/rattle" build --crate-name "$name" "$root" "$@" "${words[@]}" \
        --antt-project "$kit/rattle/logic/antt-project.json" --logic-built "$kit/logic_built" --links "$name=" \
        -o "$output"
)
