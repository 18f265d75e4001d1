#!/usr/bin/env bash
# Tries the library for C as c/build.sh made it:
#
#     c/test.sh LIBRARIES
#
# LIBRARIES is the folder with libpopsample.a and libpopsample.so. Both are seen to export the calls of the header alone,
# and to need nothing of others but memory; each status is made, with too little room, with memory that is refused and on
# many threads, under valgrind where it is installed; the rows of calls with arrays are compared with the text of the same
# samples; the program over the library is tried on the examples, as popsample is; and the examples that call it from C,
# and from R and Julia where these are installed, draw the program's tree and solutions. It takes a C compiler and Python.
# CROSS is the prefix of the compiler and the binutils for libraries of another machine, whose programs
# release/runnable.sh has run.
#
# The status is 0 where all is well, 1 where something isn't, and 2 where the call is wrong.
set -euo pipefail
export LC_ALL=C

if [ $# -ne 1 ] || [ ! -f "$1/libpopsample.a" ] || [ ! -f "$1/libpopsample.so" ]; then
    echo "usage: c/test.sh LIBRARIES, as c/build.sh makes them" >&2
    exit 2
fi
libraries=$(realpath "$1")
cd "$(dirname "$0")"
room=$(mktemp -d)
trap 'rm -rf "$room"' EXIT
cross=${CROSS:-}
compile=("${CC:-${cross:+${cross}g}cc}" -Wall -Wextra -Wpedantic -Werror -O2 -Iinclude)

fail() {
    echo "c/test.sh: $*" >&2
    exit 1
}

# The symbols that nm tells, without versions: WORDS FILE.
symbols_of() {
    # shellcheck disable=SC2086 # The words are several.
    "${cross}nm" $1 -f posix "$2" | sed -n 's/[ @].* *//p' | grep -v ':$' | sort -u
}

# Compiles a program that this machine can run: PROGRAM WORD..
link_program() {
    "${compile[@]}" -o "$@"
    ../release/runnable.sh "$1"
}

check_symbols() {
    local words file more calls
    calls=$(sed -n 's/^uint32_t \(popsample_[a-z]*\)(.*/\1/p' include/popsample.h | sort)
    while read -r file words; do
        [ "$(symbols_of "$words --defined-only" "$libraries/$file")" = "$calls" ] \
            || fail "$file exports something else"
        more=$(symbols_of "$words --undefined-only" "$libraries/$file" \
            | grep -vxE 'malloc|realloc|free|memcpy|memmove|memset') || continue
        fail "$file needs more: $more"
    done << 'FILES'
libpopsample.a -g
libpopsample.so -D
FILES
    echo "symbols: ok"
}

check_header() {
    "${compile[@]}" -std=c99 -fsyntax-only -x c include/popsample.h
    if command -v "${CXX:-c++}" > /dev/null; then
        echo '#include <popsample.h>' \
            | "${CXX:-c++}" -Wall -Wextra -Wpedantic -Werror -std=c++11 -Iinclude -fsyntax-only -x c++ -
    fi
    echo "header: ok"
}

check_calls() {
    local name
    for name in calls arrays; do
        link_program "$room/$name" -g -std=c11 -pthread $name.c memory.c "$libraries/libpopsample.a" \
            -Wl,--wrap=malloc,--wrap=realloc,--wrap=free
        "$room/$name"
        if [ -n "$cross" ]; then
            echo "valgrind: left out, since it runs no programs of another machine"
        elif command -v valgrind > /dev/null; then
            valgrind --quiet --error-exitcode=1 --leak-check=full "$room/$name" || fail "valgrind has something to say"
            echo "valgrind: ok"
        else
            echo "valgrind: left out, since it isn't installed"
        fi
    done
}

# Rows of the calls with arrays are the samples of the program over the library.
check_rows() {
    # Python loads the libraries of this machine.
    [ -z "$cross" ] || return 0
    (cd .. && python3 -B -m checks.arrays --library "$libraries/libpopsample.so" --graphs 1000 --formulas 1000) \
        || fail "rows differ"
}

# An example prints the arrows of the tree that the program prints: NAME COMMAND.., which is run where R's library lies.
draws_a_tree() {
    diff <("$room/static/popsample" tree --key "$key" < "$roads" | sed -n 's/^a \([0-9]*\) \([0-9]*\) .*/\1 -> \2/p') \
        <(cd "$room" && "${@:2}" < "$roads") || fail "the example in $1 draws another tree"
    echo "example in $1: ok"
}

# An example prints the solutions that the program prints, by popping, and by rounds if clauses clash: NAME COMMAND..
draws_solutions() {
    diff <("$room/static/popsample" formula --key "$key" --count 5 < "$formulas/chain.cnf" | grep '^v ') \
        <(cd "$room" && "${@:2}" 5 < "$formulas/chain.cnf") || fail "the example in $1 draws other solutions"
    diff <("$room/static/popsample" rounds --key "$key" < "$formulas/options.cnf" | grep '^v ') \
        <(cd "$room" && "${@:2}" 1 < "$formulas/options.cnf") || fail "the example in $1 draws another solution by rounds"
    echo "solutions in $1: ok"
}

check_callers() {
    local callers=../examples/in_process formulas roads key name
    roads=$(realpath ../examples/roads.col)
    formulas=$(realpath ../examples)
    key=$(sed -n 's/^key.*"\(.*\)"$/\1/p' "$callers/tree.jl")
    for name in tree array_tree; do
        link_program "$room/$name" -std=c99 "$callers/$name.c" "$libraries/libpopsample.a"
        draws_a_tree C "$room/$name" "$key"
    done
    link_program "$room/array_solutions" -std=c99 "$callers/array_solutions.c" "$libraries/libpopsample.a"
    draws_solutions C "$room/array_solutions" "$key"
    # R and Julia run the libraries of this machine.
    [ -z "$cross" ] || return 0
    if command -v R > /dev/null; then
        # The linker's object goes beside its source.
        cp "$callers"/*_r.c "$callers"/*.R "$room"
        for name in popsample_r popsample_trees_r popsample_solutions_r; do
            PKG_CPPFLAGS=-I$PWD/include PKG_LIBS=$libraries/libpopsample.a \
                R CMD SHLIB --output="$room/$name.so" "$room/$name.c" > "$room/log" 2>&1 || fail "$(cat "$room/log")"
        done
        draws_a_tree R Rscript "$room/tree.R" "$roads"
        draws_a_tree R Rscript "$room/array_tree.R" "$roads"
        draws_solutions R Rscript "$room/array_solutions.R"
    fi
    if command -v julia > /dev/null; then
        for name in tree array_tree; do
            POPSAMPLE_LIBRARY=$libraries/libpopsample.so draws_a_tree Julia julia "$PWD/$callers/$name.jl" "$roads"
        done
        POPSAMPLE_LIBRARY=$libraries/libpopsample.so draws_solutions Julia julia "$PWD/$callers/array_solutions.jl"
    fi
}

check_examples() {
    mkdir "$room/static" "$room/shared"
    link_program "$room/static/popsample" -std=c99 popsample_main.c "$libraries/libpopsample.a"
    link_program "$room/shared/popsample" -std=c99 popsample_main.c -L"$libraries" -lpopsample
    ../examples/cases/compare.sh "$room/static/popsample" || fail "the library differs from the cases"
    cp "$libraries/libpopsample.so" "$room/shared/libpopsample.so.0"
    LD_LIBRARY_PATH=$room/shared ../release/first_output.sh "$room/shared/popsample" || fail "libpopsample.so differs"
    echo "shared library: ok"
}

check_symbols
check_header
check_calls
check_rows
check_examples
check_callers
