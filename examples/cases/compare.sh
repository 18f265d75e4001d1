#!/usr/bin/env bash
# Runs all cases with a built program, and the commands that the documents show, and compares what each prints, byte for
# byte, and its status with what stands in the repository. README.md tells the form of a case.
#
#     examples/cases/compare.sh PROGRAM
#
# The status is 0 where everything agrees, 1 where something differs, and 2 where the call is wrong.
set -uo pipefail

# The documents whose commands behind '$ ' are run, in their order.
documents="README.md docs/FORMATS.md examples/README.md"

# What agreed and what differed so far.
agreed=0
differed=0

# Counts what was compared: its name, its output as a file, and the wanted output as a file.
judge() {
    if diff -u --label "wanted: $1" --label "printed: $1" "$3" "$2"; then
        agreed=$((agreed + 1))
    else
        differed=$((differed + 1))
    fi
}

# Lays out the folder in which cases are run: the inputs, and the output of each case as NAME.out.
lay_out_cases() {
    local case
    mkdir "$room/cases"
    ln -s "$top"/examples/*.cnf "$top"/examples/*.col "$top"/examples/cases/*.cert "$room/cases"
    for case in "$top"/examples/cases/*.case; do
        sed -e 1d -e '$d' "$case" > "$room/cases/$(basename "$case" .case).out"
    done
}

# Runs the command in the first line of a case; the other lines are what it prints, and the status.
compare_case() {
    local case=$1 command
    read -r _ command < "$case"
    (cd "$room/cases" && bash -c "$command") > "$room/printed" 2>&1 < /dev/null
    echo "status $?" >> "$room/printed"
    sed 1d "$case" > "$room/wanted"
    judge "${case#"$top/"}" "$room/printed" "$room/wanted"
}

# Runs a command that a document shows; the output that it shows is in the file `wanted`.
compare_command() {
    local document=$1 command=$2
    (cd "$room/$document" && bash -c "$command") > "$room/printed" 2>&1 < /dev/null
    judge "$document: $command" "$room/printed" "$room/wanted"
}

# Runs the commands of a document, all in one folder of their own, from which the repository's folders are seen.
compare_document() {
    local document=$1 line command="" fence='```'
    mkdir -p "$room/$document"
    ln -s "$top/examples" "$top/docs" "$top/checker" "$room/$document"
    while IFS= read -r line; do
        if [ -n "$command" ] && [[ $line == "\$ "* || $line == "$fence" ]]; then
            compare_command "$document" "$command"
            command=""
        elif [ -n "$command" ]; then
            echo "$line" >> "$room/wanted"
        fi
        if [[ $line == "\$ "* ]]; then
            command=${line#"\$ "}
            : > "$room/wanted"
        fi
    done < "$top/$document"
}

if [ $# -ne 1 ] || [ ! -x "$1" ] || [ -d "$1" ]; then
    echo "usage: examples/cases/compare.sh PROGRAM" >&2
    exit 2
fi
room=$(mktemp -d)
trap 'rm -rf "$room"' EXIT
mkdir "$room/bin"
ln -s "$(realpath "$1")" "$room/bin/popsample"
PATH=$room/bin:$PATH
# The repository stays as it is.
export PYTHONDONTWRITEBYTECODE=1
top=$(cd "$(dirname "$0")/../.." && pwd) || exit 2

lay_out_cases
for case in "$top"/examples/cases/*.case; do
    compare_case "$case"
done
for document in $documents; do
    compare_document "$document"
done

echo "examples: $agreed agree, $differed differ"
[ "$differed" -eq 0 ]
