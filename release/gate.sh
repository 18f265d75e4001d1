#!/usr/bin/env bash
# What the gate asks of a release: a built program is packed twice into the same bytes, and not with the record of a run
# that failed, or that proved some crates alone; release/test.sh passes what was packed, and refuses it where a byte of
# the program or of SHA256SUMS is another one.
#
#     release/gate.sh PROGRAM RECORD [LIBRARIES]
#
# The words are those of release/build.sh, and LIBRARIES is its variable. The status is 0 where all is so, 1 where
# something isn't, and 2 where the call is wrong.
set -euo pipefail

if [ $# -lt 2 ] || [ $# -gt 3 ] || [ ! -x "$1" ] || [ -d "$1" ] || [ ! -f "$2" ]; then
    echo "usage: release/gate.sh PROGRAM RECORD [LIBRARIES]" >&2
    exit 2
fi
program=$(realpath "$1")
record=$(realpath "$2")
LIBRARIES=${3:+$(realpath "$3")}
export LIBRARIES
cd "$(dirname "$0")/.."
room=$(mktemp -d)
trap 'rm -rf "$room"' EXIT

# Puts another byte in the place of the one at an offset: FILE OFFSET.
change_byte() {
    local byte
    byte=$(od -An -tu1 -j "$2" -N 1 "$1")
    # shellcheck disable=SC2059 # The byte is the format.
    printf "\\x$(printf %x $((byte ^ 1)))" | dd of="$1" bs=1 seek="$2" conv=notrunc status=none
}

# A changed release is refused with these words.
refused() {
    local told
    if told=$(release/test.sh "$room/changed" 2>&1) || [[ $told != *"$1"* ]]; then
        echo "release/gate.sh: this was to be refused, since $1: $told" >&2
        exit 1
    fi
}

release/build.sh "$program" "$room/first" "$record"
release/build.sh "$program" "$room/second" "$record"
diff -r "$room/first" "$room/second"
echo "packed twice: ok"

for verdict in "97 passed, 1 failed" "9 passed, 0 failed (pop_rows and the crates below alone: not the gate)"; do
    printf 'logic=proved functions=1\n%s\n' "$verdict" > "$room/bad"
    if told=$(release/build.sh "$program" "$room/unproved" "$room/bad" 2>&1) || [[ $told != *"or a bad one"* ]]; then
        echo "release/gate.sh: this record was to be refused: $verdict" >&2
        exit 1
    fi
done
echo "bad records: refused"

cp -r "$room/first" "$room/changed"
change_byte "$room/changed/SHA256SUMS" 0
refused "SHA256SUMS isn't of what is there"

# The changed program is packed, and its archive is put to the rest with sums that are right.
cp "$program" "$room/program"
change_byte "$room/program" $(($(stat -c %s "$program") / 2))
release/build.sh "$room/program" "$room/other" "$record"
rm -r "$room/changed"
cp -r "$room/first" "$room/changed"
cp "$room/other"/*.tar.gz "$room/changed"
refused "SHA256SUMS isn't of what is there"
(cd "$room/changed" && rm SHA256SUMS && LC_ALL=C && sums=$(sha256sum -- *) && echo "$sums" > SHA256SUMS)
refused "isn't the program of PROVENANCE.txt"
echo "changed bytes: refused"

release/test.sh "$room/first"
