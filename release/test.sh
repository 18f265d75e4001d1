#!/usr/bin/env bash
# Tries what release/build.sh packed, as somebody has it who has neither the kit nor this checkout:
#
#     release/test.sh OUT
#
# SHA256SUMS and PROVENANCE.txt tell what is there, to the byte; all that has a version has that of the file VERSION;
# the program answers the cases of examples/cases, and in a root with nothing but the C library that it asks for; and
# the packages and the wheel are put into folders of their own, without a network, where the module finds the program
# that came with it. It takes a python3 from 3.11 on with venv, and dpkg-deb. What takes root's rights or another tool
# is left out where these are missing, and a line says so. Of a release for another processor the programs are run by
# release/runnable.sh, the module calls the program, and the bare root is left out.
#
# The status is 0 where all is well, 1 where something isn't, and 2 where the call is wrong.
set -euo pipefail
shopt -s extglob
export LC_ALL=C

if [ $# -ne 1 ] || [ ! -f "$1/SHA256SUMS" ]; then
    echo "usage: release/test.sh OUT" >&2
    exit 2
fi
out=$(realpath "$1")
cd "$(dirname "$0")/.."
cases=examples/cases/compare.sh
version=$(cat VERSION)
room=$(mktemp -d)
trap 'rm -rf "$room"' EXIT
# The archive of a program that holds the C library has a name of its own.
archive=$(basename "$out"/popsample-*.tar.gz)
static=""
[[ $archive != *-static.tar.gz ]] || static=yes
machine=${archive#"popsample-$version-linux-"}
machine=${machine%.tar.gz}
machine=${machine%-static}
# The prefix of the C compiler for another processor.
cross=""
[ "$machine" = "$(uname -m)" ] || cross=$machine-linux-gnu-

fail() {
    echo "release/test.sh: $*" >&2
    exit 1
}

# Tells that a part is well, or why it is left out.
tell() {
    echo "$1: ${2:-ok}"
}

# Runs a command with nothing of this environment.
alone() {
    env -i PATH=/usr/bin:/bin "$@"
}

# The sums are worked out anew and compared as a whole: a line that can't be read, or a file without one, is found too.
check_sums() {
    (cd "$out" && sha256sum -- !(SHA256SUMS)) | diff "$out/SHA256SUMS" - || fail "SHA256SUMS isn't of what is there"
    tell "sums"
}

# The first number of a version in the first line of a document that begins so.
version_in() {
    grep -m 1 "^$2" "$1" | grep -oE '[0-9]+\.[0-9]+\.[0-9]+' | head -n 1 || true
}

check_version() {
    local document line named
    while read -r document line; do
        named=$(version_in "$document" "$line")
        [ "$named" = "$version" ] || fail "$document has the version '$named', and VERSION has $version"
    done << 'LINES'
docs/popsample.1 \.Os
CHANGELOG.md ##
CITATION.cff version:
LINES
    named=$({ cat README.md python/README.md && ls "$out"; } | grep -oE 'popsample[-_ ][0-9]+\.[0-9]+\.[0-9]+' \
        | grep -oE '[0-9.]+$' | sort -u | paste -s -d ' ')
    [ "$named" = "$version" ] || fail "the files and the pages name the versions '$named', and VERSION has $version"
    tell "version $version"
}

# What is unpacked has what PROVENANCE.txt tells of: NAME FILE, where NAME stands there.
check_sum() {
    echo "$(sed -n "s/^$1  *//p" "$out/PROVENANCE.txt")  $2" | sha256sum --quiet --strict --check \
        || fail "$2 isn't the $1 of PROVENANCE.txt"
}

# Whether there are libraries.
has_libraries() {
    grep -q "^shared lib " "$out/PROVENANCE.txt"
}

# The pages below a folder lead to no file that isn't there: FOLDER PAGE.., where some may be compressed.
check_pages() {
    local folder=$1 page
    shift
    for page in "$@"; do
        page=$(ls "$folder/$page"?(.gz)) || fail "$folder has no $page"
        # A link to a place in the page itself, or into the net, stays.
        ! zcat -f "$page" | grep -nE '\]\([^#)]|<img ' | grep -v '](https:' || fail "$page has a link that leads nowhere"
    done
}

# What else is unpacked says whose it is in the words of the archive: FILE..
check_copyright() {
    local file
    for file in "$@"; do
        cmp "$file" "$room/archive/share/doc/popsample/copyright" || fail "$file isn't that of the archive"
    done
}

check_archive() {
    local top=$room/archive
    mkdir "$top"
    tar -xzf "$out/$archive" -C "$top" --strip-components=1
    check_sum program "$top/bin/popsample"
    cmp "$top/share/doc/popsample/PROVENANCE.txt" "$out/PROVENANCE.txt" || fail "the archive comes from elsewhere"
    [[ $(< "$top/share/doc/popsample/copyright") == *"$(< LICENSE)"* ]] \
        || fail "the archive's copyright doesn't have the text of LICENSE"
    release/runnable.sh "$top/bin/popsample"
    "$cases" "$top/bin/popsample" || fail "the program of the archive differs from the cases"
    check_pages "$top/share/doc/popsample" README.md FORMATS.md DEFINITIONS.md
    ! has_libraries || check_libraries "$top" lib
    tell "archive"
}

# A program over the libraries below a folder answers as README says: TOP LIB, where LIB is the folder of libraries.
check_libraries() {
    local cc=${CC:-${cross:+${cross}g}cc} documents=$1/share/doc/libpopsample-dev key
    local compile=("$cc" -I"$1/include" -o "$room/linked" c/popsample_main.c)
    check_pages "$documents" README.md
    [ -f "$documents/examples/popsample_r.c" ] || fail "$documents has no example for R"
    check_sum "static lib" "$1/$2/libpopsample.a"
    check_sum "shared lib" "$1/$2/libpopsample.so.0"
    command -v "$cc" > /dev/null || return 0
    "${compile[@]}" "$1/$2/libpopsample.a"
    release/runnable.sh "$room/linked"
    release/first_output.sh "$room/linked" || fail "the program over libpopsample.a differs"
    "$cc" -I"$1/include" -o "$room/tree" "$documents/examples/tree.c" "$1/$2/libpopsample.a"
    release/runnable.sh "$room/tree"
    key=$(printf '0%.0s' {1..64})
    "$room/tree" "$key" < examples/roads.col > /dev/null || fail "the example for C fails"
    "${compile[@]}" -L"$1/$2" -lpopsample
    release/runnable.sh "$room/linked"
    LD_LIBRARY_PATH=$1/$2 release/first_output.sh "$room/linked" || fail "the program over libpopsample.so differs"
}

# A root that holds the program and the C library that it asks for, as the loader finds it here, and nothing else.
check_bare_root() {
    local program=$room/archive/bin/popsample root=$room/root library
    if [ -n "$cross" ]; then
        tell "bare root" "left out, since the program is for another processor"
        return
    fi
    if ! chroot / true 2> /dev/null; then
        tell "bare root" "left out, since changing the root takes root's rights"
        return
    fi
    install -D "$program" "$root/popsample"
    if [ -z "$static" ]; then
        for library in $(ldd "$program" | grep -o '/[^ ]*'); do
            install -D "$library" "$root$library"
        done
    fi
    release/first_output.sh chroot "$root" /popsample || fail "the program doesn't run in a bare root"
    diff <(chroot "$root" /popsample make grid 24) <(chroot "$root" /popsample make grid 24 --workers 4) \
        || fail "four threads don't agree with one in a bare root"
    tell "bare root"
}

check_debian() {
    local root=$room/debian lib=usr/lib/$machine-linux-gnu file
    if [ -n "$static" ]; then
        tell "Debian packages" "left out, since there are none of a program that holds the C library"
        return
    fi
    for file in "$out"/*.deb; do
        dpkg-deb -x "$file" "$root"
        [ "$(dpkg-deb -f "$file" Version)" = "$version" ] || fail "$file has another version"
    done
    check_sum program "$root/usr/bin/popsample"
    release/runnable.sh "$root/usr/bin/popsample"
    check_pages "$root/usr/share/doc/popsample" README.md FORMATS.md DEFINITIONS.md
    check_pages "$root/usr/share/doc/python3-popsample" README.md
    check_copyright "$root"/usr/share/doc/*popsample*/copyright
    ! has_libraries || check_libraries "$root/usr" "${lib#usr/}"
    alone PATH="$root/usr/bin:/usr/bin:/bin" PYTHONPATH="$root/usr/lib/python3/dist-packages" \
        "$room/venv/bin/python" -B release/call.py "$root/usr/bin/popsample" > /dev/null
    tell "Debian packages"
    if command -v lintian > /dev/null; then
        # Whose address the packages name is for whoever packs them to say.
        lintian --allow-root --fail-on error,warning \
            --suppress-tags bogus-mail-host,bogus-mail-host-in-debian-changelog "$out"/*.deb \
            || fail "lintian has something to say"
        tell "lintian"
    else
        tell "lintian" "left out, since it isn't installed"
    fi
}

# The module of a wheel finds what came with it: SITE PROGRAM VARIABLE.., where SITE has the module.
call_module() {
    local parts=("$2")
    # A library for another processor can't be loaded here: the program answers.
    [ -n "$cross" ] || ! has_libraries || parts+=("$1/popsample/libpopsample.so")
    alone "${@:3}" "$room/venv/bin/python" -B release/call.py "${parts[@]}" > /dev/null
}

check_wheel() {
    local venv=$room/venv beside=$room/beside foreign=() tag
    local pip=("$venv/bin/pip" --quiet --disable-pip-version-check install --no-index)
    if [ -z "$cross" ]; then
        "${pip[@]}" "$out"/popsample-*.whl
        check_sum program "$venv/bin/popsample"
        check_copyright "$venv"/lib/python3*/site-packages/popsample-"$version".dist-info/licenses/COPYRIGHT
        call_module "$venv"/lib/python3*/site-packages "$venv/bin/popsample"
        "$venv/bin/pip" --quiet --disable-pip-version-check uninstall --yes popsample
    else
        tag=$(basename "$out"/popsample-*.whl .whl | sed 's/.*-none-\([^.]*\).*/\1/')
        foreign=(--only-binary=:all: --platform "$tag")
    fi
    "${pip[@]}" "${foreign[@]}" --target "$beside" "$out"/popsample-*.whl
    check_sum program "$beside/bin/popsample"
    release/runnable.sh "$beside/bin/popsample"
    check_copyright "$beside/popsample-$version.dist-info/licenses/COPYRIGHT"
    call_module "$beside" "$beside/bin/popsample" PYTHONPATH="$beside"
    tell "wheel"
}

# The site has its first page, and its search knows a word of the formats.
check_site() {
    local site=$room/site
    if ! ls "$out"/doc-popsample-*.tar.gz > /dev/null 2>&1; then
        tell "site" "left out, since none was made"
        return
    fi
    mkdir "$site"
    tar -xzf "$out/doc-popsample-$version.tar.gz" -C "$site" --strip-components=1
    [ -f "$site/index.html" ] || fail "the site has no first page"
    [ -f "$site/checker/verify.py" ] && [ -f "$site/examples/roads.col" ] || fail "the site lacks what its guides name"
    grep -qE '[{,] *"?exhaust"?:' "$site/searchindex.js" || fail "the search of the site doesn't know the word 'exhausted'"
    [ -n "$static" ] || [ -f "$room/debian/usr/share/doc/popsample-doc/html/index.html" ] \
        || fail "popsample-doc has no first page"
    tell "site"
}

check_sums
check_version
check_archive
check_bare_root
# In an environment of its own no other popsample is found than the one that a part installs.
python3 -m venv "$room/venv"
check_debian
check_wheel
check_site
