#!/usr/bin/env bash
# Packs a built program of this checkout for machines without the kit:
#
#     release/build.sh PROGRAM OUT [RECORD]
#
# PROGRAM is for Linux on x86-64, as the gate built it, or on ARM64, as release/aarch64/build.sh did. OUT, which is a
# new or an empty folder, gets an archive, Debian packages of the program and of the Python module, a wheel of both,
# PROVENANCE.txt, which tells where they come from, and SHA256SUMS. A program that holds the C library, as
# release/static.sh links it, has no Debian packages: it is for systems that they don't fit. RECORD is what the run
# printed that proved the program, as of `.ci/run` or `rt run`. Four variables may be set: LIBRARIES, the folder in
# which c/build.sh made the libraries for C, which the archive, the wheel and a Debian package of their own get then,
# with the header; SITE, the folder `html` that docs/build.sh made, which an archive and a Debian package of their own
# get, if it is there; MAINTAINER, whom the Debian packages name, else the last commit's author; and NOTICE, the file
# with the C library's notice, else that of Debian's package libc6.
#
# The program is packed as it was built, to the byte: its SHA-256 is the one that a build at the same commit has.
# Nothing is compiled or fetched, and equal programs and commits make equal files. It takes the kit, whose crates have
# notices, git, GNU tar, gzip, dpkg-deb, and a python3 from 3.11 on.
#
# The status is 0 where all is packed, 1 where RECORD has no good verdict or something failed, and 2 where the call is
# wrong.
set -euo pipefail
export LC_ALL=C
umask 022

if [ $# -lt 2 ] || [ $# -gt 3 ] || [ ! -x "$1" ] || [ -d "$1" ] || [ -n "$(ls -A "$2" 2> /dev/null)" ]; then
    echo "usage: release/build.sh PROGRAM OUT [RECORD], where OUT is a new or an empty folder" >&2
    exit 2
fi
program=$(realpath "$1")
mkdir -p "$2"
out=$(realpath "$2")
record=${3:+$(realpath -e "$3")}
libraries=${LIBRARIES:+$(realpath -e "$LIBRARIES")}
site=${SITE:+$(realpath -m "$SITE")}
[ -d "$site" ] || site=""
cd "$(dirname "$0")/.."
version=$(cat VERSION)
maintainer=${MAINTAINER:-$(git log -1 --format='%an <%ae>')}
# All times are that of the commit. One processor compresses: how many do can be seen in the bytes.
SOURCE_DATE_EPOCH=$(git log -1 --format=%ct)
export SOURCE_DATE_EPOCH DPKG_DEB_THREADS_MAX=1
room=$(mktemp -d)
trap 'rm -rf "$room"' EXIT

# Prints the value of an expression over the wheel's backend, in which `words` has the other words.
backend() {
    PYTHONPATH=python python3 -B -c "import sys, wheel_backend as backend; words = sys.argv[1:]; print($1)" "${@:2}"
}

glibc=$(backend 'backend.glibc_of(open(words[0], "rb").read()) or ""' "$program")
machine=$(backend 'backend.machine_of(open(words[0], "rb").read())[0]' "$program")
# What Debian calls the processor, and what a program needs of it.
case $machine in
x86_64) debian=amd64 processor="x86-64-v2 or later" needs="a processor of x86-64-v2" ;;
aarch64) debian=arm64 processor="ARMv8-A or later" needs="an ARM processor of 64 bits" ;;
esac

# The verdict of a run: its last line that is one, where it is good. Of some crates alone it has more words behind.
verdict() {
    local last
    last=$(grep -E '^([0-9]+ passed, [0-9]+ failed|logic=)' "$1" | tail -n 1)
    [[ $last == *" passed, 0 failed" || $last == "logic=proved "* ]] && echo "$last"
}

# A line for each file, with its name there: NAME FILE..
sums_of() {
    while [ $# -gt 0 ]; do
        printf '%-10s %s\n' "$1" "$(sha256sum < "$2" | cut -d ' ' -f 1)"
        shift 2
    done
}

# Tells where all this comes from.
provenance() {
    local changed="" library="glibc $glibc or later" beside=""
    local leaves="it as crates/popsample/out/popsample, whose SHA-256 is on the line \`program\`."
    [ -z "$(git status --porcelain --untracked-files=no)" ] || changed=", with changes that aren't committed"
    if [ -z "$glibc" ]; then
        library="linked with the program"
        leaves="crates/popsample/out/popsample.o, of which release/static.sh links this one: its SHA-256 is on the line
\`program\`."
    fi
    if [ "$machine" = aarch64 ]; then
        leaves="the crates, of which release/aarch64/build.sh makes this program and the libraries. It has popsample and
popsample_c proved once more, for this target. Beyond what the program for x86-64 trusts, these trust heap.c and os.c
of release/aarch64, which replace the kit's C, and Debian's compiler and linker. They were run by qemu, and on no ARM
processor: that the threads keep apart under its weak memory order is untested there."
    elif [ -n "$libraries" ]; then
        beside=$'\n'"The libraries for C are left in crates/popsample_c/out."
    fi
    cat << TEXT
popsample $version for Linux on ${machine/_/-}

commit     $(git rev-parse HEAD)$changed
tree       $(git rev-parse 'HEAD^{tree}')
date       $(date -u -d "@$SOURCE_DATE_EPOCH" +%F)
kit        $(rt version)
processor  $processor
C library  $library
$(sums_of program "$program" \
    ${libraries:+"static lib" "$libraries/libpopsample.a" "shared lib" "$libraries/libpopsample.so"})
verdict    ${proved:-no run that proved it was named when it was packed}

At this commit and with this kit, \`.ci/run\` proves the program and leaves
$leaves$beside
TEXT
}

# Puts pages into a folder, without links to files that aren't installed: FOLDER PAGE..
lay_out_pages() {
    local folder=$1 page
    shift
    mkdir -p "$folder"
    for page in "$@"; do
        printf '%s\n' "$(backend 'backend.standalone(open(words[0], encoding="utf-8").read())' "$page")" \
            > "$folder/$(basename "$page")"
    done
}

# Puts the program and its documents below a folder, as they lie below /usr and /usr/local: FOLDER ZSH, where zsh looks
# for completions in share/zsh/ZSH.
lay_out() {
    local documents=$1/share/doc/popsample
    install -D "$program" "$1/bin/popsample"
    install -D -m 644 docs/popsample.1 "$1/share/man/man1/popsample.1"
    install -D -m 644 completion/popsample.bash "$1/share/bash-completion/completions/popsample"
    install -D -m 644 completion/_popsample "$1/share/zsh/$2/_popsample"
    install -D -m 644 completion/popsample.fish "$1/share/fish/vendor_completions.d/popsample.fish"
    lay_out_pages "$documents" README.md docs/FORMATS.md docs/DEFINITIONS.md
    install -D -m 644 -t "$documents" "$room/PROVENANCE.txt" "$room/copyright"
    install -D -m 644 -t "$documents/examples" examples/roads.col
}

# Puts the libraries, the header and what calls them below a folder: FOLDER LIB, where LIB is the folder of libraries in
# it.
lay_out_libraries() {
    local documents=$1/share/doc/libpopsample-dev
    lay_out_pages "$documents" c/README.md
    install -D -m 644 -t "$documents/examples" examples/in_process/*
    install -D -m 644 -t "$1/include" c/include/popsample.h
    install -D -m 644 -t "$1/$2" "$libraries/libpopsample.a"
    install -D -m 644 "$libraries/libpopsample.so" "$1/$2/libpopsample.so.0"
    ln -s libpopsample.so.0 "$1/$2/libpopsample.so"
}

pack_archive() {
    local name=popsample-$version-linux-$machine
    [ -n "$glibc" ] || name+=-static
    lay_out "$room/archive/$name" site-functions
    [ -z "$libraries" ] || lay_out_libraries "$room/archive/$name" lib
    tar_of "$room/archive" "$name" | gzip -9n > "$out/$name.tar.gz"
}

pack_wheel() {
    backend 'backend.build_wheel(words[0], {"program": words[1], "copyright": words[2], "library": words[3]})' \
        "$out" "$program" "$room/copyright" "${libraries:+$libraries/libpopsample.so}" > /dev/null
}

# What release/debian says of the Debian package NAME, for this processor.
control_of() {
    sed "s/@GLIBC@/$glibc/; s/@VERSION@/$version/; s/@DEBIAN@/$debian/; s/@NEEDS@/$needs/" "release/debian/$1.control"
}

# Packs what is laid out for the Debian package NAME, with what release/debian says of it.
pack_debian() {
    local name=$1 folder=$room/$1 documents=$room/$1/usr/share/doc/$1
    install -D -m 644 -t "$documents" "$room/copyright"
    printf '%s (%s) unstable; urgency=medium\n\n  * Packed from commit %s.\n\n -- %s  %s\n' "$name" "$version" \
        "$(git rev-parse HEAD)" "$maintainer" "$(date -u -R -d "@$SOURCE_DATE_EPOCH")" \
        | gzip -9n > "$documents/changelog.gz"
    mkdir -p "$folder/DEBIAN"
    (cd "$folder" && find usr -type f -print0 | sort -z | xargs -0 md5sum) > "$folder/DEBIAN/md5sums"
    {
        control_of "$name"
        printf 'Version: %s\nMaintainer: %s\n' "$version" "$maintainer"
        # In KiB, of the files alone: what a folder takes is its file system's affair.
        find "$folder/usr" -type f -printf '%s\n' \
            | awk '{ sum += $1 } END { print "Installed-Size:", int(sum / 1024) + 1 }'
    } > "$folder/DEBIAN/control"
    dpkg-deb --root-owner-group -Zxz --build "$folder" \
        "$out/${name}_${version}_$(control_of "$name" | sed -n 's/^Architecture: //p').deb" > /dev/null
}

pack_program() {
    local usr=$room/popsample/usr
    lay_out "$usr" vendor-completions
    gzip -9n "$usr/share/man/man1/popsample.1" "$usr/share/doc/popsample/"{README,FORMATS,DEFINITIONS}.md
    install -D -m 644 release/debian/popsample.lintian-overrides "$usr/share/lintian/overrides/popsample"
    pack_debian popsample
}

pack_libraries() {
    local name=libpopsample-dev folder=$room/libpopsample-dev
    lay_out_libraries "$folder/usr" "lib/$machine-linux-gnu"
    install -D -m 644 "release/debian/$name.lintian-overrides" "$folder/usr/share/lintian/overrides/$name"
    install -D -m 644 "release/debian/$name.triggers" "$folder/DEBIAN/triggers"
    echo "libpopsample 0 $name (>= $version)" > "$folder/DEBIAN/shlibs"
    pack_debian "$name"
}

# Packs what lies in a folder, with the time of the commit and no owner: FOLDER NAME, as a tar file on standard output.
tar_of() {
    tar --sort=name --mtime="@$SOURCE_DATE_EPOCH" --owner=0 --group=0 --numeric-owner --format=gnu -C "$1" -cf - "$2"
}

# The site has an archive of its own, whose name begins otherwise than that of the program.
pack_site() {
    local name=popsample-doc folder=$room/popsample-doc
    mkdir -p "$folder/usr/share/doc/$name" "$room/site"
    cp -r "$site" "$folder/usr/share/doc/$name/html"
    rm -f "$folder/usr/share/doc/$name/html/.buildinfo"
    cp -r "$folder/usr/share/doc/$name/html" "$room/site/doc-popsample-$version"
    chmod -R u=rwX,go=rX "$folder/usr" "$room/site"
    tar_of "$room/site" "doc-popsample-$version" | gzip -9n > "$out/doc-popsample-$version.tar.gz"
    [ -n "$glibc" ] || return 0
    install -D -m 644 "release/debian/$name.lintian-overrides" "$folder/usr/share/lintian/overrides/$name"
    pack_debian "$name"
}

pack_module() {
    local name=python3-popsample packages=$room/python3-popsample/usr/lib/python3/dist-packages script
    # The wheel without the program has the module as Python knows it; its RECORD is pip's alone.
    backend 'backend.build_wheel(words[0])' "$room" > /dev/null
    python3 -m zipfile -e "$room/popsample-$version-py3-none-any.whl" "$packages"
    rm "$packages/popsample-$version.dist-info/RECORD"
    lay_out_pages "$room/$name/usr/share/doc/$name" python/README.md
    gzip -9n "$room/$name/usr/share/doc/$name/README.md"
    for script in postinst prerm; do
        install -D "release/debian/$name.$script" "$room/$name/DEBIAN/$script"
    done
    pack_debian "$name"
}

proved=""
if [ -n "$record" ] && ! proved=$(verdict "$record"); then
    echo "release/build.sh: $record has no verdict, or a bad one" >&2
    exit 1
fi
provenance > "$room/PROVENANCE.txt"
if [ -n "$glibc" ]; then
    release/copyright.py > "$room/copyright"
else
    release/copyright.py "${NOTICE:-/usr/share/doc/libc6/copyright}" > "$room/copyright"
fi
cp "$room/PROVENANCE.txt" "$out"
pack_archive
pack_wheel
if [ -n "$glibc" ]; then
    pack_program
    pack_module
    [ -z "$libraries" ] || pack_libraries
fi
[ -z "$site" ] || pack_site
cd "$out"
sums=$(sha256sum -- *)
echo "$sums" > SHA256SUMS
