#!/usr/bin/env bash
# Installs what release/build.sh packed as README says, in a Debian 12 that has no kit, no checkout and no network, and
# compares what popsample prints there with README's first output:
#
#     release/test_debian.sh OUT [MIRROR]
#
# It takes root's rights, debootstrap, and a mirror of Debian, of which the system is made in a folder of its own:
# MIRROR, else the one that debootstrap takes by itself.
#
# The status is 0 where all is well, 1 where something isn't, and 2 where the call is wrong.
set -euo pipefail

if [ $# -lt 1 ] || [ $# -gt 2 ] || [ ! -f "$1/SHA256SUMS" ]; then
    echo "usage: release/test_debian.sh OUT [MIRROR]" >&2
    exit 2
fi
out=$(realpath "$1")
cd "$(dirname "$0")/.."
room=$(mktemp -d)
trap 'rm -rf "$room"' EXIT
root=$room/root

# Runs a command; what it prints is shown where it fails alone.
quietly() {
    if ! "$@" > "$room/log" 2>&1; then
        tail "$room/log" >&2
        exit 1
    fi
}

quietly debootstrap --variant=minbase --include=python3,python3-venv bookworm "$root" ${2:+"$2"}
cp "$out"/* "$root/srv"

# A command in that system, without a network.
inside=(env -i PATH=/root/.local/bin:/usr/bin:/bin:/usr/sbin:/sbin HOME=/root unshare --net chroot "$root")

# Tells a part, which is installed: PART COMMAND.., where COMMAND is popsample there.
judge() {
    release/first_output.sh "${inside[@]}" "${@:2}"
    echo "$1: ok"
}

"${inside[@]}" sh -c 'mkdir ~/.local && tar -xzf /srv/popsample-*.tar.gz --strip-components=1 -C ~/.local'
judge "archive" popsample
rm -r "$root/root/.local"

call='import popsample; print(popsample.spanning_tree([(1, 2), (2, 3)]))'
if ls "$root"/srv/*.deb > /dev/null 2>&1; then
    quietly "${inside[@]}" sh -c 'apt-get install --yes /srv/*.deb'
    judge "Debian packages" popsample
    "${inside[@]}" python3 -c "$call"
    mapfile -t packages < <(for file in "$root"/srv/*.deb; do dpkg-deb -f "$file" Package; done)
    quietly "${inside[@]}" apt-get purge --yes "${packages[@]}"
    left=$(find "$root/usr" "$root/etc" -name '*popsample*')
    if [ -n "$left" ]; then
        echo "release/test_debian.sh: this stays where the packages are removed: $left" >&2
        exit 1
    fi
fi

quietly "${inside[@]}" python3 -m venv /srv/venv
quietly "${inside[@]}" sh -c '/srv/venv/bin/pip install --no-index /srv/popsample-*.whl'
judge "wheel" /srv/venv/bin/popsample
"${inside[@]}" /srv/venv/bin/python -c "$call"
