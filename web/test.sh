#!/usr/bin/env bash
# Makes popsample for browsers and Node, and tries it:
#
#     web/test.sh [OUT]
#
# It is built twice, into the same bytes. The package's tests run under Node, over both modules where Node can; all
# cases and the commands of the documents are run by the program of the package, which is packed, installed without a
# network and prints README's first output; and the page is tried in Chromium. OUT is a new folder that keeps what was
# made. A part whose tools aren't installed is left out, and a line says so: Node 20 with npm, and Debian's packages
# binaryen, chromium, chromium-driver and python3-selenium.
#
# The status is 0 if all is well, 1 if something isn't, and 2 if the call is wrong or a crate isn't built.
set -euo pipefail

if [ $# -gt 1 ] || [ -e "${1:-}" ]; then
    echo "usage: web/test.sh [OUT], where OUT is a new folder" >&2
    exit 2
fi
for tool in node npm wasm-opt; do
    if ! command -v $tool > /dev/null; then
        echo "web: left out, since $tool isn't installed"
        exit 0
    fi
done
if [ "$(node -p 'Number(process.versions.node.split(".")[0]) >= 20')" != true ]; then
    echo "web: left out, since this Node is older than 20"
    exit 0
fi
room=$(mktemp -d)
trap 'wait; rm -rf "$room"' EXIT
out=$(realpath -m "${1:-$room/out}")
cd "$(dirname "$0")/.."

# Both builds at once: a second processor does the second one in the same time.
build_twice() {
    web/build.sh "$room/again" > "$room/log" 2>&1 &
    web/build.sh "$out"
    if ! wait $!; then
        cat "$room/log" >&2
        exit 1
    fi
    diff -r "$out" "$room/again"
    echo "web built twice: ok"
}

# The package as npm packs it, installed without a network.
check_package() {
    local module
    PACKAGE=$out/package node --test --test-reporter=dot web/tests/*.test.mjs
    (cd "$out/package" && npm pack --silent --offline --pack-destination "$room" > /dev/null)
    mkdir "$room/user"
    (cd "$room/user" && npm install --silent --offline --no-audit --no-fund "$room"/popsample-*.tgz > /dev/null)
    release/first_output.sh "$room/user/node_modules/.bin/popsample"
    if [[ $(< "$room/user/node_modules/popsample/copyright") != *"$(< LICENSE)"* ]]; then
        echo "web/test.sh: the package's copyright doesn't have the text of LICENSE" >&2
        exit 1
    fi
    for module in popsample popsample32; do
        if node -e 'process.exit(WebAssembly.validate(require("fs").readFileSync(process.argv[1])) ? 0 : 1)' \
            "$out/package/$module.wasm"; then
            node web/cases.mjs "$out/package" "$out/package/$module.wasm"
        else
            echo "$module.wasm under Node: left out, since this Node has no tables of 64 bits"
        fi
    done
    examples/cases/compare.sh "$room/user/node_modules/.bin/popsample"
    echo "npm package: ok"
}

check_page() {
    local tool
    for tool in /usr/bin/chromium /usr/bin/chromedriver; do
        if [ ! -x $tool ]; then
            echo "page: left out, since $tool isn't installed"
            return
        fi
    done
    if ! /usr/bin/python3 -c 'import selenium' 2> /dev/null; then
        echo "page: left out, since selenium isn't installed for /usr/bin/python3"
        return
    fi
    /usr/bin/python3 -B web/tests/browser.py "$out"
    echo "page: ok"
}

build_twice
# The page is tried beside the package, and tells at the end.
check_page > "$room/page" 2>&1 &
page=$!
check_package
status=0
wait $page || status=$?
cat "$room/page"
exit $status
