#!/usr/bin/env bash
# Makes the site of the documents:
#
#     docs/build.sh [OUT]
#
# OUT is a folder, docs/_build if it is left out; its `html` has the site, with the folders `examples` and `checker`. If
# the variable PAGE names the folder `site` that web/build.sh made, and it is there, the site has that page, and its first
# page a link to it. Warnings are errors. Sphinx, myst-parser, numpydoc and furo are looked for in the python3 of the
# PATH, then in that of the system.
#
# The status is 0 if the site was made or Sphinx is not installed, which is said, 1 if something failed, and 2 if the
# call is wrong.
set -euo pipefail

if [ $# -gt 1 ]; then
    echo "usage: docs/build.sh [OUT]" >&2
    exit 2
fi
docs=$(cd "$(dirname "$0")" && pwd)
out=$(realpath -m "${1:-$docs/_build}")
page=()
[ ! -d "${PAGE:-}" ] || page=(-t page)
for python in python3 /usr/bin/python3; do
    if "$python" -c 'import sphinx, myst_parser, numpydoc, furo' 2> /dev/null; then
        PYTHONDONTWRITEBYTECODE=1 "$python" -m sphinx -W -n -q -E --keep-going -b html "${page[@]}" \
            -d "$out/trees" "$docs" "$out/html"
        # Debian's theme takes a style sheet from outside of the site, which is not there where the site is read.
        sed -i 's|^@import url(/javascript/normalize.css/.*|@import url(../base.css);|' "$out/html/_static/styles/furo.css"
        # Pictures that pages show by HTML, which Sphinx does not look at.
        mkdir -p "$out/html/_images"
        cp "$docs"/*.svg "$out/html/_images"
        # What the guides' commands name.
        cp -r "$docs/../examples" "$docs/../checker" "$out/html"
        find "$out/html/examples" "$out/html/checker" -name __pycache__ -prune -exec rm -r {} +
        rm -rf "$out/html/try"
        [ ${#page[@]} -eq 0 ] || cp -r "$PAGE" "$out/html/try"
        echo "site: made in $out/html${page:+, with the page}"
        exit
    fi
done
echo "site: not made, since sphinx, myst-parser, numpydoc and furo are not all installed"
