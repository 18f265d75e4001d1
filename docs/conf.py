"""How Sphinx makes the site: `docs/build.sh` calls it.

The pages are Markdown. A page that consists of the line `<!-- source: PATH -->` has the text of that file, which
stands elsewhere in the repository. A link to a file that is no page of the site becomes plain text.
"""

import functools
import os
import re
import sys
from pathlib import Path

DOCS = Path(__file__).resolve().parent
TOP = DOCS.parent
sys.path[:0] = [str(TOP / "python"), str(DOCS)]

from api_names import autodoc_of  # noqa: E402 (the path is set above)

project = "popsample"
author = "The popsample project"
copyright = "the authors of popsample; no licence has been granted"
version = release = (TOP / "VERSION").read_text(encoding="utf-8").strip()

extensions = ["myst_parser", "sphinx.ext.autodoc", "numpydoc"]
myst_heading_anchors = 4
exclude_patterns = ["_build"]
html_theme = "furo"
html_title = f"popsample {version}"
html_static_path = ["theme"]
html_css_files = ["site.css"]
html_show_sourcelink = False
html_copy_source = False
autodoc_typehints = "none"
autodoc_member_order = "bysource"
numpydoc_show_class_members = False
# Private names, and types of other packages, of which there is no inventory without a network.
nitpick_ignore_regex = [("py:.*", r"(?!popsample\.\w+$).*")]
suppress_warnings = ["myst.header"]

SOURCE = re.compile(r"<!-- source: (\S+) -->")
API = re.compile(r"<!-- names: (\w+) -->")
# The pages whose names link to files of the crates; the site shows these files on the page that names its text.
STATED_BY = {"verification": "verification/*.md", "PROVED": "PROVED.md"}
STATEMENTS = re.compile(r"<!-- statements: (\w+) -->")
STATED = re.compile(r"\]\((?:\.\./)+(crates/[^)#]+\.(?:antt|rt))\)")
LINK = re.compile(r"(!?)\[((?:[^\[\]]|\[[^\]]*\])*)\]\(([^)\s]+)\)")
IMAGE = re.compile(r'(<img src=")([^"]+)"')


def page_sources():
    """For each file of the repository that a page of the site shows: that page."""
    pages = {}
    for page in DOCS.rglob("*.md"):
        named = SOURCE.match(page.read_text(encoding="utf-8"))
        if named:
            pages[(page.parent / named[1]).resolve()] = page
    return pages


@functools.cache
def statement_files():
    """For each page that names the files of crates: those of definitions and laws that no page before it names."""
    found, seen = {}, set()
    for name, pattern in STATED_BY.items():
        texts = [page.read_text(encoding="utf-8") for page in sorted(DOCS.glob(pattern))]
        found[name] = sorted({path for text in texts for path in STATED.findall(text)} - seen)
        seen.update(found[name])
    return found


def label_of(path):
    """The label of a file on the page that shows it."""
    return re.sub(r"[^a-z0-9]+", "-", path.lower())


def statements(name):
    """The texts of these files, each below its name."""
    form = "({label})=\n## {path}\n\n```{{literalinclude}} ../../{path}\n```\n"
    return "\n".join(form.format(label=label_of(path), path=path) for path in statement_files()[name])


def shown_link(match, folder, page, pages):
    """A link of a text that stands in `folder`, as the page has it."""
    mark, text, target = match.groups()
    path, _, anchor = target.partition("#")
    if mark or not path or "://" in target:
        return match[0]
    file = (folder / path).resolve()
    file = pages.get(file / "README.md" if file.is_dir() else file, file)
    inside = str(file.relative_to(TOP)) if TOP in file.parents else ""
    if any(inside in files for files in statement_files().values()):
        return f"[{text}]({label_of(inside)})"
    if file.suffix != ".md" or DOCS not in file.parents:
        return text if text.startswith("`") or " " in text else f"`{text}`"
    there = os.path.relpath(file, page.parent)
    return f"[{text}]({there}{'#' + anchor if anchor else ''})"


def read_source(app, name, source):
    """Puts the text of a file in the place of the line that names it, and links as the site has them."""
    page = DOCS / f"{name}.md"
    named = SOURCE.match(source[0])
    file = (page.parent / named[1]).resolve() if named else page
    text = file.read_text(encoding="utf-8") if named else source[0]
    pages = page_sources()
    blocks = re.split(r"(?ms)(^```.*?^```)", text)
    for place in range(0, len(blocks), 2):
        blocks[place] = LINK.sub(lambda match: shown_link(match, file.parent, page, pages), blocks[place])
    text = "".join(blocks)
    text = IMAGE.sub(lambda match: f'{match[1]}{os.path.relpath(DOCS, page.parent)}/_images/{Path(match[2]).name}"', text)
    text = STATEMENTS.sub(lambda match: statements(match[1]), text)
    source[0] = API.sub(lambda match: autodoc_of(match[1]), text)


def setup(app):
    app.connect("source-read", read_source)
