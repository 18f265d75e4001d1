"""What the pages of the Python reference list: the public names of the package, by kind and by what they are for."""

import inspect
import re

import popsample

# The headings of the page of functions. A function that is named nowhere here is listed under the last heading.
GROUPS = {
    "Spanning trees": ["spanning_tree", "spanning_trees"],
    "Orientations": ["sink_free_orientation", "sink_free_orientations"],
    "Solutions of formulas": ["solution", "solutions", "resample", "is_extremal", "find_clash"],
    "Series of samples": ["samples"],
    "Stopped runs": ["replay", "resume"],
    "Graphs": ["from_edges", "from_adjacency"],
    "Keys": ["draw_key", "seed_key", "derived_key"],
    "Program and library": ["find_program", "find_library"],
    "Other functions": [],
}


def kind_of(value):
    """Which page lists a public name; None if no page does."""
    if inspect.isclass(value):
        return "exceptions" if issubclass(value, BaseException) else "results"
    return "functions" if inspect.isroutine(value) else None


def names_of(kind):
    """The public names of a kind, sorted; of two names for one thing only the one that it has."""
    return sorted(
        name
        for name in popsample.__all__
        if kind_of(getattr(popsample, name)) == kind and getattr(popsample, name).__name__ == name
    )


def groups_of(kind):
    """The names of a kind by their headings; only functions have any."""
    names = names_of(kind)
    if kind != "functions":
        return {"": names}
    grouped = {heading: [name for name in group if name in names] for heading, group in GROUPS.items()}
    grouped["Other functions"] += [name for name in names if name not in sum(GROUPS.values(), [])]
    return {heading: group for heading, group in grouped.items() if group}


def summary_of(name):
    """The first sentence of the docstring of a name."""
    text = " ".join((inspect.getdoc(getattr(popsample, name)) or "").split("\n\n")[0].split())
    sentence = re.split(r"(?<=\.)\s", text)[0]
    return re.sub(r":\w+:`~?([^`]*)`", r"`\1`", sentence).replace("``", "`").replace("|", "\\|")


def summaries_of(kind):
    """A table that has a link to each name of a kind, and its summary."""
    role = "func" if kind == "functions" else "exc" if kind == "exceptions" else "class"
    rows = [
        f"| {{py:{role}}}`~popsample.{name}` | {summary_of(name)} |" for group in groups_of(kind).values() for name in group
    ]
    return "\n".join(["| Name | What it does |" if role == "func" else "| Name | What it is |", "|---|---|", *rows])


def autodoc_of(kind):
    """The table of a kind, and the directives that document its names."""
    directive = "autofunction" if kind == "functions" else "autoclass"
    lines = [summaries_of(kind), ""]
    for heading, names in groups_of(kind).items():
        lines += [f"## {heading}", ""] if heading else []
        lines += ["```{eval-rst}"]
        for name in names:
            lines += [f".. {directive}:: popsample.{name}"]
            if kind != "functions":
                lines += ["   :members:", "   :show-inheritance:"]
            lines += [""]
        lines += ["```", ""]
    return "\n".join(lines)
