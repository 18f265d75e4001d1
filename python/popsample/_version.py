"""The version of the module."""

from __future__ import annotations

from pathlib import Path

# It stands in the checkout that the module may stand in.
FILE = Path(__file__).resolve().parents[2] / "VERSION"


def version() -> str:
    """Return the version.

    It is that of the checkout that the module is in, or of the installed package, and `unknown` if there is neither.
    """
    from importlib import metadata

    if FILE.is_file():
        return FILE.read_text(encoding="utf-8").strip()
    try:
        return metadata.version("popsample")
    except metadata.PackageNotFoundError:
        return "unknown"
