"""Builds the wheel of popsample from this folder, with the standard library alone.

It has the hooks of a build backend that pip calls (PEP 517, and PEP 660 for an editable install), what `pyproject.toml`
says, and the version of the file `VERSION` at the top of the repository. Three settings name files that the wheel holds
too, as in `pip wheel ./python --config-settings program=PATH`:

- `program`: a built program, which is installed among the commands of the environment. The wheel is then for machines
  that can run it: Linux on the processor of the program, with the C library that it asks for.
- `library`: the library for C, beside the module, which calls it in its own process; for the same machines.
- `copyright`: whose all this is.

Equal files make equal wheels.
"""

from __future__ import annotations

import base64
import hashlib
import re
import tomllib
import zipfile
from collections.abc import Mapping
from pathlib import Path
from typing import Any

HERE = Path(__file__).resolve().parent
# The processors, by the number in the head of an ELF file (System V ABI, 4.1), and the loader that a program for each
# names if it isn't linked with the whole C library.
MACHINES = {
    b"\x3e\x00": ("x86_64", b"/lib64/ld-linux-x86-64.so.2\0"),
    b"\xb7\x00": ("aarch64", b"/lib/ld-linux-aarch64.so.1\0"),
}
# What runs a program that asks for no C library: pip knows it by the tags of old ones.
ANY_LINUX = "manylinux_2_17_{0}.manylinux2014_{0}.musllinux_1_1_{0}"


def project() -> dict[str, Any]:
    """Return the table `project` of `pyproject.toml`, with the version."""
    said = tomllib.loads((HERE / "pyproject.toml").read_text(encoding="utf-8"))["project"]
    return {**said, "version": (HERE.parent / "VERSION").read_text(encoding="utf-8").strip()}


def machine_of(program: bytes) -> tuple[str, bytes]:
    """Return the processor of a program for Linux, as `x86_64` or `aarch64`, and the loader for it."""
    if program[:5] != b"\x7fELF\x02" or program[18:20] not in MACHINES:
        raise ValueError("the program isn't one for x86-64 or aarch64")
    return MACHINES[program[18:20]]


def glibc_of(program: bytes) -> str | None:
    """Return the oldest glibc that runs a program for Linux, as `2.34`: the newest one that its symbols name.

    There is none if the program is linked with its C library as a whole.
    """
    if machine_of(program)[1] not in program:
        return None
    versions = re.findall(rb"GLIBC_(\d+)\.(\d+)", program)
    return "{}.{}".format(*max((int(major), int(minor)) for major, minor in versions))


def platform_of(program: bytes) -> str:
    """Return the tags of the platforms that run a program."""
    glibc, (machine, _) = glibc_of(program), machine_of(program)
    return f"manylinux_{glibc.replace('.', '_')}_{machine}" if glibc else ANY_LINUX.format(machine)


def standalone(page: str) -> str:
    """Return a page of the repository for readers who have no other file of it.

    It has no pictures, and the bare text in place of a link to a file.
    """
    shown = re.sub(r"<p>\s*(?:<img [^>]*>\s*)+</p>\n\n", "", page)
    return re.sub(r"(?<!!)\[([^][]+)\]\((?!https?:|#)[^()]*\)", r"\1", shown)


def extras(said: Mapping[str, Any]) -> list[str]:
    """Return the lines of the metadata on what may be installed too."""
    lines = []
    for extra, needed in said.get("optional-dependencies", {}).items():
        lines.append(f"Provides-Extra: {extra}")
        lines += [f"Requires-Dist: {package}; extra == '{extra}'" for package in needed]
    return lines


def metadata(said: Mapping[str, Any], licences: list[str]) -> str:
    """Return the metadata of the wheel, followed by the readme."""
    lines = [
        "Metadata-Version: 2.4",
        f"Name: {said['name']}",
        f"Version: {said['version']}",
        f"Summary: {said['description']}",
        f"Keywords: {','.join(said['keywords'])}",
        *(f"Classifier: {classifier}" for classifier in said["classifiers"]),
        f"Requires-Python: {said['requires-python']}",
        *extras(said),
        *(f"License-File: {licence}" for licence in licences),
        "Description-Content-Type: text/markdown",
    ]
    return "\n".join(lines) + "\n\n" + standalone((HERE / str(said["readme"])).read_text(encoding="utf-8"))


def entry_points(groups: Mapping[str, Mapping[str, str]]) -> str:
    """Return the file `entry_points.txt`, by which other packages find parts of this one, such as networkx its backends."""
    tables = []
    for group, points in groups.items():
        tables.append(f"[{group}]\n" + "".join(f"{name} = {value}\n" for name, value in points.items()))
    return "\n".join(tables)


def wheel_text(platform: str) -> str:
    """Return the file `WHEEL`, which has a tag for each platform."""
    pure = str(platform == "any").lower()
    tags = "".join(f"Tag: py3-none-{tag}\n" for tag in platform.split("."))
    return f"Wheel-Version: 1.0\nGenerator: wheel_backend\nRoot-Is-Purelib: {pure}\n{tags}"


def record_line(name: str, content: bytes) -> str:
    """Return the line of `RECORD` for a file: its name, its checksum and its size."""
    checksum = base64.urlsafe_b64encode(hashlib.sha256(content).digest()).rstrip(b"=").decode()
    return f"{name},sha256={checksum},{len(content)}\n"


def entry(name: str) -> zipfile.ZipInfo:
    """Return a file of the wheel, with neither a time nor a system of its own. A command may be run."""
    info = zipfile.ZipInfo(name)
    info.create_system = 3
    info.external_attr = (0o100755 if ".data/scripts/" in name else 0o100644) << 16
    info.compress_type = zipfile.ZIP_DEFLATED
    return info


def module_files(package: Path) -> dict[str, bytes]:
    """Return the files of the module, by their names in the wheel."""
    paths = [path for path in sorted(package.rglob("*")) if path.is_file() and path.parent.name != "__pycache__"]
    return {path.relative_to(package.parent).as_posix(): path.read_bytes() for path in paths}


def build_wheel(
    wheel_directory: str, config_settings: Mapping[str, str] | None = None, metadata_directory: str | None = None
) -> str:
    """Write the wheel into a folder and return its name (a hook of PEP 517)."""
    said = project()
    return write_wheel(wheel_directory, config_settings or {}, said, module_files(HERE / said["name"]))


def build_editable(
    wheel_directory: str, config_settings: Mapping[str, str] | None = None, metadata_directory: str | None = None
) -> str:
    """Write a wheel into a folder by which Python finds the module in this folder, and return its name.

    It is a hook of PEP 660, for `pip install --editable`. A library has no place in such a wheel: the module finds the
    one that was built here.
    """
    said = project()
    settings = {name: path for name, path in (config_settings or {}).items() if name != "library"}
    return write_wheel(wheel_directory, settings, said, {f"__editable__.{said['name']}.pth": f"{HERE}\n".encode()})


def write_wheel(
    wheel_directory: str, settings: Mapping[str, str], said: Mapping[str, Any], files: dict[str, bytes]
) -> str:
    """Write a wheel of these files, and of those that the settings name, into a folder, and return its name."""
    stem = f"{said['name']}-{said['version']}"
    platform, licences = "any", []
    if path := settings.get("program"):
        # The files of this folder of a wheel are installed among the commands.
        files[f"{stem}.data/scripts/popsample"] = program = Path(path).read_bytes()
        platform = platform_of(program)
    if path := settings.get("library"):
        files[f"{said['name']}/libpopsample.so"] = library = Path(path).read_bytes()
        platform = platform_of(library) if platform == "any" else platform
    if path := settings.get("copyright"):
        licences = ["COPYRIGHT"]
        files[f"{stem}.dist-info/licenses/COPYRIGHT"] = Path(path).read_bytes()
    if groups := said.get("entry-points"):
        files[f"{stem}.dist-info/entry_points.txt"] = entry_points(groups).encode()
    files[f"{stem}.dist-info/METADATA"] = metadata(said, licences).encode()
    files[f"{stem}.dist-info/WHEEL"] = wheel_text(platform).encode()
    record = f"{stem}.dist-info/RECORD"
    lines = [record_line(name, content) for name, content in files.items()]
    files[record] = "".join([*lines, f"{record},,\n"]).encode()
    name = f"{stem}-py3-none-{platform}.whl"
    with zipfile.ZipFile(Path(wheel_directory) / name, "w") as wheel:
        for path, content in files.items():
            wheel.writestr(entry(path), content)
    return name


def build_sdist(sdist_directory: str, config_settings: Mapping[str, str] | None = None) -> str:
    """Refuse: the sources are the repository (a hook of PEP 517)."""
    raise NotImplementedError("popsample has no source archive: install it from the repository")
