"""What is in a wheel, by the standard library's readers of wheels."""

import base64
import csv
import hashlib
import io
import re
import tempfile
import unittest
import zipfile
from email import message_from_bytes
from importlib import metadata
from pathlib import Path
from unittest import mock

import wheel_backend
from wheel_backend import HERE, MACHINES, build_editable, build_wheel, glibc_of, platform_of, standalone

VERSION = (HERE.parent / "VERSION").read_text(encoding="utf-8").rstrip("\n")
INFO = f"popsample-{VERSION}.dist-info"
# The heads of ELF files of 64 bits for x86-64 and for ARM, as far as the machine (System V ABI, 4.1).
X86_64 = b"\x7fELF\x02\x01\x01" + bytes(11) + b"\x3e\x00"
AARCH64 = b"\x7fELF\x02\x01\x01" + bytes(11) + b"\xb7\x00"
RISC_V = b"\x7fELF\x02\x01\x01" + bytes(11) + b"\xf3\x00"
ANY_X86_64 = wheel_backend.ANY_LINUX.format("x86_64")
# The extras, and what each needs.
NEEDED = (("arrays", "numpy"), ("arrays", "scipy"), ("plot", "matplotlib"), ("progress", "tqdm"))
BACKENDS = {"networkx.backends": {"popsample": "popsample.backend:Interface"}, "others": {"a": "b", "c": "d:e"}}


class Wheels(unittest.TestCase):
    def setUp(self):
        folder = tempfile.TemporaryDirectory()
        self.addCleanup(folder.cleanup)
        self.folder = Path(folder.name)

    def file(self, content):
        """A file with this content."""
        path = self.folder / "file"
        path.write_bytes(content)
        return str(path)

    def wheel(self, **settings):
        """The name of a wheel with these settings, and its files by their names."""
        name = build_wheel(str(self.folder), settings)
        with zipfile.ZipFile(self.folder / name) as wheel:
            self.assertIsNone(wheel.testzip())
            return name, {info.filename: (info, wheel.read(info)) for info in wheel.infolist()}

    def test_a_wheel_holds_the_module(self):
        name, files = self.wheel()
        self.assertEqual(name, f"popsample-{VERSION}-py3-none-any.whl")
        package = HERE / "popsample"
        for path in package.glob("*.*"):
            self.assertEqual(files[f"popsample/{path.name}"][1], path.read_bytes())

    def test_what_python_compiled_stays_out(self):
        package = self.folder / "package"
        for name in ("first.py", "__pycache__/first.pyc", "inner/second.py", "inner/__pycache__/second.pyc"):
            path = package / name
            path.parent.mkdir(parents=True, exist_ok=True)
            path.write_text(name)
        files = wheel_backend.module_files(package)
        self.assertEqual(files, {"package/first.py": b"first.py", "package/inner/second.py": b"inner/second.py"})

    def test_the_record_has_each_file(self):
        _, files = self.wheel(program=self.file(X86_64))
        rows = list(csv.reader(io.StringIO(files[f"{INFO}/RECORD"][1].decode())))
        self.assertCountEqual([row[0] for row in rows], files)
        for file, checksum, size in rows:
            if not file.endswith("/RECORD"):
                content = files[file][1]
                encoded = base64.urlsafe_b64encode(hashlib.sha256(content).digest()).decode().rstrip("=")
                self.assertEqual((checksum, size), (f"sha256={encoded}", str(len(content))))

    def test_the_version_is_that_of_the_file(self):
        _, files = self.wheel()
        said = message_from_bytes(files[f"{INFO}/METADATA"][1])
        self.assertEqual((said["Name"], said["Version"]), ("popsample", VERSION))

    def test_what_the_project_says_is_in_the_metadata(self):
        _, files = self.wheel()
        said, found = wheel_backend.project(), message_from_bytes(files[f"{INFO}/METADATA"][1])
        self.assertEqual(found["Summary"], said["description"])
        self.assertEqual(found["Keywords"].split(","), said["keywords"])
        self.assertEqual(found.get_all("Classifier"), said["classifiers"])
        self.assertEqual(found.get_all("Provides-Extra"), ["arrays", "plot", "progress"])
        needed = {f"{package}; extra == '{extra}'" for extra, package in NEEDED}
        self.assertEqual(set(found.get_all("Requires-Dist")), needed)
        self.assertIsNone(found["Project-URL"])

    def test_the_readme_stands_alone(self):
        _, files = self.wheel()
        shown = files[f"{INFO}/METADATA"][1].decode().partition("\n\n")[2]
        targets = re.findall(r"\]\(([^)]*)\)", shown)
        self.assertTrue(all(target.startswith(("#", "https:")) for target in targets), targets)
        self.assertNotIn("<img", shown)

    def test_links_to_files_are_text(self):
        page = "<p>\n<img src=a>\n<img src=b>\n</p>\n\n[A](b/c.md#d), [E](#f), [G](https://h.i/j)\n[K\nL](../m)\n"
        self.assertEqual(standalone(page), "A, [E](#f), [G](https://h.i/j)\nK\nL\n")

    def test_an_editable_wheel_leads_to_this_folder(self):
        name = build_editable(str(self.folder), {"program": self.file(X86_64), "library": self.file(X86_64)})
        with zipfile.ZipFile(self.folder / name) as wheel:
            names = set(wheel.namelist())
            self.assertEqual(wheel.read("__editable__.popsample.pth").decode(), f"{HERE}\n")
        infos = {f"{INFO}/{file}" for file in ("METADATA", "WHEEL", "RECORD", "entry_points.txt")}
        scripts = {f"popsample-{VERSION}.data/scripts/popsample"}
        self.assertEqual(names, {"__editable__.popsample.pth", *infos, *scripts})

    def test_a_program_is_a_command(self):
        name, files = self.wheel(program=self.file(X86_64))
        self.assertEqual(name, f"popsample-{VERSION}-py3-none-{ANY_X86_64}.whl")
        info, content = files[f"popsample-{VERSION}.data/scripts/popsample"]
        self.assertEqual((content, info.external_attr >> 16), (X86_64, 0o100755))
        said = message_from_bytes(files[f"{INFO}/WHEEL"][1])
        self.assertEqual(said["Root-Is-Purelib"], "false")
        self.assertEqual(said.get_all("Tag"), [f"py3-none-{tag}" for tag in ANY_X86_64.split(".")])

    def test_a_library_stands_beside_the_module(self):
        for settings in ({"library": self.file(X86_64)}, {"library": self.file(X86_64), "program": self.file(X86_64)}):
            name, files = self.wheel(**settings)
            self.assertEqual(name, f"popsample-{VERSION}-py3-none-{ANY_X86_64}.whl")
            self.assertEqual(files["popsample/libpopsample.so"][1], X86_64)
        self.assertEqual(self.wheel(library="")[0], f"popsample-{VERSION}-py3-none-any.whl")

    def test_whose_it_is_goes_along(self):
        _, files = self.wheel(copyright=self.file(b"whose\n"))
        self.assertEqual(files[f"{INFO}/licenses/COPYRIGHT"][1], b"whose\n")
        self.assertEqual(message_from_bytes(files[f"{INFO}/METADATA"][1])["License-File"], "COPYRIGHT")

    def test_entry_points_are_those_of_the_project(self):
        for groups in ({}, BACKENDS):
            said = {**wheel_backend.project(), "entry-points": groups}
            with self.subTest(groups), mock.patch.object(wheel_backend, "project", lambda said=said: said):
                self.wheel()
                found = {}
                with zipfile.ZipFile(self.folder / f"popsample-{VERSION}-py3-none-any.whl") as wheel:
                    for point in metadata.PathDistribution(zipfile.Path(wheel, f"{INFO}/")).entry_points:
                        found.setdefault(point.group, {})[point.name] = point.value
                self.assertEqual(found, groups)

    def test_no_file_has_a_time_of_its_own(self):
        _, files = self.wheel(program=self.file(X86_64))
        self.assertEqual({info.date_time for info, _ in files.values()}, {(1980, 1, 1, 0, 0, 0)})


class Platforms(unittest.TestCase):
    def test_the_newest_version_decides(self):
        for head, machine in ((X86_64, "x86_64"), (AARCH64, "aarch64")):
            named, loader = MACHINES[head[-2:]]
            self.assertEqual(named, machine)
            for named, glibc in ((b"GLIBC_2.2.5\0GLIBC_2.34\0", "2.34"), (b"GLIBC_2.10\0GLIBC_2.9\0", "2.10")):
                self.assertEqual(glibc_of(head + loader + named), glibc)
            self.assertEqual(platform_of(head + loader + b"GLIBC_2.34\0"), f"manylinux_2_34_{machine}")

    def test_a_static_program_runs_on_old_systems_of_its_processor(self):
        self.assertEqual(
            platform_of(AARCH64), "manylinux_2_17_aarch64.manylinux2014_aarch64.musllinux_1_1_aarch64"
        )

    def test_a_program_may_ask_for_no_library(self):
        self.assertIsNone(glibc_of(X86_64 + b"GLIBC_2.34\0"))

    def test_other_programs_are_refused(self):
        for program in (b"#!/bin/sh\n", RISC_V, b"\x7fELF\x01" + X86_64[5:]):
            self.assertRaises(ValueError, platform_of, program)
