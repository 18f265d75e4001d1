"""Where the program is looked for, and in which order."""

import os
import sysconfig
import tempfile
import unittest
from pathlib import Path
from unittest import mock

import popsample
from popsample._engine import program


class Places(unittest.TestCase):
    def setUp(self):
        """Folders, each with a program, in which the tests look in place of those of this machine."""
        folder = tempfile.TemporaryDirectory()
        self.addCleanup(folder.cleanup)
        self.named, self.installed, self.on_path = (self.program(folder.name, name) for name in ("a", "b", "c"))
        self.enterContext(mock.patch.dict(os.environ, {"PATH": str(self.on_path.parent)}))
        os.environ.pop("POPSAMPLE", None)
        self.enterContext(mock.patch.object(program, "installed", lambda: (self.installed,)))

    @staticmethod
    def program(*folder):
        path = Path(*folder, "popsample")
        path.parent.mkdir()
        path.touch(0o755)
        return path

    def test_what_is_named_comes_first(self):
        os.environ["POPSAMPLE"] = str(self.named)
        self.assertEqual(popsample.find_program(), str(self.named))

    def test_what_is_named_is_the_only_one(self):
        self.named.unlink()
        os.environ["POPSAMPLE"] = str(self.named)
        self.assertRaises(popsample.NoProgramError, popsample.find_program)

    def test_what_was_installed_comes_before_the_path(self):
        self.assertEqual(popsample.find_program(), str(self.installed))

    def test_the_path_comes_before_the_build(self):
        self.installed.unlink()
        with mock.patch.object(program, "BUILT", self.named):
            self.assertEqual(popsample.find_program(), str(self.on_path))

    def test_the_build_comes_last(self):
        self.installed.unlink()
        self.on_path.unlink()
        with mock.patch.object(program, "BUILT", self.named):
            self.assertEqual(popsample.find_program(), str(self.named))

    def test_there_may_be_none(self):
        for path in (self.installed, self.on_path):
            path.unlink()
        with mock.patch.object(program, "BUILT", Path("nowhere")):
            self.assertRaises(popsample.NoProgramError, popsample.find_program)


class Installed(unittest.TestCase):
    def test_the_commands_of_the_environment_come_first(self):
        places = program.installed()
        self.assertEqual(places[0], Path(sysconfig.get_path("scripts"), "popsample"))
        self.assertEqual(places[-1], Path(popsample.__file__).resolve().parents[1] / "bin" / "popsample")

    def test_what_the_user_installed_is_seen_where_the_environment_sees_it(self):
        users = Path(sysconfig.get_path("scripts", sysconfig.get_preferred_scheme("user")), "popsample")
        for seen in (True, False):
            with self.subTest(seen=seen), mock.patch("site.ENABLE_USER_SITE", seen):
                self.assertEqual(users in program.installed.__wrapped__()[1:], seen)
