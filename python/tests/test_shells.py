"""The completions for zsh and fish, which stand beside that for bash, where these shells are there.

They offer what bash's completion offers, of which another test says what that is.
"""

import os
import pty
import select
import shutil
import subprocess
import tempfile
import time
import unittest
from pathlib import Path

from popsample._wrapper import program_words

from .checks import LIMIT
from .test_completion import BATCHED, COMPLETION, CREW, EVERYWHERE, LOGGED, STACKED, TOLD, completed

COMMANDS = ["formula", "orient", "tree", "resample", "check", "make", "rounds", "replay", "resume"]
ZSH = COMPLETION.with_name("_popsample")
FISH = COMPLETION.with_name("popsample.fish")
# The functions of zsh's completion system that are called, in short.
STUBS = """
compadd() { print -rl -- "${@:2}" }
_message() { : }
_describe() { print -rl -- "${(@)${(@P)@[-1]}%%:*}" }
words=("$@") CURRENT=$#
source "$0"
"""
COMPLETE = 'source $argv[1]; complete -C "$argv[2]"'

# What may stand behind these words, where the last one is still empty.
CASES = (
    ([""], COMMANDS),
    (["formula", ""], [*EVERYWHERE, *BATCHED]),
    (["orient", ""], [*EVERYWHERE, *BATCHED]),
    (["tree", ""], [*EVERYWHERE, "--root", *BATCHED]),
    (["resample", ""], [*EVERYWHERE, *TOLD, "--pops"]),
    (["make", ""], [*EVERYWHERE, "grid", *LOGGED]),
    (["rounds", ""], STACKED),
    (["check", ""], []),
    (["replay", ""], []),
    (["resume", ""], CREW),
    (["tree", "--root", "2", ""], [*EVERYWHERE, *BATCHED]),
    (["formula", "--stacks", "0", ""], [*CREW, *LOGGED, "--pops"]),
    (["formula", "--key", "00", ""], ["--height", "--grow", *CREW, *BATCHED]),
    (["make", "--grow", "9", ""], ["--key", "--height", *CREW, "grid", *LOGGED]),
    (["rounds", "--stacks", "0", ""], []),
    (["resume", "--workers", "2", ""], ["--board"]),
    (["tree", "--count", "3", ""], ["--key", "--height", "--root"]),
    (["tree", "--pops", "3", ""], [*STACKED, "--root"]),
    (["orient", "--log", "on", ""], [*EVERYWHERE, *TOLD]),
    (["resample", "--report", ""], ["totals", "heights", "layers", "totals,heights,layers"]),
    (["orient", "--log", ""], ["on", "off"]),
    (["make", "--board", ""], ["words", "lock"]),
    (["tree", "--root", ""], []),
)


def meanings(command: str) -> dict[str, str]:
    """Return the words that may follow a command, or nothing, with what they mean in the help of the wrapper."""
    if not command:
        return {name: meant.does for name, meant in program_words.COMMANDS.items()}
    found = {name: meant.meaning for name, meant in program_words.OPTIONS.items() if command in meant.commands}
    return {**found, "grid": program_words.GRID} if command == "make" else found


def shown(command: list[str], **named) -> str:
    """What a command prints. Raises AssertionError where it fails, or says something on standard error."""
    ran = subprocess.run(command, capture_output=True, text=True, **named)
    if ran.returncode or ran.stderr:
        raise AssertionError(ran.stderr)
    return ran.stdout


def completed_by_zsh(*words: str) -> list[str]:
    """What the last word, which is empty, may become."""
    return shown(["zsh", "-f", "-c", STUBS, str(ZSH), "popsample", *words]).split()


def completed_by_fish(line: str, **named) -> list[str]:
    """What the last word of a line may become."""
    told = shown(["fish", "--no-config", "-c", COMPLETE, str(FISH), line], **named)
    return [row.partition("\t")[0] for row in told.splitlines()]


def typed(command: list[str], keys: str, wanted: str) -> str:
    """What a shell shows on its terminal while these keys are typed, up to what is wanted; up to the time where that
    doesn't come.
    """
    child, terminal = pty.fork()
    if child == 0:
        os.environ.update(TERM="dumb", PS1="> ")
        os.execvp(command[0], command)
    os.write(terminal, keys.encode())
    seen, end = b"", time.monotonic() + LIMIT
    while wanted.encode() not in seen and time.monotonic() < end:
        if select.select([terminal], [], [], 0.1)[0]:
            seen += os.read(terminal, 4096)
    os.close(terminal)
    os.waitpid(child, 0)
    return seen.decode("utf-8", "replace")


@unittest.skipUnless(shutil.which("bash") and COMPLETION.exists(), "there is no bash, or no completion")
class Bash(unittest.TestCase):
    def test_the_table_is_that_of_bash(self):
        for words, wanted in CASES:
            with self.subTest(words):
                self.assertEqual(set(completed(*words)), set(wanted))

    def test_files_are_offered_behind_a_redirection_alone(self):
        with tempfile.TemporaryDirectory() as folder:
            Path(folder, "roads.col").touch()
            script = 'cd "$1"; shift; source "$0"; COMP_WORDS=("$@"); COMP_CWORD=$(($# - 1)); _popsample'
            for words, wanted in (
                (["tree", "ro"], []),
                (["tree", "--root", "ro"], []),
                (["tree", "<", "ro"], ["roads.col"]),
                (["tree", "2", ">", "ro"], ["roads.col"]),
                (["tree", "--root", "2", ">", "ro"], ["roads.col"]),
                (["tree", "<", "roads.col", "--ro"], ["--root"]),
                (["tree", "2", ">", "errors", "--ro"], ["--root"]),
                (["tree", "--root", "2", ">", "out", "--ro"], []),
                (["<", "roads.col", "tr"], ["tree"]),
            ):
                with self.subTest(words):
                    command = ["bash", "-c", f'{script}; echo "${{COMPREPLY[*]}}"', str(COMPLETION)]
                    told = shown([*command, folder, "popsample", *words])
                    self.assertEqual(told.split(), wanted)

    def test_nothing_else_is_offered(self):
        told = shown(["bash", "-c", 'source "$0"; complete -p popsample', str(COMPLETION)])
        self.assertEqual(told, "complete -F _popsample popsample\n")


@unittest.skipUnless(shutil.which("zsh") and ZSH.exists(), "there is no zsh, or no completion")
class Zsh(unittest.TestCase):
    def test_the_table(self):
        for words, wanted in CASES:
            with self.subTest(words):
                self.assertEqual(set(completed_by_zsh(*words)), set(wanted))

    def test_meanings_are_those_of_the_wrapper(self):
        told = STUBS.replace("%%:*", "")
        for command in ("", *COMMANDS):
            words = [command, ""] if command else [""]
            rows = shown(["zsh", "-f", "-c", told, str(ZSH), "popsample", *words]).splitlines()
            self.assertEqual(dict(row.split(":", 1) for row in rows), meanings(command), command)

    def test_a_real_shell(self):
        begun = f"fpath=({ZSH.parent} $fpath); autoload -Uz compinit; compinit -D -u"
        self.assertIn("tree --root ", typed(["zsh", "-f", "-i"], f"{begun}\npopsample tree --roo\t", "tree --root "))


@unittest.skipUnless(shutil.which("fish") and FISH.exists(), "there is no fish, or no completion")
class Fish(unittest.TestCase):
    def test_the_table(self):
        for words, wanted in CASES:
            with self.subTest(words):
                self.assertEqual(set(completed_by_fish(" ".join(["popsample", *words]))), set(wanted))

    def test_files_are_offered_behind_a_redirection_alone(self):
        with tempfile.TemporaryDirectory() as folder:
            Path(folder, "roads.col").touch()
            for line in ("popsample tree ro", "popsample tree --root ro", "popsample tree < x --root ro"):
                self.assertNotIn("roads.col", completed_by_fish(line, cwd=folder), line)
            self.assertEqual(completed_by_fish("popsample tree < ro", cwd=folder), ["roads.col"])

    def test_words_of_redirections_are_passed_over(self):
        for words in ("< roads.col", "2>errors", "&> all"):
            self.assertEqual(completed_by_fish(f"popsample tree {words} --roo"), ["--root"], words)
        self.assertNotIn("--root", completed_by_fish("popsample tree --root 2 > out --roo"))

    def test_meanings_are_those_of_the_wrapper(self):
        for command in ("", *COMMANDS):
            line = f"popsample {command} " if command else "popsample "
            rows = shown(["fish", "--no-config", "-c", COMPLETE, str(FISH), line]).splitlines()
            self.assertEqual(dict(row.split("\t", 1) for row in rows), meanings(command), command)


if __name__ == "__main__":
    unittest.main()
