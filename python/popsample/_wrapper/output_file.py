"""Where the output goes: a file, or standard output."""

from __future__ import annotations

import os
import stat
import sys
import tempfile
from contextlib import suppress
from typing import IO, Any

from .._given.standard_streams import closed
from ..errors import WriteError

# What a new file may be, before the umask of the process takes its part.
NEW_FILE = 0o666


def is_replaced(path: str) -> bool:
    """Tell whether a path names a regular file, or nothing yet. A device or a pipe is written as it is."""
    try:
        return stat.S_ISREG(os.stat(path).st_mode)
    except FileNotFoundError:
        return True


def is_one_file(output: str, path: str | None) -> bool:
    """Tell whether the output is the regular file that is read: that of a path, or standard input if there is none."""
    try:
        if path is not None:
            found = os.stat(path)
        elif sys.stdin is not None:
            found = os.fstat(sys.stdin.fileno())
        else:
            return False
        return stat.S_ISREG(found.st_mode) and os.path.samestat(found, os.stat(output))
    except OSError:
        return False


def give_rights(partial: str, target: str) -> None:
    """Give a new file the rights and the owner of the file that it replaces, or those of any new file."""
    try:
        old = os.stat(target)
    except FileNotFoundError:
        mask = os.umask(0)
        os.umask(mask)
        os.chmod(partial, NEW_FILE & ~mask)
    else:
        # Only root may give a file away, and a group may be one that the user isn't in.
        with suppress(PermissionError):
            os.chown(partial, old.st_uid, old.st_gid)
        os.chmod(partial, stat.S_IMODE(old.st_mode))


class Output:
    """The file that is written, or standard output if there is no path.

    A regular file is written under another name in its folder, and gets its own name from `keep`. Until then, and if
    `keep` isn't called, an older file of that name stays as it is. Each call raises WriteError if it fails; the cause
    of the error says why.
    """

    def __init__(self, path: str | None) -> None:
        self.partial: str | None = None
        self.target = path
        try:
            self.file = self.opened(path)
        except OSError as error:
            raise WriteError() from error

    def opened(self, path: str | None) -> IO[bytes]:
        """Open what is written."""
        if path is None:
            if sys.stdout is None:
                raise closed("standard output")
            return open(sys.stdout.fileno(), "wb", closefd=False)
        if not is_replaced(path):
            return open(path, "wb")
        # The file that a link leads to is replaced, and not the link.
        self.target = os.path.realpath(path)
        number, self.partial = tempfile.mkstemp(prefix=".popsample-", dir=os.path.dirname(self.target))
        return open(number, "wb")

    def write(self, piece: bytes) -> None:
        """Write the next bytes, so that whoever reads standard output has them at once."""
        try:
            self.file.write(piece)
            self.file.flush()
        except OSError as error:
            raise WriteError() from error

    def keep(self) -> None:
        """Close the file, and give it its name."""
        try:
            self.file.close()
            if self.partial is not None and self.target is not None:
                give_rights(self.partial, self.target)
                os.replace(self.partial, self.target)
                self.partial = None
        except OSError as error:
            raise WriteError() from error

    def drop(self) -> None:
        """Close the file, and remove what was written, unless it was kept."""
        try:
            if self.partial is not None:
                os.unlink(self.partial)
                self.partial = None
            self.file.close()
        except OSError as error:
            raise WriteError() from error

    def __enter__(self) -> Output:
        """Return the output itself."""
        return self

    def __exit__(self, kind: type[BaseException] | None, error: BaseException | None, trace: Any) -> None:
        """Drop what wasn't kept. An error of this isn't raised if another one was raised already."""
        try:
            self.drop()
        except WriteError:
            if kind is None:
                raise
