"""Runs a program once and says what it took."""
import os
import resource
import subprocess
import threading
import time
from typing import NamedTuple, Optional

# Linux may count the time of a short run as none, and times are divided by one another.
SHORTEST = 1e-6


class Run(NamedTuple):
    """What one run took, and what it said."""

    # None where the run was stopped because it took too long.
    status: Optional[int]
    first_line: str
    # From the start to the end, and of processors, both in seconds.
    seconds: float
    processor: float
    # The greatest resident memory, in bytes; None where it is at most that of this process, which Linux counts in.
    peak: Optional[int]


def first_line_of(path):
    with open(path, "rb") as text:
        return text.readline(200).decode("ascii", "replace").rstrip("\n")


def wait_for(process, limit):
    """Waits for a process, and stops it after so many seconds. Gives its status and its use of the machine."""
    watch = threading.Timer(limit, process.kill)
    watch.start()
    _, ended, usage = os.wait4(process.pid, 0)
    watch.cancel()
    # wait4 has taken the status, so that the object can't learn it by itself.
    process.returncode = os.waitstatus_to_exitcode(ended)
    return process.returncode, usage


def peak_of(usage):
    own = resource.getrusage(resource.RUSAGE_SELF)
    # Linux counts it in kilobytes.
    return usage.ru_maxrss * 1024 if usage.ru_maxrss > own.ru_maxrss else None


def run_once(command, text, folder, limit):
    """Runs a command on the text of a file, or on none, for at most so many seconds."""
    answer = os.path.join(folder, "answer")
    run = run_into(command, text, answer, limit)
    os.unlink(answer)
    return run


def run_fastest(command, text, folder, limit, times):
    """The fastest of so many runs of a command. Others may have the processors for a while, and no run is too fast."""
    fastest = run_once(command, text, folder, limit)
    for _ in range(times - 1):
        # One that took too long would again.
        if fastest.status is not None:
            again = run_once(command, text, folder, limit)
            fastest = min(fastest, again, key=lambda run: run.seconds)
    return fastest


def run_into(command, text, answer, limit):
    """The same, and keeps what is printed in a file."""
    with open(text or os.devnull, "rb") as given, open(answer, "wb") as printed:
        begun = time.perf_counter()
        process = subprocess.Popen(command, stdin=given, stdout=printed, stderr=subprocess.DEVNULL)
        status, usage = wait_for(process, limit)
        seconds = time.perf_counter() - begun
    return Run(
        status=None if seconds > limit else status,
        first_line=first_line_of(answer),
        seconds=seconds,
        processor=max(usage.ru_utime + usage.ru_stime, SHORTEST),
        peak=peak_of(usage),
    )
