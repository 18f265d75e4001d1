"""Draws samples on three hosts, and compares them with those of one process.

    python3 -B -m checks.hosts --program PROGRAM

The hosts are network namespaces of this machine, each with an address and a name of its own, joined by a bridge that
leads nowhere else. On the first one dask's scheduler and the client run, on the others a worker each. The series is
drawn twice: with both workers to its end, and with one that is killed in the middle. Then, if MPI is installed, it is
drawn by mpi4py, with a process on each host. Each time the samples must be those of one process, and both workers
must have drawn some.

It takes root's rights, iproute2, util-linux, and the `distributed` package; for MPI also mpi4py and Open MPI. All that
it starts is ended, and all that it makes is removed, within the time of --seconds. The status is 0 if nothing was
wrong, 1 if something was, and 2 if the hosts cannot be made.
"""

from __future__ import annotations

import importlib.util
import os
import shlex
import shutil
import signal
import subprocess
import sys
import tempfile
import time
from collections.abc import Iterator, Sequence
from contextlib import contextmanager, suppress
from pathlib import Path

from bench.asking import parser_of

TOP = Path(__file__).resolve().parents[1]
CLIENT = TOP / "checks" / "hosts_client.py"
# Addresses of a private network, by host (RFC 1918). No packet leaves the bridge.
ADDRESSES = ("10.77.0.1", "10.77.0.11", "10.77.0.12")
NETWORK = "10.77.0.0/24"
PORT = 8786
# So many lines of a log are printed if something is wrong.
LOGGED = 12
# What Open MPI is told: it may run as root, and its processes talk by TCP, as on hosts that share no memory.
MPI = (
    "mpiexec --allow-run-as-root --mca btl tcp,self --mca pml ob1 --mca routed direct "
    f"--mca btl_tcp_if_include {NETWORK} --mca oob_tcp_if_include {NETWORK}"
)


class Hosts:
    """Three network namespaces, joined by a bridge. Their names have the number of this process."""

    def __init__(self, folder: Path, program: str) -> None:
        self.folder = folder
        self.names = [f"popsample-{os.getpid()}-{number}" for number in range(len(ADDRESSES))]
        self.running: list[subprocess.Popen[bytes]] = []
        path = os.pathsep.join([str(TOP / "python"), *filter(None, [os.environ.get("PYTHONPATH")])])
        self.variables = {**os.environ, "PYTHONPATH": path, "POPSAMPLE": program, "PYTHONDONTWRITEBYTECODE": "1"}

    def make(self) -> None:
        """Make the namespaces, the bridge on the first one, and a wire from it to each of the others."""
        for name in self.names:
            ip("netns", "add", name)
            ip("-n", name, "link", "set", "lo", "up")
        ip("-n", self.names[0], "link", "add", "bridge0", "type", "bridge")
        self.address(0, "bridge0")
        for number, name in enumerate(self.names[1:], 1):
            wire = f"wire{number}"
            ip("link", "add", wire, "netns", self.names[0], "type", "veth", "peer", "name", "eth0", "netns", name)
            ip("-n", self.names[0], "link", "set", wire, "master", "bridge0", "up")
            self.address(number, "eth0")

    def address(self, number: int, device: str) -> None:
        """Give a device of a host its address, and switch it on."""
        ip("-n", self.names[number], "address", "add", f"{ADDRESSES[number]}/24", "dev", device)
        ip("-n", self.names[number], "link", "set", device, "up")

    def on(self, number: int, command: Sequence[str]) -> list[str]:
        """Return a command as it is run on a host, under the host's own name."""
        named = ["unshare", "--uts", "sh", "-c", 'hostname "$0" && exec "$@"', f"host{number}", *command]
        return ["ip", "netns", "exec", self.names[number], *named]

    def start(self, number: int, name: str, *command: str) -> subprocess.Popen[bytes]:
        """Start a command on a host, in a group of its own, with what it prints in a file of this name."""
        with open(self.folder / f"{name}.log", "wb") as log:
            process = subprocess.Popen(
                self.on(number, command), stdout=log, stderr=log, env=self.variables, start_new_session=True
            )
        self.running.append(process)
        return process

    def remove(self) -> None:
        """End what was started, and remove the namespaces, with all that is in them."""
        for process in reversed(self.running):
            if process.poll() is None:
                with suppress(ProcessLookupError):
                    os.killpg(process.pid, signal.SIGKILL)
            process.wait()
        for name in self.names:
            if Path("/run/netns", name).exists():
                for number in ip("netns", "pids", name).split():
                    with suppress(ProcessLookupError):
                        os.kill(int(number), signal.SIGKILL)
                ip("netns", "delete", name)


def ip(*words: str) -> str:
    """Run `ip`, and return what it prints."""
    return subprocess.run(["ip", *words], check=True, stdout=subprocess.PIPE, text=True).stdout


@contextmanager
def hosts(program: str) -> Iterator[Hosts]:
    """Make the hosts, and remove them at the end."""
    with tempfile.TemporaryDirectory() as folder:
        made = Hosts(Path(folder), program)
        try:
            made.make()
            yield made
        finally:
            made.remove()


def drawn(made: Hosts, label: str, command: Sequence[str], victim: int | None = None) -> bool:
    """Run the client on the first host, and print what it found: whether all is well. When it asks for it, kill the
    process group of the victim.
    """
    notes = Path(tempfile.mkdtemp(dir=made.folder))
    variables = {**made.variables, "NOTES": str(notes)}
    began = time.monotonic()
    with subprocess.Popen(
        made.on(0, command), stdin=subprocess.PIPE, stdout=subprocess.PIPE, text=True, env=variables,
        start_new_session=True,
    ) as process:
        made.running.append(process)
        assert process.stdin and process.stdout
        found = ""
        for line in process.stdout:
            if line == "kill\n" and victim is not None:
                os.killpg(victim, signal.SIGKILL)
                print("killed\n", file=process.stdin, end="", flush=True)
            else:
                found += line
    workers = {path.name.partition(".")[0] for path in notes.iterdir()}
    is_well = process.returncode == 0 and workers == {"host1", "host2"}
    ran = ", ".join(f"{len(list(notes.glob(f'{worker}.*')))} batches on {worker}" for worker in sorted(workers))
    seconds = time.monotonic() - began
    print(f"{label}: {found.strip() or 'nothing'}; {ran}; {seconds:.0f} s: {'ok' if is_well else 'WRONG'}", flush=True)
    if not is_well:
        print_logs(made.folder)
    return is_well


def print_logs(folder: Path) -> None:
    """Print the last lines of what the processes on the hosts wrote."""
    for log in sorted(folder.glob("*.log")):
        print(f"{log.name}:", *log.read_text(errors="replace").splitlines()[-LOGGED:], sep="\n    ")


def dask_is_well(made: Hosts, count: int) -> bool:
    """Draw by dask, with two workers, and then with one that is killed in the middle."""
    python = sys.executable
    address = f"tcp://{ADDRESSES[0]}:{PORT}"
    made.start(
        0, "scheduler", python, "-m", "distributed.cli.dask_scheduler", "--host", ADDRESSES[0], "--port", str(PORT),
        "--no-dashboard",
    )
    workers = []
    for number in (1, 2):
        work = ["--host", ADDRESSES[number], "--nthreads", "1", "--no-nanny", "--no-dashboard"]
        folder = ["--local-directory", str(made.folder / f"work{number}")]
        command = [python, "-m", "distributed.cli.dask_worker", address, *work, *folder]
        workers.append(made.start(number, f"worker{number}", *command))
    client = [python, str(CLIENT), "dask", address, str(count)]
    whole = drawn(made, "dask", client)
    return drawn(made, "dask, a worker killed", [*client, "--kill"], workers[1].pid) and whole


def mpi_is_well(made: Hosts, count: int) -> bool:
    """Draw by MPI, with a process on each host. Open MPI starts what it needs on a host by a script in place of ssh."""
    agent = made.folder / "agent"
    rows = (
        f"{address}) exec {shlex.join(made.on(number, ['sh', '-c']))} \"$*\" ;;"
        for number, address in enumerate(ADDRESSES)
    )
    agent.write_text("#!/bin/sh\nhost=$1\nshift\ncase $host in\n" + "\n".join(rows) + "\nesac\n")
    agent.chmod(0o755)
    placed = ["--mca", "plm_rsh_agent", str(agent), "--host", ",".join(f"{address}:1" for address in ADDRESSES)]
    passed = [word for name in ("PYTHONPATH", "POPSAMPLE", "NOTES", "PYTHONDONTWRITEBYTECODE") for word in ("-x", name)]
    client = [sys.executable, "-m", "mpi4py.futures", str(CLIENT), "mpi", "-", str(count)]
    return drawn(made, "MPI", [*MPI.split(), *placed, *passed, "-n", "3", *client])


def end(number: int, frame: object) -> None:
    """Raise TimeoutError when the time is over, or the script is asked to end."""
    raise TimeoutError


def main() -> int:
    parser = parser_of(__doc__.partition("\n")[0])
    parser.add_argument("--samples", type=int, default=20000, metavar="N", help="how many are drawn (20000)")
    parser.add_argument("--seconds", type=int, default=600, metavar="N", help="after how many all is ended (600)")
    asked = parser.parse_args()
    lacking = [name for name in ("ip", "unshare") if not shutil.which(name)]
    if os.geteuid() != 0 or lacking or not importlib.util.find_spec("distributed"):
        print(f"hosts: takes root, ip, unshare and distributed; {lacking or 'one'} is missing", file=sys.stderr)
        return 2
    signal.signal(signal.SIGALRM, end)
    signal.signal(signal.SIGTERM, end)
    signal.alarm(asked.seconds)
    try:
        with hosts(asked.program) as made:
            is_well = dask_is_well(made, asked.samples)
            if importlib.util.find_spec("mpi4py") and shutil.which("mpiexec"):
                is_well = mpi_is_well(made, asked.samples) and is_well
            else:
                print("MPI: left out, since it isn't installed")
    except TimeoutError:
        print(f"hosts: ended before it was done, within {asked.seconds} seconds", file=sys.stderr)
        is_well = False
    return 0 if is_well else 1


if __name__ == "__main__":
    sys.exit(main())
