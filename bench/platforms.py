#!/usr/bin/env python3
"""Prints the sizes and times of popsample's other forms beside the native library.

    bench/platforms.py --library crates/popsample_c/out/libpopsample.so --web OUT [--program64 PROGRAM]

OUT is what web/build.sh made, PROGRAM what release/aarch64/build.sh did. A time is the least of the calls in one
process, without its start; the program under qemu is started anew for each call, and its time has the start. It takes
no arrays. Chromium is driven by selenium, so the script is for Debian's /usr/bin/python3.
"""

from __future__ import annotations

import argparse
import ctypes
import functools
import gzip
import http.server
import json
import subprocess
import sys
import threading
import time
from pathlib import Path
from typing import Any

TURNS = 7
MODULES = ("popsample.wasm", "popsample32.wasm")
SIZE = 224
JOBS = {"`make grid 300`": ("make", 300), f"`tree`, a grid of {SIZE}": ("tree", SIZE)}
ARRAYS = "the same tree, in arrays"
KEY = bytes(32)
HEIGHT = 1 << 20

# Times each job in a page or under Node: `popsample`, `jobs`, `ends` and `turns` are given.
SCRIPT = """
const least = (call) => Math.min(...Array.from({ length: turns }, () => {
    const begin = performance.now();
    call();
    return performance.now() - begin;
}));
const times = jobs.map(([words, text]) => least(() => popsample.run(words, text)));
const graph = Uint32Array.from(ends);
times.push(least(() => popsample.spanningTree(graph, { key: "0".repeat(64) })));
"""


def grid_ends(size: int) -> list[int]:
    """The ends of the edges of a square grid, one after the other."""
    ends = []
    for vertex in range(size * size):
        if (vertex + 1) % size:
            ends += [vertex, vertex + 1]
        if vertex + size < size * size:
            ends += [vertex, vertex + size]
    return ends


def grid_text(size: int) -> str:
    """The text of a square grid."""
    ends = grid_ends(size)
    edges = [f"e {ends[at] + 1} {ends[at + 1] + 1}\n" for at in range(0, len(ends), 2)]
    return f"p edge {size * size} {len(edges)}\n{''.join(edges)}"


def jobs() -> list[tuple[list[str], str]]:
    """The words and the text of each job."""
    return [
        (["make", "grid", str(size)], "") if command == "make" else ([command], grid_text(size))
        for command, size in JOBS.values()
    ]


def least(call: Any) -> float:
    """The least time of a call, in milliseconds."""
    times = []
    for _ in range(TURNS):
        begin = time.perf_counter()
        call()
        times.append((time.perf_counter() - begin) * 1000)
    return min(times)


def by_library(path: Path) -> list[float]:
    """The times of the native library in this process."""
    library = ctypes.CDLL(str(path))
    run = library.popsample_run
    room = ctypes.create_string_buffer(1 << 24)

    def call(words: bytes, text: bytes) -> None:
        written = ctypes.c_size_t()
        size = ctypes.c_size_t
        status = run(words, size(len(words)), text, size(len(text)), room, size(len(room)), ctypes.byref(written))
        assert status == 0, status

    spelled = [("".join(f"{word}\0" for word in words).encode(), text.encode()) for words, text in jobs()]
    times = [least(lambda asked=asked: call(*asked)) for asked in spelled]
    return [*times, least(array_call(library))]


def array_call(library: ctypes.CDLL) -> Any:
    """The call of the native library that samples a tree of the grid in arrays."""
    ends, vertices = grid_ends(SIZE), SIZE * SIZE

    def numbers(kind: Any, *values: int, room: int = 0) -> tuple[Any, Any]:
        row = (kind * (len(values) + room))(*values)
        return row, ctypes.c_size_t(len(row))

    none = numbers(ctypes.c_uint32)
    given = [ctypes.c_uint32(vertices), *numbers(ctypes.c_uint32, *ends), *none, ctypes.c_uint32(0)]
    no_budget = ctypes.c_uint64(2**64 - 1)
    drawn = [*numbers(ctypes.c_uint8, *KEY), ctypes.c_uint32(HEIGHT), ctypes.c_uint32(0), *none, no_budget]
    rows = [part for _ in range(3) for part in numbers(ctypes.c_uint32, room=vertices)]
    told = [*numbers(ctypes.c_uint64, room=2), (ctypes.c_uint64 * 1)(), (ctypes.c_uint64 * 1)()]

    def call() -> None:
        status = library.popsample_trees(*given, *drawn, *rows, *told)
        assert status == 0, status

    return call


def by_node(web: Path, module: str) -> list[float] | None:
    """The times under Node; None if it can't run the module."""
    script = f"""
const {{ load }} = await import({json.dumps((web / "package/index.js").as_uri())});
const [jobs, ends, turns] = [{json.dumps(jobs())}, {json.dumps(grid_ends(SIZE))}, {TURNS}];
const popsample = await load(new URL({json.dumps((web / "package" / module).as_uri())}));
{SCRIPT}
console.log(JSON.stringify(times));
"""
    done = subprocess.run(["node", "--input-type=module", "-"], input=script, capture_output=True, text=True)
    return json.loads(done.stdout) if done.returncode == 0 else None


class Quiet(http.server.SimpleHTTPRequestHandler):
    """Serves files and logs nothing."""

    def log_message(self, *_: Any) -> None:
        """Logs nothing."""


def by_chromium(web: Path) -> dict[str, list[float] | None]:
    """The times in Chromium, of each module."""
    from selenium import webdriver
    from selenium.webdriver.chrome.service import Service

    server = http.server.ThreadingHTTPServer(("127.0.0.1", 0), functools.partial(Quiet, directory=str(web / "package")))
    threading.Thread(target=server.serve_forever, daemon=True).start()
    options = webdriver.ChromeOptions()
    for argument in ("--headless=new", "--no-sandbox", "--disable-gpu", "--disable-dev-shm-usage"):
        options.add_argument(argument)
    options.binary_location = "/usr/bin/chromium"
    driver = webdriver.Chrome(service=Service("/usr/bin/chromedriver"), options=options)
    driver.set_script_timeout(600)
    found = {}
    try:
        driver.get(f"http://127.0.0.1:{server.server_port}/package.json")
        for module in MODULES:
            script = f"""
const [jobs, ends, turns, module, told] = arguments;
import("/index.js").then(async ({{ load }}) => {{
    const popsample = await load(new URL(module, location.href));
    {SCRIPT}
    told(times);
}}).catch(() => told(null));
"""
            found[module] = driver.execute_async_script(script, jobs(), grid_ends(SIZE), TURNS, module)
    finally:
        driver.quit()
        server.shutdown()
    return found


def by_qemu(program: Path) -> list[float]:
    """The times of the program for ARM64 under qemu, each with its start."""
    command = ["qemu-aarch64", "-L", "/usr/aarch64-linux-gnu", str(program)]
    calls = [
        lambda words=words, text=text: subprocess.run(
            [*command, *words], input=text.encode(), stdout=subprocess.DEVNULL, check=True
        )
        for words, text in jobs()
    ]
    return [least(call) for call in calls]


def row(name: str, path: Path, times: list[float] | None) -> None:
    """Prints a row of the table."""
    content = path.read_bytes()
    wanted = len(JOBS) + 1
    shown = ["doesn't run"] * wanted if times is None else [f"{milliseconds:.0f}" for milliseconds in times]
    shown += ["-"] * (wanted - len(shown))
    print(f"| {name} | {len(content)} | {len(gzip.compress(content, 9))} | {' | '.join(shown)} |", flush=True)


def main() -> int:
    """Measures all forms that are named and prints their table."""
    parser = argparse.ArgumentParser(description=__doc__, formatter_class=argparse.RawDescriptionHelpFormatter)
    parser.add_argument("--library", type=Path, required=True)
    parser.add_argument("--web", type=Path, required=True)
    parser.add_argument("--program64", type=Path)
    words = parser.parse_args()
    web = words.web.resolve()
    print(f"| form | bytes | gzip -9 | {' | '.join(f'{job}, ms' for job in [*JOBS, ARRAYS])} |")
    print(f"|{' --- |' * (4 + len(JOBS))}")
    row("native library, in one process", words.library, by_library(words.library.resolve()))
    chromium = by_chromium(web)
    for module in MODULES:
        row(f"{module} in Chromium", web / "package" / module, chromium[module])
    for module in MODULES:
        row(f"{module} under Node", web / "package" / module, by_node(web, module))
    if words.program64:
        row("program for ARM64 under qemu", words.program64, by_qemu(words.program64))
    return 0


if __name__ == "__main__":
    sys.exit(main())
