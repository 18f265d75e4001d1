"""Other programs that sample spanning trees: Boost's and igraph's, where they are installed."""
import os
import shutil
import subprocess
from typing import Callable, List, NamedTuple

HERE = os.path.dirname(os.path.abspath(__file__))
BOOST_HEADER = "boost/graph/random_spanning_tree.hpp"


class Peer(NamedTuple):
    """A program beside popsample, with its command for a seed and, where more than one is asked for, so many trees."""

    name: str
    command: Callable[..., List[str]]
    takes_weights: bool


def succeeds(command, given=""):
    if not shutil.which(command[0]):
        return False
    quiet = {"stdout": subprocess.DEVNULL, "stderr": subprocess.DEVNULL}
    return subprocess.run(command, input=given, text=True, check=False, **quiet).returncode == 0


def words_of(command):
    return subprocess.run(command, stdout=subprocess.PIPE, text=True, check=True).stdout.split()


def built(name, source, takes_weights, folder, more=()):
    """The peer of a file that stands beside this one, or None where it doesn't compile; g++ says why."""
    program = os.path.join(folder, os.path.splitext(source)[0])
    command = ["g++", "-O3", "-std=c++17", os.path.join(HERE, source), "-o", program, *more]
    if subprocess.run(command, check=False).returncode != 0:
        return None
    return Peer(name, lambda *numbers: [program, *map(str, numbers)], takes_weights)


def boost(folder):
    """Boost Graph, or None where g++ or its header isn't here."""
    if not succeeds(["g++", "-E", "-x", "c++", "-"], f"#include <{BOOST_HEADER}>\n"):
        return None
    return built("Boost", "boost_tree.cpp", True, folder)


def igraph_library(folder):
    """The C library of igraph, or None where g++ or its headers aren't here."""
    if not (shutil.which("g++") and succeeds(["pkg-config", "--exists", "igraph"])):
        return None
    return built("igraph", "igraph_tree.cpp", False, folder, words_of(["pkg-config", "--cflags", "--libs", "igraph"]))


def igraph_in_r():
    """igraph in R, or None where it isn't here. igraph of Python offers no random spanning tree."""
    if not succeeds(["Rscript", "-e", "library(igraph)"]):
        return None
    script = os.path.join(HERE, "igraph_tree.R")
    return Peer("igraph in R", lambda *numbers: ["Rscript", script, *map(str, numbers)], False)


def find_peers(folder):
    """The peers that are here. For each that isn't a line is printed."""
    found = {"Boost": boost(folder), "igraph": igraph_library(folder) or igraph_in_r()}
    for name, peer in found.items():
        if peer is None:
            print(f"{name} isn't here, and is left out.")
    return [peer for peer in found.values() if peer]
