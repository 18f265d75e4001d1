"""What the scripts of this folder are asked, where they are asked the same."""
import argparse
import os


def program_at(path):
    """The absolute path of a program; where there is none, the words are refused."""
    program = os.path.abspath(path)
    if not os.access(program, os.X_OK):
        raise argparse.ArgumentTypeError(f"{program} is no program")
    return program


def parser_of(description):
    """A parser of words that name the built program."""
    parser = argparse.ArgumentParser(description=description)
    parser.add_argument("--program", required=True, type=program_at, metavar="PATH", help="the built program")
    return parser
