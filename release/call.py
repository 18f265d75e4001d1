"""A call of the module, where it and the program are installed: prints which program it found.

    python call.py PROGRAM [LIBRARY]

The program that it finds must be PROGRAM, and the library LIBRARY, which then answers.
"""

import os
import sys

import popsample
from popsample._engine import program

assert not {"POPSAMPLE", "POPSAMPLE_LIBRARY"} & set(os.environ)
found = popsample.find_program()
assert os.path.samefile(found, sys.argv[1]), found
if sys.argv[2:]:
    library = popsample.find_library()
    assert library and os.path.samefile(library, sys.argv[2]), library
    # A run of the program would be a call of nothing.
    program.run = None
# A path has one spanning tree.
tree = popsample.spanning_tree([(1, 2), (2, 3)], root=1)
assert tree.parents == {2: 1, 3: 2}, tree
print(found)
