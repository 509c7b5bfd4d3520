"""Runs the built replay on the list with quick finds and compares what it
prints.

    quick_list.py BIN

BIN holds replay.  The list is made here and not stored: it is that of
crates/replay with quick finds among its calls, and images for them.  The last
line says whether it passed; the exit code is 1 where it did not.
"""

import os
import subprocess
import sys
import tempfile

import bad_inputs

# as long as the gate gives replay on the stored list
SECONDS = 120


def main():
    binary = os.path.join(sys.argv[1], 'replay')
    with tempfile.TemporaryDirectory() as folder:
        subprocess.run([sys.executable, os.path.join(bad_inputs.HERE, 'generate.py'), '--quick', folder],
                       check=True)
        given, wanted = (bad_inputs.contents(folder, 'quick' + ending)
                         for ending in ('.in', '.out'))
    passed = bad_inputs.passes(binary, given, wanted, SECONDS)
    return bad_inputs.tell('list with quick finds', int(passed),
                           [] if passed else ['quick'])


if __name__ == '__main__':
    sys.exit(main())
