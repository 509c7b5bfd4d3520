"""Runs the built programs on the bad inputs and compares what they print.

    bad_inputs.py BIN

BIN holds list and replay.  The last line counts the inputs that passed and
those that did not; the exit code is 1 where one did not.
"""

import os
import subprocess
import sys
import tempfile

HERE = os.path.dirname(os.path.abspath(__file__))
# a program that has not ended by then has failed
SECONDS = 60


def passes(binary, given, wanted, seconds=SECONDS):
    """Whether the program prints the bytes wanted for those given."""
    try:
        run = subprocess.run([binary], input=given, capture_output=True,
                             timeout=seconds)
    except subprocess.TimeoutExpired:
        return False
    return run.returncode == 0 and run.stdout == wanted


def contents(*path):
    with open(os.path.join(*path), 'rb') as file:
        return file.read()


def tell(what, passed, failed):
    """Prints what differs and the counts; gives the exit code."""
    for name in failed:
        print('differs:', name)
    print(f'{what}: {passed} passed, {len(failed)} failed')
    return 1 if failed else 0


def main():
    binaries = sys.argv[1]
    passed, failed = 0, []
    with tempfile.TemporaryDirectory() as folder:
        subprocess.run([sys.executable, os.path.join(HERE, 'generate.py'), '--bad', folder],
                       check=True, stdout=subprocess.DEVNULL)
        for name in sorted(f[:-3] for f in os.listdir(folder) if f.endswith('.in')):
            program = 'list' if name.startswith('list-') else 'replay'
            if passes(os.path.join(binaries, program), contents(folder, name + '.in'),
                      contents(folder, name + '.out')):
                passed += 1
            else:
                failed.append(name)
    return tell('bad inputs', passed, failed)


if __name__ == '__main__':
    sys.exit(main())
