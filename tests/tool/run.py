"""Runs the tests of the tool.

    run.py [TOOL] [PART..]

TOOL is the built program (default: rust/target/release/mfs).  A part is a
module's name without test_, as in saving.  Each test that was not run gives a
line that says why.  The last line counts; the exit code is 1 where a test did
not pass.
"""

import glob
import os
import sys
import unittest


def main():
    here = os.path.dirname(os.path.abspath(__file__))
    arguments = sys.argv[1:]
    if arguments:
        os.environ['MFS_TOOL'] = os.path.abspath(arguments.pop(0))
    sys.path.insert(0, here)
    sys.dont_write_bytecode = True
    import support
    if not os.access(support.TOOL, os.X_OK):
        print('the tool is not built:', support.TOOL)
        return 1
    parts = arguments or sorted(
        os.path.basename(path)[5:-3]
        for path in glob.glob(os.path.join(here, 'test_*.py')))
    suite = unittest.defaultTestLoader.loadTestsFromNames(
        ['test_' + part for part in parts])
    result = unittest.TextTestRunner(stream=sys.stdout, verbosity=1).run(suite)
    for test, why in result.skipped:
        print('not run: %s: %s' % (test.id(), why))
    failed = len({test.id().split(' ')[0] for test, _
                  in result.failures + result.errors})
    passed = result.testsRun - failed - len(result.skipped)
    print('tool: %d passed, %d failed, %d not run' % (
        passed, failed, len(result.skipped)))
    return 1 if failed or not result.testsRun else 0


if __name__ == '__main__':
    sys.exit(main())
