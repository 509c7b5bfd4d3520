"""Standard input and output that can't be used."""

import os
import subprocess

from support import Case, SECONDS, TOOL, hall, water

RESULTS = (('check', 'disk.img'), ('check', '--json', 'disk.img'),
           ('list', 'disk.img'), ('list', '-l', 'disk.img'),
           ('list', '--json', 'disk.img'), ('info', 'disk.img'),
           ('info', '--json', 'disk.img'), ('find', 'disk.img', 'Log'),
           ('find', '--json', 'disk.img', 'Log'), ('map', 'disk.img'),
           ('get', 'disk.img', 'Log'), ('get', 'disk.img', 'Log', '-'),
           ('wrap', 'disk.img', '-'), ('help',), ('help', 'list'))


class Streams(Case):

    def setUp(self):
        super().setUp()
        self.write(water())

    def shell(self, command, *args):
        """A run by the shell, whose words for streams are used."""
        return subprocess.run(
            ['sh', '-c', command, 'sh', TOOL, *args], cwd=self.folder,
            stdin=subprocess.DEVNULL, capture_output=True, timeout=SECONDS)

    def unwritten(self, done):
        err = done.stderr.decode()
        self.assertEqual(done.returncode, 2, err)
        self.assertRegex(err, r'\Amfs: standard output: [^\n]+\n\Z')

    def test_closed_output(self):
        for args in RESULTS:
            with self.subTest(args):
                self.unwritten(self.shell('exec "$@" >&-', *args))

    def test_output_that_nobody_reads(self):
        for args in RESULTS:
            with self.subTest(args):
                read, write = os.pipe()
                os.close(read)
                done = subprocess.run([TOOL, *args], cwd=self.folder,
                                      stdout=write, stderr=subprocess.PIPE,
                                      timeout=SECONDS)
                os.close(write)
                self.unwritten(done)

    def test_full_output(self):
        for args in RESULTS:
            with self.subTest(args):
                self.unwritten(self.shell('exec "$@" >/dev/full', *args))

    def test_output_that_is_only_for_reading(self):
        for args in RESULTS:
            with self.subTest(args):
                self.unwritten(self.shell('exec "$@" 1</dev/null', *args))

    def test_output_that_ends_early(self):
        done = self.shell('"$@" | head -c 10; echo', 'get', 'disk.img', 'Log')
        self.assertEqual(len(done.stdout), 11)
        self.assertNotIn(b'panicked', done.stderr)

    def test_thrown_away_output(self):
        for args in RESULTS:
            for how in ('exec "$@" >/dev/null', 'exec "$@" 1<>/dev/null'):
                done = self.shell(how, *args)
                self.assertEqual((done.returncode, done.stderr), (0, b''))

    def test_refused_and_closed(self):
        self.write(b'')
        done = self.shell('exec "$@" >&-', 'list', 'disk.img')
        self.assertEqual(done.returncode, 2)
        self.assertIn(b'refused 1:', done.stderr)

    def test_closed_output_of_a_change(self):
        """A change has no result to show, and is done."""
        done = self.shell('exec "$@" >&-', 'delete', 'disk.img', 'Log')
        self.assertEqual((done.returncode, done.stderr), (0, b''))
        self.refused(13, 'get', 'disk.img', 'Log')

    def test_closed_input(self):
        before = self.read()
        for how in ('exec "$@" <&-', 'exec "$@" 0>/dev/null'):
            for args in (('put', '--date=@1', '--as=A', 'disk.img', '-'),
                         ('append', '--date=@1', 'disk.img', 'Log', '-')):
                done = self.shell(how, *args)
                self.assertEqual(done.returncode, 2)
                self.assertIn(b'standard input', done.stderr)
                self.assertEqual(self.read(), before)
        done = self.shell('exec "$@" <&-', 'check', 'disk.img')
        self.assertEqual(done.returncode, 0)

    def test_closed_errors(self):
        for how in ('exec "$@" 2>&-', 'exec "$@" 2>/dev/full'):
            self.assertEqual(
                self.shell(how, 'get', 'disk.img', 'none').returncode, 1)
            self.assertEqual(self.shell(how, 'frob').returncode, 2)

    def test_all_closed(self):
        how = 'exec "$@" <&- >&- 2>&-'
        self.assertEqual(self.shell(how, 'list', 'disk.img').returncode, 2)
        self.assertEqual(
            self.shell(how, 'delete', 'disk.img', 'Log').returncode, 0)
        self.only('disk.img')
        self.done('check', 'disk.img')
        self.write(hall.hall())
        self.assertEqual(self.shell(how, 'put', '--date=@1', '--as=A',
                                    'disk.img', '-').returncode, 2)
        self.assertEqual(self.read(), hall.hall())
