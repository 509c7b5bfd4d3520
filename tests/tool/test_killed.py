"""A save that is killed at every system call in turn, one in which every
system call in turn fails, and an image that is replaced before it is locked.

All by strace's injection; without strace this part is not run.
"""

import os
import re
import shutil
import subprocess
import time
import unittest

from support import Case, Ran, SECONDS, TOOL, hall, volume, water, wrapped

STRACE = shutil.which('strace')
NEW = b'new bytes ' * 90

# calls whose failure ends any program: memory, signals, its own start and end
NOT_FAILED = {'brk', 'mmap', 'munmap', 'mprotect', 'mremap', 'madvise',
              'exit_group', 'execve', 'rt_sigaction', 'sigaltstack'}


def works():
    """Whether strace can watch a program here."""
    return STRACE and subprocess.run(
        [STRACE, '-f', '-o', os.devnull, 'true'], capture_output=True,
        timeout=SECONDS).returncode == 0


def put(image):
    image = bytearray(image)
    assert volume.cut(image, b'WEEK1', 0, 0, 7) == 0
    assert volume.write(image, b'WEEK1', 0, 0, NEW, 7) == 0
    return bytes(image)


def delete(image):
    image = bytearray(image)
    assert volume.delete(image, b'Week 07') == 0
    return bytes(image)


@unittest.skipUnless(works(), 'strace is not on this machine, or may not watch'
                     ' programs: saves were not killed')
class Killed(Case):

    def strace(self, args, *options):
        log = os.path.join(self.logs, 'log')
        done = subprocess.run(
            [STRACE, '-f', '-o', log, *options, TOOL, *args], cwd=self.folder,
            stdin=subprocess.DEVNULL, capture_output=True, timeout=SECONDS)
        with open(log, encoding='utf-8', errors='replace') as file:
            return Ran(done), file.read().split('\n')

    def setUp(self):
        super().setUp()
        self.logs = self.folder + '.logs'
        os.mkdir(self.logs)
        self.addCleanup(shutil.rmtree, self.logs)

    def calls(self, args, target):
        """Each system call from the target's first open on: its name, and
        the how-manieth call of that name it is."""
        ran, lines = self.strace(args)
        self.assertEqual(ran.status, 0, ran)
        counts, found, begun = {}, [], False
        for line in lines:
            call = re.match(r'\d+ +(\w+)\(', line)
            if not call:
                continue
            name = call.group(1)
            counts[name] = counts.get(name, 0) + 1
            begun = begun or name == 'openat' and '"%s"' % target in line
            if begun and name != 'exit_group':
                found.append((name, counts[name]))
        self.assertTrue(any(name.startswith('rename') for name, _ in found))
        self.assertGreaterEqual([n for n, _ in found].count('fsync'), 2)
        return found

    def each(self, args, target, fresh, old, new, inject, check):
        """Runs the command once for each call, with the injection; then once
        more without, which must be done and leave no temporary file."""
        fresh()
        calls = self.calls(args, target)
        outcomes = set()
        for name, count in calls:
            if 'signal' not in inject and name in NOT_FAILED:
                continue
            fresh()
            names = os.listdir(self.folder)
            ran, _ = self.strace(
                args, '-e', 'inject=%s:%s:when=%d' % (name, inject, count))
            with self.subTest(call=name, count=count):
                now = self.read(target) if os.path.exists(
                    self.path(target)) else None
                self.assertIn(now, (old, new), ran)
                outcomes.add(now == new)
                check(ran, now, names, name)
                again = self.run_tool(*args)
                self.assertEqual(again.status, 0, again)
                self.assertEqual(self.read(target), new)
                self.only(*set(names) | {target})
        # both came up, or the calls were not those of a save
        self.assertEqual(outcomes, {False, True})
        return len(calls)

    def commands(self, inject, check):
        source = self.write(NEW, 'source')
        hall_image, disk = bytes(hall.hall()), bytes(water())

        def fresh_hall():
            self.write(hall_image)

        def fresh_get():
            self.write(disk)
            self.write(b'old', 'out')

        def fresh_new():
            self.write(disk)
            if os.path.exists(self.path('out')):
                os.remove(self.path('out'))

        log = bytearray(volume.find(disk, b'Log')[2].forks[0].logical)
        volume.read(disk, b'Log', 0, 0, log)
        log = bytes(log)
        self.each(('put', '--date=@7', '--as=WEEK1', 'disk.img', source),
                  'disk.img', fresh_hall, hall_image, put(hall_image), inject,
                  check)
        self.each(('get', 'disk.img', 'Log', 'out'), 'out', fresh_get,
                  b'old', log, inject, check)
        self.each(('get', 'disk.img', 'Log', 'out'), 'out', fresh_new, None,
                  log, inject, check)
        self.each(('wrap', 'disk.img', 'out'), 'out', fresh_get, b'old',
                  wrapped(disk, b'WATER'), inject, check)

    def test_killed(self):
        def check(ran, now, names, call):
            # strace ends by the signal that ended the tool
            self.assertIn(ran.status, (-9, 137), ran)
        self.commands('signal=KILL', check)

    def test_killed_in_delete(self):
        """As above; a second delete finds no such file, so only the image and
        what is left are looked at."""
        disk = bytes(water())
        new = delete(disk)
        args = ('delete', 'disk.img', 'Week 07')
        self.write(disk)
        outcomes = set()
        for name, count in self.calls(args, 'disk.img'):
            self.write(disk)
            self.strace(args, '-e', 'inject=%s:signal=KILL:when=%d' % (
                name, count))
            with self.subTest(call=name, count=count):
                self.assertIn(self.read(), (disk, new))
                outcomes.add(self.read() == new)
                self.assertIn(self.run_tool(*args).status, (0, 1))
                self.assertEqual(self.read(), new)
                self.only('disk.img')
        self.assertEqual(outcomes, {False, True})

    def test_killed_in_a_wrapped_file(self):
        """The image and its checksum are saved together."""
        source = self.write(NEW, 'source')
        image = bytes(hall.hall()).ljust(409600, b'\0')
        old, new = (wrapped(data, b'Desk', tags=b'tag ' * 2400)
                    for data in (image, put(image)))

        def check(ran, now, names, call):
            self.assertIn(ran.status, (-9, 137), ran)
        self.each(('put', '--date=@7', '--as=WEEK1', 'disk.img', source),
                  'disk.img', lambda: self.write(old), old, new,
                  'signal=KILL', check)

    def test_failed(self):
        def check(ran, now, names, call):
            self.assertIn(ran.status, (0, 2), ran)
            self.assertNotIn('panicked', ran.err)
            if ran.status == 0:
                self.assertTrue(now not in (None, b'old'), ran)
            else:
                self.assertRegex(ran.err, r'\Amfs: [^\n]+\n')
            if not call.startswith('unlink'):
                extra = set(os.listdir(self.folder)) - set(names) - {'out'}
                self.assertEqual(extra, set(), ran)
        for error in ('EIO', 'ENOSPC', 'EACCES'):
            self.commands('error=' + error, check)

    def test_replaced_before_it_is_locked(self):
        """The tool has opened the image and not yet locked it when another
        takes its place: it works on the other."""
        self.write(hall.hall())
        other = bytearray(hall.hall())
        other[6000] = 1
        self.write(other, 'other.img')
        self.write(NEW, 'source')
        log = os.path.join(self.logs, 'log')
        with subprocess.Popen(
                [STRACE, '-f', '-o', log, '-e',
                 'inject=flock:delay_enter=2000000:when=1', TOOL, 'put',
                 '--date=@7', '--as=WEEK1', 'disk.img', 'source'],
                cwd=self.folder, stderr=subprocess.PIPE) as strace:
            end = time.monotonic() + SECONDS
            while not self.opened(strace.pid):
                self.assertLess(time.monotonic(), end)
                time.sleep(0.01)
            os.rename(self.path('other.img'), self.image)
            self.assertEqual((strace.wait(SECONDS), strace.stderr.read()),
                             (0, b''))
        self.assertEqual(self.read(), put(other))
        self.only('disk.img', 'source')

    def opened(self, watcher):
        """Whether the program that strace watches has opened the image."""
        with open('/proc/%d/task/%d/children' % (watcher, watcher)) as file:
            children = file.read().split()
        for child in children:
            try:
                folder = '/proc/%s/fd' % child
                links = [os.readlink(os.path.join(folder, number))
                         for number in os.listdir(folder)]
            except OSError:
                continue
            if os.path.realpath(self.image) in links:
                return True
        return False
