"""How images and files are saved: mode, owner, links, two tools at once, an
image changed in between, folders and disks that take no change."""

import fcntl
import os
import resource
import signal
import stat
import subprocess
import time

from support import (Case, NOBODY, SECONDS, TOOL, hall, volume, water,
                     without_rights)

TEMPORARY = '.disk.img.mfs-new'
APPEND = ('append', '--date=@7', 'disk.img', 'WEEK1', '-')


def appended(image, data, date=7):
    image = bytearray(image)
    end = volume.find(image, b'WEEK1')[2].forks[0].logical
    assert volume.write(image, b'WEEK1', 0, end, data, date) == 0
    return image


class Waiting:
    """A tool that has read its image and waits for its standard input."""

    def __init__(self, case, *args):
        self.process = subprocess.Popen(
            [TOOL, *args], cwd=case.folder, stdin=subprocess.PIPE,
            stdout=subprocess.PIPE, stderr=subprocess.PIPE)
        case.addCleanup(self.stop)
        size = os.stat(case.image).st_size
        end = time.monotonic() + SECONDS
        while not self.has_read(size):
            if time.monotonic() > end or self.process.poll() is not None:
                raise AssertionError('the tool does not wait')
            time.sleep(0.01)

    def has_read(self, size):
        """More than the image was read, and the read of the input sleeps."""
        with open('/proc/%d/io' % self.process.pid) as file:
            read = int(file.readline().split()[1])
        with open('/proc/%d/wchan' % self.process.pid) as file:
            where = file.read()
        with open('/proc/%d/stat' % self.process.pid) as file:
            state = file.read().rsplit(')', 1)[1].split()[0]
        return read > size and state == 'S' and (
            'pipe' in where or where in ('0', ''))

    def go_on(self, data=b''):
        out, err = self.process.communicate(data, timeout=SECONDS)
        return self.process.returncode, out, err.decode()

    def stop(self):
        if self.process.poll() is None:
            self.process.kill()
            self.process.communicate()


class Saving(Case):

    def setUp(self):
        super().setUp()
        self.hall = hall.hall()
        self.write(self.hall)

    def append(self, *more, data=b'new', **options):
        return self.run_tool(*APPEND, *more, stdin=data, **options)

    def saved(self, name='disk.img', data=b'new'):
        self.assertEqual(self.read(name), appended(self.hall, data))

    def test_mode_and_owner(self):
        for mode in (0o600, 0o644, 0o640, 0o666, 0o755, 0o4755):
            self.write(self.hall)
            os.chmod(self.image, mode)
            if os.geteuid() == 0:
                os.chown(self.image, 12345, 23456)
                os.chmod(self.image, mode)
            before = os.stat(self.image)
            self.assertEqual(self.append(umask=0o077).status, 0)
            after = os.stat(self.image)
            self.assertEqual(stat.S_IMODE(after.st_mode), mode)
            self.assertEqual((after.st_uid, after.st_gid),
                             (before.st_uid, before.st_gid))
            self.saved()

    def test_mode_of_a_new_file(self):
        for umask, mode in ((0o022, 0o644), (0o077, 0o600)):
            self.done('get', 'disk.img', 'WEEK1', 'new', umask=umask)
            self.assertEqual(stat.S_IMODE(os.stat(self.path('new')).st_mode),
                             mode)
            os.remove(self.path('new'))

    def test_get_keeps_mode_and_links(self):
        self.write(b'old', 'real')
        os.chmod(self.path('real'), 0o640)
        os.symlink('real', self.path('link'))
        os.symlink('fresh', self.path('hanging'))
        self.done('get', 'disk.img', 'WEEK1', 'link')
        self.done('get', 'disk.img', 'WEEK1', 'hanging')
        wanted = self.done('get', 'disk.img', 'WEEK1')
        self.assertTrue(os.path.islink(self.path('link')))
        self.assertTrue(os.path.islink(self.path('hanging')))
        self.assertEqual((self.read('real'), self.read('fresh')),
                         (wanted, wanted))
        self.assertEqual(stat.S_IMODE(os.stat(self.path('real')).st_mode),
                         0o640)

    def test_get_is_not_the_image(self):
        os.symlink('disk.img', self.path('link'))
        os.link(self.image, self.path('other'))
        for name in ('disk.img', 'link', 'other', './disk.img'):
            self.failed('get', 'disk.img', 'WEEK1', name)
            self.failed('get', 'link', 'WEEK1', name)
        self.assertEqual(self.read(), self.hall)

    def test_get_into_what_is_no_file(self):
        self.done('get', 'disk.img', 'WEEK1', '/dev/null')
        self.assertTrue(stat.S_ISCHR(os.stat('/dev/null').st_mode))
        self.failed('get', 'disk.img', 'WEEK1', '/dev/full')
        os.mkfifo(self.path('pipe'))
        with subprocess.Popen(['cat', self.path('pipe')],
                              stdout=subprocess.PIPE) as reader:
            self.done('get', 'disk.img', 'WEEK1', 'pipe')
            self.assertEqual(len(reader.stdout.read()), 700)
        self.assertTrue(stat.S_ISFIFO(os.stat(self.path('pipe')).st_mode))
        self.assertEqual(len(self.done('get', 'disk.img', 'WEEK1',
                                       '/dev/stdout')), 700)

    def test_links_are_followed(self):
        os.mkdir(self.path('far'))
        os.rename(self.image, self.path('far/real.img'))
        os.symlink('far/real.img', self.path('near.img'))
        os.symlink(self.path('near.img'), self.image)
        self.assertEqual(self.append().status, 0)
        self.saved('far/real.img')
        self.assertTrue(os.path.islink(self.image))
        self.assertTrue(os.path.islink(self.path('near.img')))
        self.assertEqual(os.listdir(self.path('far')), ['real.img'])
        os.symlink('ring', self.path('ring'))
        self.failed('delete', 'ring', 'WEEK1')
        self.failed('get', 'near.img', 'WEEK1', 'ring')

    def test_a_refusal_saves_nothing(self):
        before = os.stat(self.image)
        for line in (('append', '--date=@7', 'disk.img', 'none', '-'),
                     ('delete', 'disk.img', 'WEEK1', 'none'),
                     ('cut', '--date=@7', 'disk.img', 'WEEK1', '701'),
                     ('rename', '--date=@7', 'disk.img', 'WEEK1', 'rates')):
            self.assertEqual(self.run_tool(*line).status, 1)
        after = os.stat(self.image)
        self.assertEqual((before.st_ino, before.st_mtime_ns),
                         (after.st_ino, after.st_mtime_ns))
        self.only('disk.img')

    def test_long_file_names(self):
        for length in (200, 247, 255):
            name = 'n' * length
            self.write(self.hall, name)
            self.done('append', '--date=@7', name, 'WEEK1', '-', stdin=b'new')
            self.saved(name)
            self.only('disk.img', name)
            os.remove(self.path(name))

    # two tools, and other programs

    def test_two_tools_at_once(self):
        first = Waiting(self, *APPEND)
        for line in (APPEND, ('delete', 'disk.img', 'WEEK1'),
                     ('put', '--as=A', '--date=@1', 'disk.img', '-'),
                     ('cut', '--date=@1', 'disk.img', 'WEEK1', '0'),
                     ('rename', '--date=@1', 'disk.img', 'WEEK1', 'W')):
            self.assertIn('another mfs', self.failed(*line).err)
        # those that only read may go on
        self.assertEqual(self.done('list', 'disk.img'), hall.LISTING)
        self.assertEqual(len(self.done('get', 'disk.img', 'WEEK1')), 700)
        self.assertIn('another mfs', self.failed(
            'get', 'disk.img', 'RATES', 'disk.img').err)
        self.assertEqual(first.go_on(b'new'), (0, b'', ''))
        self.saved()
        self.only('disk.img')

    def test_stopped_tool_keeps_others_out(self):
        first = Waiting(self, *APPEND)
        first.process.send_signal(signal.SIGSTOP)
        self.assertIn('another mfs', self.failed(*APPEND).err)
        first.process.send_signal(signal.SIGCONT)
        self.assertEqual(first.go_on(b'new')[0], 0)
        self.saved()

    def test_killed_tool_keeps_nobody_out(self):
        first = Waiting(self, *APPEND)
        first.process.kill()
        first.process.wait()
        self.assertEqual(self.append().status, 0)
        self.saved()
        self.only('disk.img')

    def test_many_tools_at_once(self):
        """Whatever was reported as done is in the image, and nothing else."""
        self.write(water())
        done = b''
        for turn in range(6):
            lines = [b'turn %d, tool %d\r' % (turn, i) for i in range(8)]
            files = [self.write(line, 'line %d' % i)
                     for i, line in enumerate(lines)]
            tools = [subprocess.Popen(
                [TOOL, 'append', '--date=@7', self.image, 'Tariff', file],
                stderr=subprocess.PIPE) for file in files]
            good = set()
            for tool, line in zip(tools, lines):
                err = tool.communicate(timeout=SECONDS)[1]
                if tool.returncode == 0:
                    good.add(line)
                else:
                    self.assertEqual(tool.returncode, 2)
                    self.assertIn(b'another mfs', err)
            self.assertTrue(good)
            text = self.done('get', self.image, 'Tariff')
            added = text[text.index(b'turn %d' % turn):]
            self.assertEqual({line + b'\r' for line in added.split(b'\r')
                              if line}, good)
            self.assertIn(done, text)
            done += added
        self.only('disk.img', *map(os.path.basename, files))
        self.done('check', self.image)

    def changed(self, change):
        first = Waiting(self, *APPEND)
        change()
        after = self.read() if os.path.exists(self.image) else None
        status, out, err = first.go_on(b'new')
        self.assertEqual((status, out), (2, b''))
        self.assertIn('changed', err)
        self.assertEqual(
            self.read() if os.path.exists(self.image) else None, after)
        self.assertFalse(os.path.exists(self.path(TEMPORARY)))

    def test_changed_in_place(self):
        def change():
            facts = os.stat(self.image)
            with open(self.image, 'r+b') as file:
                file.seek(3000)
                file.write(b'!')
            # the date alone would not show it
            os.utime(self.image, ns=(facts.st_atime_ns, facts.st_mtime_ns))
        self.changed(change)

    def test_grown(self):
        self.changed(lambda: os.truncate(self.image, 13 * 512))

    def test_shrunk(self):
        self.changed(lambda: os.truncate(self.image, 11 * 512))

    def test_replaced(self):
        def change():
            self.write(self.hall, 'other')
            os.rename(self.path('other'), self.image)
        self.changed(change)

    def test_removed(self):
        self.changed(lambda: os.remove(self.image))

    def test_link_moved(self):
        self.write(self.hall, 'one.img')
        self.write(self.hall, 'two.img')
        os.remove(self.image)
        os.symlink('one.img', self.image)
        first = Waiting(self, *APPEND)
        os.remove(self.image)
        os.symlink('two.img', self.image)
        # it goes into the file that was read
        self.assertEqual(first.go_on(b'new')[0], 0)
        self.saved('one.img')
        self.assertEqual(self.read('two.img'), self.hall)

    # what a killed run leaves

    def test_left_file_is_taken_away(self):
        for line, status in ((APPEND, 0), (('delete', 'disk.img', 'x'), 1)):
            self.write(self.hall)
            self.write(b'half an image', TEMPORARY)
            os.chmod(self.path(TEMPORARY), 0o400)
            self.assertEqual(self.run_tool(*line, stdin=b'new').status, status)
            self.only('disk.img')
        self.write(self.hall)
        self.write(b'half', '.out.mfs-new')
        self.done('get', 'disk.img', 'WEEK1', 'out')
        self.only('disk.img', 'out')

    def test_a_file_at_work_is_not_taken_away(self):
        self.write(b'at work', TEMPORARY)
        with open(self.path(TEMPORARY), 'rb') as file:
            fcntl.flock(file, fcntl.LOCK_EX)
            self.assertIn('another mfs', self.failed(*APPEND).err)
            self.assertEqual(self.read(TEMPORARY), b'at work')
            self.assertEqual(self.read(), self.hall)

    def test_other_things_in_the_way(self):
        os.mkdir(self.path(TEMPORARY))
        self.assertIn('in the way', self.failed(*APPEND).err)
        os.rmdir(self.path(TEMPORARY))
        os.symlink('nowhere', self.path(TEMPORARY))
        self.assertIn('in the way', self.failed(*APPEND).err)
        self.assertEqual(self.read(), self.hall)
        self.only('disk.img', TEMPORARY)

    # no rights, no room

    def rights(self):
        rights = without_rights()
        if rights is None:
            self.skipTest('run as root, and a user without rights does not '
                          'reach the tool')
        if rights:
            os.chown(self.folder, NOBODY, NOBODY)
            os.chown(self.image, NOBODY, NOBODY)
        return rights

    def test_folder_that_takes_no_change(self):
        rights = self.rights()
        os.chmod(self.folder, 0o555)
        self.addCleanup(os.chmod, self.folder, 0o755)
        ran = self.failed(*APPEND, stdin=b'new', **rights)
        self.assertIn('not allowed', ran.err)
        self.failed('get', 'disk.img', 'WEEK1', 'out', **rights)
        self.assertEqual(self.read(), self.hall)
        self.only('disk.img')
        self.assertEqual(self.done('list', 'disk.img', **rights),
                         hall.LISTING)

    def test_image_that_takes_no_change(self):
        rights = self.rights()
        os.chmod(self.image, 0o444)
        self.failed(*APPEND, stdin=b'new', **rights)
        self.write(b'old', 'out')
        os.chmod(self.path('out'), 0o444)
        self.failed('get', 'disk.img', 'WEEK1', 'out', **rights)
        self.assertEqual((self.read(), self.read('out')), (self.hall, b'old'))
        self.only('disk.img', 'out')
        self.done('check', 'disk.img', **rights)

    def test_image_that_is_not_to_be_read(self):
        rights = self.rights()
        os.chmod(self.image, 0o000)
        for line in (APPEND, ('list', 'disk.img'), ('check', 'disk.img')):
            self.failed(*line, **rights)

    def test_owner_that_can_not_be_kept(self):
        rights = self.rights()
        if os.geteuid() != 0:
            self.skipTest('only root can make a file of another user')
        os.chown(self.image, 12345, 12345)
        os.chmod(self.image, 0o666)
        self.assertEqual(self.append(**rights).status, 0)
        self.saved()
        facts = os.stat(self.image)
        self.assertEqual((facts.st_uid, stat.S_IMODE(facts.st_mode)),
                         (NOBODY, 0o666))

    def test_no_room_on_the_machines_disk(self):
        """Files may grow to 2,048 bytes only; the signal is ignored, so that
        the write fails as it does on a full disk."""
        def little():
            signal.signal(signal.SIGXFSZ, signal.SIG_IGN)
            resource.setrlimit(resource.RLIMIT_FSIZE, (2048, 2048))
        ran = self.failed(*APPEND, stdin=b'new', preexec_fn=little,
                          restore_signals=False)
        self.assertIn('too large', ran.err)
        self.write(b'old', 'out')
        self.write(water(), 'water.img')
        self.failed('get', 'water.img', 'Log', 'out', preexec_fn=little,
                    restore_signals=False)
        self.assertEqual((self.read(), self.read('out')), (self.hall, b'old'))
        self.only('disk.img', 'out', 'water.img')
