"""What the tests of the tool share: the tool run on images in a folder of its
own, the second program to compare with, and wrapped files."""

import json
import os
import random
import re
import subprocess
import sys
import tempfile
import unittest

HERE = os.path.dirname(os.path.abspath(__file__))
ROOT = os.path.dirname(os.path.dirname(HERE))
sys.path.insert(0, os.path.join(ROOT, 'tests', 'second'))

import diskcopy  # noqa: E402
import generate  # noqa: E402
import hall  # noqa: E402
import listing  # noqa: E402
import maker  # noqa: E402
import volume  # noqa: E402

# the listing of an image of any size
listing.ROOM = 1 << 40

TOOL = os.path.abspath(os.environ.get(
    'MFS_TOOL', os.path.join(ROOT, 'rust', 'target', 'release', 'mfs')))
# a run that has not ended by then has failed
SECONDS = 60
DATE = 2500700000
NOBODY = 65534


class Ran:
    """What a run gave: exit status, standard output, standard error."""

    def __init__(self, done):
        self.status = done.returncode
        self.out = done.stdout
        self.err = done.stderr.decode('utf-8', 'replace')

    def refusals(self):
        return [int(n) for n in re.findall(r': refused (\d+): ', self.err)]

    def __repr__(self):
        return 'status %d, output %r, errors %r' % (
            self.status, self.out[:200], self.err)


def water():
    with open(os.path.join(ROOT, 'samples', 'water.img'), 'rb') as file:
        return bytearray(file.read())


def shapes():
    """Accepted volumes of many shapes, by name."""
    rng = random.Random(31)
    yield 'hall', hall.hall()
    yield 'water', water()
    yield 'empty', hall.large(391)
    for i in range(26):
        yield 'small %d' % i, generate.small_volume(rng, i).image()
    for shape in (maker.disk_400k, maker.disk_400k_of_640,
                  maker.longest_directory, maker.largest_blocks,
                  maker.most_blocks, maker.every_byte,
                  generate.middle_volume):
        yield shape.__name__, shape(rng).image()


def with_names(*names):
    """An accepted volume with files of these names, of any length."""
    return maker.with_names(random.Random(38), names, locked=False,
                            file_locks=0, next_kind='small').image()


def as_text(name):
    """A name as the tool shows it."""
    return ''.join(
        '\\\\' if b == 0x5C else
        '\\x%02X' % b if b < 0x20 or b in (0x7F, 0xCA, 0xF0) else
        bytes([b]).decode('mac_roman') for b in name)


def wrapped(image, name=b'', format_byte=2, tags=b'', rest=b''):
    """A Disk Copy 4.2 file; rest stands behind the name in its field."""
    image = bytes(image)
    sums = (diskcopy.checksum(image),
            diskcopy.checksum(tags[diskcopy.TAGS_LEFT_OUT:]))
    header = diskcopy.HEADER.pack(len(name), name + rest, len(image),
                                  len(tags), *sums, 0, format_byte, 0x0100)
    return header + image + tags


class Case(unittest.TestCase):

    def setUp(self):
        folder = tempfile.TemporaryDirectory()
        self.addCleanup(folder.cleanup)
        self.folder = folder.name
        self.image = self.path('disk.img')

    def path(self, name):
        return os.path.join(self.folder, name)

    def write(self, data, name='disk.img'):
        with open(self.path(name), 'wb') as file:
            file.write(data)
        return self.path(name)

    def read(self, name='disk.img'):
        with open(self.path(name), 'rb') as file:
            return file.read()

    def run_tool(self, *args, stdin=b'', **more):
        done = subprocess.run([TOOL, *args], input=stdin, timeout=SECONDS,
                              cwd=self.folder, stdout=subprocess.PIPE,
                              stderr=subprocess.PIPE, **more)
        return Ran(done)

    def done(self, *args, **more):
        """A run that must succeed in silence on standard error."""
        ran = self.run_tool(*args, **more)
        self.assertEqual((ran.status, ran.err), (0, ''), (args, ran))
        return ran.out

    def refused(self, number, *args, **more):
        """A run that must be refused by this number, in one line."""
        ran = self.run_tool(*args, **more)
        self.assertEqual((ran.status, ran.refusals()), (1, [number]),
                         (args, ran))
        self.assertRegex(ran.err, r'\Amfs: [^\n]*: refused %d: [^\n]+\n\Z'
                         % number)
        return ran

    def failed(self, *args, **more):
        """A run that can't be carried out: status 2, words, no result."""
        ran = self.run_tool(*args, **more)
        self.assertEqual((ran.status, ran.out), (2, b''), (args, ran))
        self.assertRegex(ran.err, r'\Amfs: [^\n]+\n')
        self.assertNotIn('panicked', ran.err)
        return ran

    def all_refuse(self, number, *options):
        """Every verb refuses the image by this number; rename and find, which
        take only bare images, by that of a bare one, and find answers where
        only 5 to 10 refuse and it has the name."""
        self.assertEqual(
            self.refused(number, 'check', *options, self.image).out, b'')
        for args in ((), ('-l',)):
            ran = self.refused(number, 'list', *args, *options, self.image)
            self.assertEqual(ran.out, b'refused %d\n' % number)
        for args in (('info', self.image), ('map', self.image),
                     ('get', self.image, 'A'), ('get', self.image, ''),
                     ('put', '--date=@1', '--as=A', self.image, '-'),
                     ('append', '--date=@1', self.image, 'A', '-'),
                     ('cut', '--date=@1', self.image, 'A', '0'),
                     ('delete', self.image, 'A')):
            ran = self.refused(number, *args, *options)
            self.assertEqual(ran.out, b'')
        bare = volume.rename(bytearray(self.read()), b'A', b'B', 1)
        ran = self.refused(bare, 'rename', '--date=@1', self.image, 'A', 'B')
        self.assertEqual(ran.out, b'')
        quick = volume.quick_find(self.read(), b'A')[0]
        ran = self.run_tool('find', self.image, 'A')
        self.assertEqual((ran.status, ran.refusals(), bool(ran.out)), (
            (1, [quick], False) if quick else (0, [], True)))
        for args in (('info',), ('list',)):
            ran = self.refused(number, *args, '--json', *options, self.image)
            told = json.loads(ran.out)
            self.assertEqual((told['image'], told['sound'], told['refused']),
                             (self.image, False, number))
            self.assertIn(': refused %d: %s\n' % (number, told['words']),
                          ran.err)

    def only(self, *names):
        """The folder holds these files and no other."""
        self.assertEqual(sorted(os.listdir(self.folder)), sorted(names))


def reach(path):
    """Whether a user without rights can run what is at this path."""
    while path != os.path.dirname(path):
        if not os.stat(path).st_mode & 0o001:
            return False
        path = os.path.dirname(path)
    return True


def without_rights():
    """Arguments for a run by a user without rights; None where that can't be
    had."""
    if os.geteuid() != 0:
        return {}
    return {'user': NOBODY, 'group': NOBODY, 'extra_groups': []} if reach(
        TOOL) else None
