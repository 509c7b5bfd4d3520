"""Wrapped files: every verb that takes them against the second program on the
image inside, files that are refused, how they are told, wrap and unwrap."""

import json
import os
import random
import stat
import time

from support import (Case, DATE, diskcopy, generate, hall, listing, maker,
                     volume, water, wrapped)
from test_changing import Commands, cut, put

HEADER = diskcopy.DATA_AT
SIZE = diskcopy.DATA_SIZE
TAGS = bytes(i * 7 % 251 for i in range(9600))


def of_400k(image):
    """The volume on a 400K disk: zeros behind its last block."""
    return bytearray(bytes(image).ljust(SIZE, b'\0'))


def damaged(file, at, mask=0x40):
    file = bytearray(file)
    file[at] ^= mask
    return file


def images():
    """Accepted images of 400K, by name."""
    rng = random.Random(41)
    yield 'water', water()
    yield 'hall', of_400k(hall.hall())
    yield 'empty', hall.large(391)
    yield '391 blocks', maker.disk_400k(rng).image()
    for i in range(4):
        yield 'small %d' % i, of_400k(generate.small_volume(rng, i).image())


def refused_images():
    """An image of 400K for each number of a check but 1."""
    rng = random.Random(42)
    found = {}
    for kind in maker.DAMAGES:
        image = maker.damaged(rng, kind).image()
        if len(image) <= SIZE:
            image = of_400k(image)
            found.setdefault(volume.check(image)[0], image)
    found.pop(0, None)
    assert sorted(found) == list(range(2, 11)), sorted(found)
    return found


class Reading(Case):

    def test_as_the_image_inside(self):
        """Each verb says of the file what it says of the image."""
        for name, image in images():
            for tags in (b'', TAGS):
                with self.subTest(name, tags=len(tags)):
                    file = wrapped(image, b'Desk \x8e', 0x12, tags, b'rest')
                    self.check_both(image, file)

    def check_both(self, image, file):
        lines = [('check',), ('check', '--json'), ('list',), ('list', '-l'),
                 ('list', '--json'), ('map',)]
        self.write(image)
        bare = [self.done(*line, self.image) for line in lines]
        facts = self.done('info', self.image).decode()
        told = json.loads(self.done('info', '--json', self.image))
        self.write(file)
        self.assertEqual([self.done(*line, self.image) for line in lines],
                         bare)
        self.assertEqual(bare[2], listing.listing(image))
        has = 'without' if len(file) == HEADER + SIZE else 'with'
        self.assertEqual(
            self.done('info', self.image).decode(), facts +
            'wrapped:           Disk Copy 4.2, %s tags\n'
            'wrapped name:      Desk \u00e9\nformat byte:       12 hex\n' % has)
        told['wrapped'] = {'name': {'text': 'Desk \u00e9',
                                    'hex': '4465736B208E'},
                           'format': 18, 'tags': has == 'with'}
        self.assertEqual(
            json.loads(self.done('info', '--json', self.image)), told)
        self.assertEqual(self.read(), file)
        self.only('disk.img')

    def test_get(self):
        image = water()
        self.write(wrapped(image, tags=TAGS))
        for placed in volume.Volume(image).entries:
            name = placed.entry.name
            for which, options in ((0, ()), (1, ('-r', '--wrapped'))):
                wanted = bytearray(placed.entry.forks[which].logical)
                volume.read(image, name, which, 0, wanted)
                self.assertEqual(self.done('get', *options, self.image,
                                           name.decode('mac_roman')), wanted)
        self.done('get', self.image, 'Log', 'out')
        self.assertEqual(self.read('out'), self.done('get', self.image, 'log'))
        self.refused(13, 'get', self.image, 'none')

    def test_empty_name(self):
        self.write(wrapped(water()))
        self.assertIn(b'\nwrapped name:\n', self.done('info', self.image))


class Changing(Commands):
    """The image is in a wrapped file whose other bytes are carried."""

    verbs = ('put', 'put', 'append', 'append', 'cut', 'delete')
    tags = b''

    def write(self, data, name='disk.img'):
        if name == 'disk.img':
            data = wrapped(data, b'Desk 1', 0x5A, self.tags, b'carried')
        return super().write(data, name)

    def read(self, name='disk.img'):
        """The image, where all else is right."""
        file = super().read(name)
        if name != 'disk.img':
            return file
        image = diskcopy.inside(file)
        self.assertEqual(file, wrapped(image, b'Desk 1', 0x5A, self.tags,
                                       b'carried'))
        return image

    def test_by_chance(self):
        rng = random.Random(43)
        for i, (_, image) in enumerate(images()):
            self.tags = TAGS * (i % 2)
            self.write(image)
            for _ in range(8):
                image = self.some_command(rng, image)
        for verb in ('put', 'append', 'cut', 'delete'):
            self.assertGreater(self.seen[verb, 0], 0, verb)
        self.assertGreater(len(self.seen), 12)

    def test_edges(self):
        image = of_400k(hall.hall())
        self.tags = TAGS
        for length, number in ((1348, 0), (1349, 17)):
            self.write(image)
            wanted = put(image, b'RATES', 1, b'x' * (length - 324), 5)
            self.assertEqual(wanted[0], number)
            self.compare(wanted, 'put', '-r', '--date=@5', '--as=rates',
                         '--wrapped', self.image, '-',
                         stdin=b'x' * (length - 324))
        self.write(image)
        self.compare(cut(image, b'WEEK1', 0, 512, DATE), 'cut',
                     '--date=@%d' % DATE, self.image, 'WEEK1', '512')
        self.write(image)
        self.compare((21, image), 'put', '--date=@1', '--as', 'n' * 32,
                     self.image, '-')
        image[1034] = 0x80
        self.write(image)
        self.compare((11, image), 'delete', self.image, 'WEEK1')

    def test_mode_is_kept(self):
        self.write(water())
        os.chmod(self.image, 0o640)
        self.done('delete', self.image, 'Log')
        self.assertEqual(stat.S_IMODE(os.stat(self.image).st_mode), 0o640)


class Refused(Case):

    def refuse(self, number, file, *options):
        """Every verb refuses the file by this number, and so does unwrap;
        rename and find refuse it as an image."""
        self.write(file)
        self.all_refuse(number, *options)
        if '--bare' not in options:
            told = diskcopy.serve(volume.check, bytearray(file))
            self.assertEqual(told[0], number)
            self.write(b'old', 'out')
            self.refused(number, 'unwrap', self.image, 'out')
            self.refused(number, 'unwrap', self.image, 'new')
            self.assertEqual(self.read('out'), b'old')
            os.remove(self.path('out'))
        self.assertEqual(self.read(), file)
        self.only('disk.img')

    def test_container(self):
        """22, 23 and 24. Where the header tells of no wrapped file, that is
        said by --wrapped."""
        image = water()
        plain, tagged = wrapped(image), wrapped(image, tags=TAGS)
        for number, file in ((22, damaged(plain, 0)),
                             (22, damaged(tagged, 0, 0xFF)),
                             (22, damaged(plain, 70)),
                             (22, damaged(tagged, 70)),
                             (22, tagged[:HEADER + SIZE]),
                             (23, damaged(plain, 75, 1)),
                             (23, damaged(tagged, HEADER + SIZE - 1, 1)),
                             (24, damaged(plain, 79, 1)),
                             (24, damaged(tagged, 79, 1)),
                             (24, damaged(tagged, HEADER + SIZE + 12, 1))):
            self.refuse(number, bytes(file))
        for file in (damaged(plain, 64), damaged(tagged, 80, 1),
                     damaged(plain, 83), plain[:-1], plain + b'\0',
                     tagged[:-1], tagged + b'\0', plain[:HEADER], b'', image,
                     hall.hall()):
            self.refuse(22, bytes(file), '--wrapped')

    def test_order(self):
        """22 before 23, 23 before 24, 24 before the image's own number."""
        image = water()
        image[1024] = 0
        file = wrapped(image, tags=TAGS)
        self.refuse(2, file)
        file = damaged(file, 79)
        self.refuse(24, bytes(file))
        file = damaged(file, 75)
        self.refuse(23, bytes(file))
        self.refuse(22, bytes(damaged(file, 0)))

    def test_image_inside(self):
        for number, image in sorted(refused_images().items()):
            self.refuse(number, wrapped(image, b'Desk', tags=TAGS))

    def test_said_and_told(self):
        """Options say what the header does not."""
        file = wrapped(water(), tags=TAGS)
        self.refuse(1, file, '--bare')
        self.write(file)
        self.done('check', '--wrapped', self.image)
        # tags' first 12 bytes, the name's rest and the format byte are free
        for at in (HEADER + SIZE, HEADER + SIZE + 11, 40, 81):
            self.write(damaged(file, at))
            self.done('check', self.image)
        # no header that tells of a wrapped file: an image, of a wrong length
        for at in (64, 80, 82):
            self.write(damaged(file, at))
            self.refused(1, 'check', self.image)
        self.write(water())
        self.done('check', '--bare', self.image)
        self.refused(22, 'check', '--wrapped', self.image)

    def test_several_images(self):
        self.write(wrapped(water()), 'wrapped')
        self.write(water(), 'bare')
        out = self.done('check', 'wrapped', 'bare').decode()
        line = ': sound, 35 files, 272 of 391 blocks free\n'
        self.assertEqual(out, 'wrapped' + line + 'bare' + line)
        for option, number in (('--wrapped', 22), ('--bare', 1)):
            ran = self.run_tool('check', option, 'wrapped', 'bare')
            self.assertEqual((ran.status, ran.refusals()), (1, [number]))

    def test_long_files(self):
        """A file that is too long is not read whole."""
        self.write(wrapped(water()))
        os.truncate(self.image, 1 << 40)
        began = time.monotonic()
        self.refused(22, 'check', '--wrapped', self.image)
        self.refused(22, 'delete', '--wrapped', self.image, 'Log')
        self.refused(22, 'unwrap', self.image, 'new')
        self.refused(22, 'wrap', self.image, 'new')
        self.assertLess(time.monotonic() - began, 30)
        self.only('disk.img')


class Wrapping(Case):

    def test_wrap(self):
        for name, image in images():
            with self.subTest(name):
                self.write(image)
                own = volume.check(image)[1].name
                self.done('wrap', self.image, 'new')
                self.assertEqual(self.read('new'), wrapped(image, own))
                self.assertEqual(self.read(), image)
                self.done('unwrap', 'new', 'back')
                self.assertEqual(self.read('back'), image)
                self.only('disk.img', 'new', 'back')

    def test_name_and_format(self):
        image = water()
        self.write(image)
        for text, name in (('', b''), ('Desk \u00e9', b'Desk \x8e'),
                           ('a\\x00\\\\', b'a\0\\'), ('n' * 63, b'n' * 63),
                           ('\\xFF' * 63, b'\xff' * 63)):
            self.done('wrap', '--name', text, self.image, 'new')
            self.assertEqual(self.read('new'), wrapped(image, name))
        for text, byte in (('0', 0), ('2', 2), ('18', 18), ('255', 255),
                           ('0x0', 0), ('0x02', 2), ('0x12', 18),
                           ('0xfF', 255)):
            out = self.done('wrap', self.image, '-', '--format', text,
                            '--name=A')
            self.assertEqual(out, wrapped(image, b'A', byte))

    def test_names_that_are_too_long(self):
        self.write(water())
        self.write(b'old', 'out')
        for length in (64, 255, 256):
            for file in ('out', 'new', '-'):
                ran = self.refused(22, 'wrap', '--name', 'n' * length,
                                   self.image, file)
                self.assertEqual(ran.out, b'')
        self.assertEqual(self.read('out'), b'old')
        self.only('disk.img', 'out')

    def test_refused_images(self):
        for number, image in sorted(refused_images().items()):
            self.write(image)
            for more in ((), ('--name=A',)):
                self.refused(number, 'wrap', self.image, 'new', *more)
            self.refused(22, 'wrap', self.image, 'new', '--name', 'n' * 64)
        for image in (b'', hall.hall(), water()[:-512], water() + bytes(512),
                      wrapped(water()), wrapped(water(), tags=TAGS)):
            self.write(image)
            for more in ((), ('--name=A',)):
                self.refused(22, 'wrap', self.image, 'new', *more)
        self.only('disk.img')

    def test_locked_volume(self):
        image = water()
        image[1034] = 0x80
        self.write(image)
        self.done('wrap', self.image, 'new')
        self.assertEqual(self.read('new'), wrapped(image, b'WATER'))
        self.refused(11, 'delete', 'new', 'Log')

    def test_unwrap(self):
        image = water()
        self.write(wrapped(image, b'Desk', 0xFF, TAGS))
        self.assertEqual(self.done('unwrap', self.image, '-'), image)
        self.done('unwrap', self.image, 'new')
        self.assertEqual(self.read('new'), image)

    def test_a_changed_file_is_that_of_the_changed_image(self):
        self.write(water())
        self.done('wrap', self.image, 'before')
        self.done('delete', 'before', 'Week 07')
        self.done('delete', self.image, 'Week 07')
        self.done('wrap', self.image, 'after')
        self.assertEqual(self.read('before'), self.read('after'))

    def test_saved_as_get_saves(self):
        """Mode and links are kept; the image itself, a folder and what is not
        there are no place for the new file."""
        image = water()
        self.write(image)
        self.write(wrapped(image), 'file')
        for line in (('wrap', 'disk.img'), ('unwrap', 'file')):
            self.write(b'old', 'real')
            os.chmod(self.path('real'), 0o640)
            os.symlink('real', self.path('link'))
            self.done(*line, 'link')
            self.assertTrue(os.path.islink(self.path('link')))
            self.assertGreaterEqual(len(self.read('real')), SIZE)
            self.assertEqual(
                stat.S_IMODE(os.stat(self.path('real')).st_mode), 0o640)
            os.remove(self.path('link'))
            self.assertIn('the image itself', self.failed(*line, line[1]).err)
            for file in (self.folder, '', 'none/none', '/dev/full'):
                self.failed(*line, file)
            self.done(*line, '/dev/null')
        for line in (('wrap', 'none', 'new'), ('unwrap', 'none', 'new'),
                     ('wrap', self.folder, 'new'), ('unwrap', '-', 'new')):
            self.failed(*line)
        self.assertEqual((self.read(), self.read('file')),
                         (image, wrapped(image)))
        self.only('disk.img', 'file', 'real')
