"""find: files of many disks, bad directory blocks, disks that check refuses,
refusals, wrapped files. What is wanted is the second program's answer."""

import collections
import json
import os
import random

from support import (Case, NOBODY, as_text, hall, maker, shapes, volume, water,
                     with_names, without_rights, wrapped)
from test_reading import counted, date_text, entry_json

DIRECTORY = 2048
# changes of an entry that check 6 refuses: at which byte, to what
VERSION, NO_NAME, CROSSING = (1, 7), (50, 0), (50, 255)


def names_read(image):
    """The names of the entries that find reads, in directory order."""
    directory = volume.Directory(image)
    names = []
    for block in range(directory.facts.dir_length):
        try:
            for placed in directory.read_block(block):
                names.append(placed.entry.name)
        except volume.Refused:
            continue
    return names


def four(raw):
    return '-' if raw == bytes(4) else as_text(raw)


def told(entry, place, looked):
    """What find prints."""
    rows = (('name', as_text(entry.name)), ('file number', entry.number),
            ('place', '%d, counted from 0' % place),
            ('locked', '%s (flags %02X hex)' % (
                'yes' if entry.flags & 1 else 'no', entry.flags)),
            ('type', four(entry.finder[:4])),
            ('creator', four(entry.finder[4:8])),
            ('data fork', counted(entry.forks[0].logical, 'byte')),
            ('resource fork', counted(entry.forks[1].logical, 'byte')),
            ('created', date_text(entry.created)),
            ('changed', date_text(entry.changed)),
            ('looked at', counted(looked, 'directory block')))
    return ''.join('%-18s %s\n' % (label + ':', value)
                   for label, value in rows)


class Finding(Case):
    """Runs that are compared with the second program."""

    def setUp(self):
        super().setUp()
        self.seen = collections.Counter()

    def compare(self, image, name):
        """find of a name in the image, which is written already."""
        number, place, entry, looked = volume.quick_find(image, name)
        args = ('--', 'disk.img', as_text(name))
        ran = self.run_tool('find', *args)
        plain = self.run_tool('find', '--json', *args)
        wanted = {'image': 'disk.img', 'found': not number}
        if number:
            self.assertEqual((ran.status, ran.out, ran.refusals()),
                             (1, b'', [number]), (name, ran))
            words = json.loads(plain.out)['words']
            remark = ' (%s looked at)' % counted(
                looked, 'directory block') if number == 13 else ''
            self.assertEqual(ran.err, 'mfs: disk.img: refused %d: %s%s\n' % (
                number, words, remark))
            wanted.update(refused=number, words=words, looked=looked)
        else:
            self.assertEqual((ran.status, ran.err), (0, ''), (name, ran))
            self.assertEqual(ran.out.decode(), told(entry, place, looked))
            wanted.update(place=place, looked=looked, file=entry_json(entry))
        self.assertEqual((plain.status, plain.err), (ran.status, ran.err))
        self.assertEqual(json.loads(plain.out), wanted)
        self.seen[number] += 1
        return number, place, looked


class Sound(Finding):
    """Disks that check accepts: the place is that of the listing too."""

    def test_every_shape(self):
        rng = random.Random(81)
        for shape, image in shapes():
            self.write(image)
            v = volume.Volume(image)
            entries = v.entries[:9] + v.entries[9:-4:29] + v.entries[-4:]
            for placed in entries:
                name = placed.entry.name
                with self.subTest(shape, name=name):
                    answer = self.compare(image, maker.other_case(rng, name))
                    self.assertEqual(answer, (
                        0, volume.find(image, name)[1], placed.dir_block + 1))
            self.assertEqual(self.compare(image, b'n' * 255)[2],
                             v.facts.dir_length)
            self.assertEqual(self.read(), image)
            self.only('disk.img')

    def test_places_of_the_listing(self):
        self.write(water())
        listed = json.loads(self.done('list', '--json', self.image))['files']
        for place, file in enumerate(listed):
            found = json.loads(self.done('find', '--json', self.image,
                                         file['name']['text']))
            self.assertEqual((found['place'], found['file']), (place, file))

    def test_words(self):
        """The output of the README."""
        self.write(water())
        self.assertEqual(
            self.done('find', 'disk.img', 'week 30').decode().split('\n'), [
                'name:              Week 30',
                'file number:       35',
                'place:             32, counted from 0',
                'locked:            no (flags 80 hex)',
                'type:              TEXT',
                'creator:           MACA',
                'data fork:         2093 bytes',
                'resource fork:     0 bytes',
                'created:           1985-07-29 08:00:00',
                'changed:           1985-08-04 23:59:00',
                'looked at:         5 directory blocks', ''])
        for image, name, count in ((water(), 'Week 33', '12 directory blocks'),
                                   (hall.hall(), 'x', '1 directory block')):
            self.write(image)
            ran = self.run_tool('find', 'disk.img', name)
            self.assertEqual((ran.status, ran.out, ran.err), (
                1, b'', 'mfs: disk.img: refused 13: no such file or place '
                '(%s looked at)\n' % count))

    def test_names(self):
        """Bytes of all kinds, as they are shown and as other escapes."""
        names = [b'\0', b'\x0d\x7f', b'A', b'\\', b'\xca\xf0', b' ', b'-r',
                 b'"\'', b'\x83t\x8e', b'a\\x41']
        image = with_names(*names)
        self.write(image)
        for name in names:
            self.assertEqual(self.compare(image, name)[0], 0)
        for text, name in (('\\x83t\\x8E', b'\x83t\x8e'),
                           ('\u00e9T\u00e9', b'\x83t\x8e'),
                           ('A\\\\X41', b'a\\x41'), ('\\x41', b'A'),
                           ('\\x61', b'A')):
            found = json.loads(self.done('find', '--json', self.image, text))
            self.assertEqual(found['file']['name']['hex'], name.hex().upper())
        for text in ('\u00e8t\u00e9', 'a\\x5cx42'):
            self.refused(13, 'find', self.image, text)

    def test_lengths_of_names(self):
        names = [b'n' * length for length in (1, 31, 32, 254, 255)]
        image = with_names(*names)
        self.write(image)
        for name in names:
            self.assertEqual(self.compare(image, name.upper())[0], 0)
        for length, number in ((0, 12), (2, 13), (253, 13), (256, 12),
                               (1000, 12)):
            self.assertEqual(self.compare(image, b'n' * length)[0], number)


class Damaged(Finding):

    def test_every_damage(self):
        """Each damage that the second program knows: 1 to 4 refuse, and under
        every other the directory is read as far as it can be."""
        rng = random.Random(82)
        for kind in maker.DAMAGES:
            image = maker.damaged(rng, kind).image()
            self.write(image)
            names = [b'none', b'']
            if kind[0] > 4:
                names += names_read(image)[-3:]
            for name in names:
                with self.subTest(kind[1], name=name):
                    number = self.compare(image, name)[0]
                    self.assertEqual(number <= 4 and number > 0, kind[0] <= 4)
            self.assertEqual(self.read(), image)
        self.assertEqual(sorted(self.seen), [0, 1, 2, 3, 4, 12, 13])

    def test_answered_where_check_refuses(self):
        """The map, an entry behind the name, the number of files, a fork, the
        free count: check refuses, and find has the file."""
        for at, number in ((1088, 5), (DIRECTORY + 57, 6), (1037, 7),
                           (DIRECTORY + 23, 8), (1059, 10)):
            image = hall.hall()
            image[at] ^= 0x55
            self.write(image)
            self.refused(number, 'check', self.image)
            self.refused(number, 'get', self.image, 'WEEK1')
            self.assertEqual(self.compare(image, b'week1'), (0, 0, 1))
            self.assertEqual(self.compare(image, b'none'), (13, 0, 1))

    def three_blocks(self):
        """Nine names of five letters in each of three directory blocks."""
        names = [b'W%04d' % i for i in range(27)]
        return names, maker.make(
            random.Random(83), limit=40, per=1, n=4, dir_length=3,
            locked=False, file_locks=0, next_kind='small',
            names=names).image()

    def test_bad_entry(self):
        """A block's reading stops there, and the next block is read."""
        names, good = self.three_blocks()
        at = [p.at for p in volume.Volume(good).entries]
        for field, byte in (VERSION, NO_NAME, CROSSING):
            image = bytearray(good)
            image[at[13] + field] = byte
            self.write(image)
            self.refused(6, 'check', self.image)
            for i, wanted in ((0, (0, 0, 1)), (8, (0, 8, 1)),
                              (12, (0, 12, 2)), (13, (13, 0, 3)),
                              (14, (13, 0, 3)), (18, (0, 13, 3)),
                              (26, (0, 21, 3))):
                self.assertEqual(self.compare(image, names[i]), wanted)

    def test_end_of_a_block(self):
        """Eight bytes are left behind nine entries: with bit 7 they begin an
        entry that crosses the block, without it the reading ends there."""
        names, image = self.three_blocks()
        first = volume.Volume(image).entries[0].at
        for byte, number in ((0x80, 6), (0xFF, 6), (0x7F, 0)):
            image[first + 9 * 56] = byte
            self.write(image)
            self.assertEqual(volume.check(image)[0], number)
            for i, looked in ((0, 1), (8, 1), (9, 2), (26, 3)):
                self.assertEqual(self.compare(image, names[i]),
                                 (0, i, looked))
        # an entry whose bit 7 is clear ends it too, whatever stands behind
        image[first + 4 * 56] &= 0x7F
        self.write(image)
        for i, wanted in ((3, (0, 3, 1)), (4, (13, 0, 3)), (5, (13, 0, 3)),
                          (9, (0, 4, 2))):
            self.assertEqual(self.compare(image, names[i]), wanted)

    def test_equal_names(self):
        """The first that is read, not one of a bad entry or behind it."""
        names, image = self.three_blocks()
        at = [p.at for p in volume.Volume(image).entries]
        for twin in (5, 11, 20):
            image[at[twin] + 51:at[twin] + 56] = b'w0002'
        for bad, wanted in ((None, (0, 2, 1)), (2, (0, 4, 2)),
                            (10, (0, 5, 3)), (19, (13, 0, 3))):
            if bad is not None:
                image[at[bad] + 1] = 1
            self.write(image)
            self.assertEqual(self.compare(image, b'W0002'), wanted)

    def test_nothing_else_counts(self):
        """Other bytes beside the facts and the directory blocks up to the
        file's: the same output."""
        for name, blocks in (('Log', 1), ('Week 30', 5)):
            self.write(water())
            wanted = self.done('find', self.image, name)
            image = bytearray(b ^ 0xFF for b in water())
            for start, end in ((1024, 1088),
                               (DIRECTORY, DIRECTORY + 512 * blocks)):
                image[start:end] = water()[start:end]
            self.write(image)
            self.assertEqual(self.done('find', self.image, name), wanted)


class Others(Finding):
    """Wrapped files, and what is no image."""

    def test_wrapped_file(self):
        for file in (wrapped(water()),
                     wrapped(water(), b'Desk', 0x12, bytes(9600))):
            self.write(file)
            for name in ('Log', 'none', ''):
                ran = self.refused(1, 'find', self.image, name)
                self.assertIn('mfs unwrap', ran.err)
                self.assertEqual(ran.out, b'')
            self.assertEqual(self.read(), file)
            self.only('disk.img')
        self.done('unwrap', self.image, 'plain.img')
        self.done('find', 'plain.img', 'log')

    def test_wrapped_file_that_unwrap_refuses(self):
        """Tags that the header has not, a bad checksum, a bad volume: the
        error sends to check, which says what is wrong."""
        file, bad = wrapped(water()), water()
        bad[1059] ^= 1
        for number, data in ((22, file + bytes(9600)), (23, file[:-1] + b'x'),
                             (10, wrapped(bad))):
            self.write(data)
            self.refused(number, 'unwrap', self.image, 'plain.img')
            self.refused(number, 'check', self.image)
            ran = self.refused(1, 'find', self.image, 'Log')
            self.assertIn('(a wrapped file that is not sound: mfs check tells '
                          'why)', ran.err)
            self.assertNotIn('unwrap', ran.err)
            self.only('disk.img')

    def test_other_file(self):
        """A file that is no image and no wrapped one has no such words."""
        self.write(b'x' * 409684)
        self.assertNotIn('(', self.refused(1, 'find', self.image, 'A').err)

    def test_no_images(self):
        for image in ('none.img', self.folder, ''):
            self.failed('find', image, 'A')
            ran = self.run_tool('find', '--json', image, 'A')
            self.assertEqual((ran.status, sorted(json.loads(ran.out))),
                             (2, ['image', 'trouble']))

    def test_image_that_may_not_be_read(self):
        rights = without_rights()
        if rights is None:
            self.skipTest('run as root, and a user without rights does not '
                          'reach the tool')
        self.write(hall.hall())
        if rights:
            os.chown(self.folder, NOBODY, NOBODY)
        os.chmod(self.image, 0)
        ran = self.failed('find', self.image, 'WEEK1', **rights)
        self.assertIn('not allowed', ran.err)

    def test_long_image(self):
        """An image that is too long is not read whole."""
        self.write(hall.hall())
        os.truncate(self.image, 65535 * 512)
        self.done('find', self.image, 'WEEK1')
        os.truncate(self.image, 1 << 40)
        self.refused(1, 'find', self.image, 'WEEK1')

    def test_image_from_a_pipe(self):
        out = self.done('find', '/dev/stdin', 'rates',
                        stdin=bytes(hall.hall()))
        self.assertIn(b'name:              RATES\n', out)
