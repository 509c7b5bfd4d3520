"""rename: the bytes after it, written out here or by the second program;
refusals, wrapped files, and saving."""

import os
import random
import stat

from support import (Case, DATE, as_text, hall, maker, volume, water,
                     with_names, wrapped)
from test_changing import Commands, rename

LINE = 'rename', '--date=@%d' % DATE, 'disk.img'
DIRECTORY = 2048


def renamed(entry, name):
    """The bytes of an entry with this name, its date DATE."""
    entry = bytes(entry[:46]) + DATE.to_bytes(4, 'big')
    entry += bytes([len(name)]) + name
    return entry + bytes(len(entry) % 2)


def directory_block(*entries):
    return b''.join(entries).ljust(512, b'\0')


class Bytes(Case):
    """Images whose bytes after the command are written out."""

    def setUp(self):
        super().setUp()
        self.hall = hall.hall()
        # what stands behind the entries is no entry
        self.hall[DIRECTORY + 112:DIRECTORY + 512] = b'\x7f' * 400
        self.write(self.hall)
        self.week1 = bytes(self.hall[DIRECTORY:DIRECTORY + 56])
        self.rates = bytes(self.hall[DIRECTORY + 56:DIRECTORY + 112])

    def left(self, new):
        """HALL with these bytes in the directory."""
        image = bytearray(self.hall)
        image[DIRECTORY:DIRECTORY + len(new)] = new
        self.assertEqual(self.read(), image)
        self.only('disk.img')

    def test_entry_that_stays(self):
        """The padded size is that of five characters, or of four."""
        for text, name in (('WEEK2', b'WEEK2'), ('WEEK', b'WEEK'),
                           ('\u00e9t\u00e9 1', b'\x8et\x8e 1'),
                           ('\\x00\\xFF\\\\ ', b'\0\xff\\ ')):
            self.write(self.hall)
            self.done(*LINE, 'WEEK1', text)
            self.left(renamed(self.week1, name))

    def test_own_name(self):
        """In another case, and as it is: then only the date is another."""
        for old, new in (('WEEK1', 'WEEK1'), ('WEEK1', 'Week1'),
                         ('week1', 'wEEK1'), ('week1', 'WEEK1')):
            self.write(self.hall)
            self.done(*LINE, old, new)
            self.left(renamed(self.week1, new.encode()))

    def test_pad_byte(self):
        self.hall[DIRECTORY + 50] = 4
        self.hall[DIRECTORY + 55] = 0xEE
        self.write(self.hall)
        self.done(*LINE, 'WEEK', 'week')
        self.left(renamed(self.week1, b'week'))

    def test_entry_that_moves(self):
        """Out as delete would, in as create would: the later one moves up,
        and zeros follow."""
        for name in (b'WEEK30 BAD', b'W', b'WEEK 1', b'n' * 31):
            self.write(self.hall)
            self.done(*LINE, 'WEEK1', name.decode())
            self.left(directory_block(
                self.rates, renamed(self.week1, name)))
            # the last one is in the same place again
            self.write(self.hall)
            self.done(*LINE, 'RATES', name.decode())
            self.left(directory_block(
                self.week1, renamed(self.rates, name)))

    def test_what_stays(self):
        """Flags, Finder bytes, number, creation date and forks."""
        image = water()
        at = volume.Volume(image).entries[2].at
        image[at] = 0xFE
        image[at + 10:at + 18] = b'12345678'
        first = volume.check(image)
        self.write(image)
        before = volume.find(image, b'Hall display')[2]
        self.done(*LINE, 'Hall display', 'Hall display of 1985')
        image = bytearray(self.read())
        after = volume.find(image, b'Hall display of 1985')[2]
        self.assertEqual(after, before._replace(
            name=b'Hall display of 1985', changed=DATE))
        self.assertEqual(volume.find(image, b'Hall display')[0], 13)
        self.assertEqual(volume.check(image), first)

    def test_another_block(self):
        """Three blocks of nine entries: 8 bytes are left in each, with its
        own a file has 64, which 13 characters fill."""
        names = [b'W%04d' % i for i in range(27)]
        image = maker.make(
            random.Random(51), limit=40, per=1, n=4, dir_length=4,
            locked=False, file_locks=0, next_kind='small',
            names=names).image()
        v = volume.Volume(image)
        self.assertEqual([p.dir_block for p in v.entries], [
            i // 9 for i in range(27)])
        entries = [bytes(image[p.at:p.at + p.size]) for p in v.entries]
        first = v.entries[0].at
        for place, name, wanted in (
                # its own block, which is before the empty one
                (4, b'n' * 13, [(0, entries[:4] + entries[5:9])]),
                (13, b'n' * 13, [(1, entries[9:13] + entries[14:18])]),
                (26, b'n', [(2, entries[18:26])]),
                # the empty one
                (4, b'n' * 14, [(3, []), (0, entries[:4] + entries[5:9])]),
                (26, b'n' * 31, [(3, []), (2, entries[18:26])])):
            self.write(image)
            self.done(*LINE, names[place].decode(), name.decode())
            after = bytearray(image)
            for i, (block, others) in enumerate(wanted):
                if i == 0:
                    others = others + [renamed(entries[place], name)]
                at = first + 512 * block
                after[at:at + 512] = directory_block(*others)
            self.assertEqual(self.read(), after)

    def test_first_block_with_room(self):
        """An entry goes to a block before its own where one has room."""
        self.write(water())
        image = water()
        v = volume.Volume(image)
        last = v.entries[-1].entry.name
        self.assertGreater(v.entries[-1].dir_block, 0)
        gone = v.entries[1].entry.name
        self.done('delete', self.image, as_text(gone))
        new = b'n' * (len(gone) - 2)
        number, image = rename(bytearray(self.read()), last, new, DATE)
        self.assertEqual(number, 0)
        self.done(*LINE, as_text(last), as_text(new))
        self.assertEqual(self.read(), image)
        place = volume.find(image, new)[1]
        self.assertEqual(volume.Volume(image).entries[place].dir_block, 0)


class Refused(Commands):

    def refuse(self, number, image, old, new, remark=None):
        self.write(image)
        self.compare((number, image), *LINE, old, new)
        ran = self.run_tool(*LINE, old, new)
        if remark:
            self.assertIn(' (%s)\n' % remark, ran.err)
        else:
            self.assertNotIn('(', ran.err)

    def test_in_order(self):
        """The first that holds, and of which name it is said."""
        image = hall.hall()
        long = 'n' * 256
        for old, new, number, remark in (
                ('', '', 12, 'the old name'), (long, 'W', 12, 'the old name'),
                ('', 'n' * 32, 12, 'the old name'),
                ('WEEK1', '', 12, 'the new name'),
                ('none', long, 12, 'the new name'),
                ('none', 'n' * 32, 21, None), ('WEEK1', 'n' * 255, 21, None),
                ('none', 'RATES', 13, None), ('WEEK1', 'rates', 14, None),
                ('RATES', 'week1', 14, None)):
            self.refuse(number, image, old, new, remark)
        image[DIRECTORY] = 0x81
        for new in ('rates', 'week1', 'WEEK30 BAD'):
            self.refuse(15, image, 'WEEK1', new)
        self.refuse(21, image, 'WEEK1', 'n' * 32)
        image[1034] = 0x80
        for old, new in (('', ''), ('WEEK1', 'n' * 32), ('none', 'RATES')):
            self.refuse(11, image, old, new)

    def test_words(self):
        self.write(hall.hall())
        for old, new, line in (
                ('WEEK1', 'rates', 'refused 14: the name exists'),
                ('none', 'W', 'refused 13: no such file or place'),
                ('WEEK1', 'n' * 32,
                 'refused 21: the new name is longer than 31')):
            ran = self.run_tool(*LINE, old, new)
            self.assertEqual((ran.status, ran.err),
                             (1, 'mfs: disk.img: %s\n' % line))

    def test_full_directory(self):
        """18 and its edge: room is counted once the entry is out."""
        image = hall.hall()
        for letter in b'1234':
            volume.create(image, bytes([letter]) * 31, bytes(16), 1, 2)
        self.assertEqual(volume.create(image, b'n' * 19, bytes(16), 1, 2), 0)
        # two bytes are left
        for old, new, number in (('WEEK1', 'n' * 8, 18), ('WEEK1', 'four', 0),
                                 ('WEEK1', 'n' * 7, 0), ('WEEK1', 'W', 0),
                                 ('n' * 19, 'n' * 22, 18),
                                 ('n' * 19, 'n' * 21, 0),
                                 ('WEEK1', '1' * 31, 14)):
            self.write(image)
            wanted = rename(image, old.encode(), new.encode(), DATE)
            self.assertEqual(wanted[0], number)
            self.compare(wanted, *LINE, old, new)
        image[DIRECTORY] = 0x81
        self.refuse(15, image, 'WEEK1', 'n' * 8)

    def test_old_names(self):
        """A name above 31 gives way to a shorter one, and does not come
        back, not even in another case."""
        names = [b'n' * length for length in (32, 254, 255)]
        image = with_names(*names)
        for i, name in enumerate(names):
            self.refuse(21, image, name.decode(), name.decode().upper())
            new = b'%d' % i + b'n' * 30
            wanted = rename(image, name, new, DATE)
            self.assertEqual(wanted[0], 0)
            self.write(image)
            image = self.compare(wanted, *LINE, name.decode().upper(),
                                 new.decode())
            self.refuse(21, image, new.decode(), name.decode())

    def test_both_spellings(self):
        image = with_names(b'\x83t\x8e', b'\x83t\x8f')
        self.refuse(14, image, '\u00c9t\u00e8', '\u00e9t\u00e9')
        self.write(image)
        for old, new in (('\u00e9t\u00e9', '\u00e9t\u00e9'),
                         ('\u00c9T\u00c9', '\u00c9T\u00c9'),
                         ('\u00e9t\u00e9', '\u00c9t\u00c8')):
            wanted = rename(image, old.encode('mac_roman'),
                            new.encode('mac_roman'), DATE)
            self.assertEqual(wanted[0], 0)
            image = self.compare(wanted, *LINE, old, new)

    def test_long_image(self):
        """An image that is too long is not read whole."""
        self.write(hall.hall())
        os.truncate(self.image, 1 << 40)
        self.refused(1, *LINE, 'WEEK1', 'W')
        self.only('disk.img')


class Wrapped(Case):
    """A wrapped file is refused, and the error says what to do."""

    def test_wrapped_file(self):
        for file in (wrapped(water()),
                     wrapped(water(), b'Desk', 0x12, bytes(9600))):
            self.write(file)
            os.chmod(self.image, 0o640)
            before = os.stat(self.image)
            for old, new in (('Log', 'Log 1'), ('', ''), ('none', 'Log')):
                ran = self.refused(1, *LINE, old, new)
                self.assertIn('mfs unwrap', ran.err)
                self.assertEqual(ran.out, b'')
            after = os.stat(self.image)
            self.assertEqual((before.st_ino, before.st_mtime_ns),
                             (after.st_ino, after.st_mtime_ns))
            self.assertEqual(self.read(), file)
            self.only('disk.img')

    def test_renamed_by_way_of_the_image(self):
        self.write(wrapped(water(), b'WATER'), 'file')
        self.done('unwrap', 'file', self.image)
        self.done(*LINE, 'Log', 'Log of 1985')
        self.done('wrap', self.image, 'file')
        number, image = rename(water(), b'Log', b'Log of 1985', DATE)
        self.assertEqual(number, 0)
        self.assertEqual(self.read('file'), wrapped(image, b'WATER'))
        self.done('get', 'file', 'log of 1985')

    def test_other_file(self):
        """A file that is no image and no wrapped one has no such words."""
        self.write(b'x' * 409684)
        self.assertNotIn('unwrap', self.refused(1, *LINE, 'A', 'B').err)


class Saved(Case):

    def test_mode_and_links(self):
        self.write(hall.hall(), 'real')
        os.chmod(self.path('real'), 0o640)
        os.symlink('real', self.image)
        self.done(*LINE, 'WEEK1', 'WEEK30 BAD')
        self.assertTrue(os.path.islink(self.image))
        self.assertEqual(stat.S_IMODE(os.stat(self.path('real')).st_mode),
                         0o640)
        self.assertEqual(self.read('real'), rename(
            hall.hall(), b'WEEK1', b'WEEK30 BAD', DATE)[1])
        self.only('disk.img', 'real')

    def test_dates(self):
        for given, number in (('1983-03-30 06:53:20', DATE),
                              ('@0', 0), ('@4294967295', 4294967295)):
            self.write(hall.hall())
            self.done('rename', self.image, 'WEEK1', '--date', given, '--',
                      '-r')
            entry = volume.find(bytearray(self.read()), b'-R')[2]
            self.assertEqual((entry.created, entry.changed),
                             (2500000000, number))
