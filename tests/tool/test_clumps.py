"""put, append and cut on disks with a clump size: the blocks that files have,
those free, and what is said where there is no room."""

import json
import struct

from support import Case, hall, wrapped

FULL = 'the new blocks needed exceed those free'
SPARE = ' (spare blocks would make room: %s; see mfs help cut)'


def in_clumps(image, size):
    struct.pack_into('>I', image, 1048, size)
    return image


class Clumps(Case):

    def put(self, name, length):
        self.done('put', '--date=@1', '--as', name, self.image, '-',
                  stdin=b'x' * length)

    def append(self, name, length):
        self.done('append', '--date=@1', self.image, name, '-',
                  stdin=b'x' * length)

    def refuses(self, length, spare, *arguments):
        """So many bytes have no room, in these words; nothing is saved."""
        before = self.read()
        ran = self.refused(17, *arguments, '-', stdin=b'x' * length)
        remark = SPARE % spare if spare else ''
        self.assertEqual(ran.err, 'mfs: %s: refused 17: %s%s\n' % (
            self.image, FULL, remark))
        self.assertEqual(self.read(), before)

    def full(self, name, length, spare=''):
        """An append that has no room."""
        self.refuses(length, spare, 'append', '--date=@1', self.image, name)

    def full_put(self, name, length, spare=''):
        """A put that has no room."""
        self.refuses(length, spare, 'put', '--date=@1', '--as', name,
                     self.image)

    def told(self, name, free, logical, physical):
        """The free blocks, and the lengths of a file's data fork."""
        listed = json.loads(self.done('list', '--json', self.image))
        self.assertEqual(listed['volume']['free_blocks'], free)
        data, = (file['data'] for file in listed['files']
                 if file['name']['text'] == name)
        self.assertEqual((data['logical'], data['physical']),
                         (logical, physical))

    def test_spare_blocks(self):
        """A new file takes a clump of two blocks, the last ones free. Cut to
        its own length it gives one back, which another file takes."""
        self.write(in_clumps(hall.hall(), 1024))
        self.put('NEW', 100)
        self.told('NEW', 0, 100, 1024)
        info = self.done('info', self.image).decode()
        self.assertIn('clump size:        1024 bytes\n', info)
        self.assertIn('free:              0 of 5 blocks (0 bytes)\n', info)
        self.assertIn(b'NEW, data fork, 2 blocks: 5-6\n',
                      self.done('map', self.image))
        self.assertEqual(self.done('get', self.image, 'NEW'), b'x' * 100)
        self.full('WEEK1', 400, '1 of NEW')
        self.done('cut', '--date=@1', self.image, 'NEW', '100')
        self.told('NEW', 1, 100, 512)
        self.append('WEEK1', 400)
        self.told('WEEK1', 0, 1100, 1536)
        self.full('WEEK1', 437)
        self.append('WEEK1', 436)

    def test_no_block_needed(self):
        """A clump of three blocks is filled; only one block is free then."""
        self.write(in_clumps(hall.hall(), 1536))
        self.done('delete', self.image, 'WEEK1')
        self.put('NEW', 600)
        self.told('NEW', 1, 600, 1536)
        self.append('NEW', 936)
        self.told('NEW', 1, 1536, 1536)
        self.append('NEW', 1)
        self.told('NEW', 0, 1537, 2048)

    def test_who_has_spare_blocks(self):
        """A resource fork has one, for its file's data fork, another file, a
        new one, and one that is put anew. Two forks have one each."""
        self.write(in_clumps(hall.hall(), 1024))
        self.done('put', '-r', '--date=@1', '--as', 'RATES', self.image, '-',
                  stdin=b'x')
        spare = '1 of the resource fork of RATES'
        self.full('RATES', 1, spare)
        self.full('WEEK1', 400, spare)
        self.full_put('NEW', 100, spare)
        self.full_put('WEEK1', 1500, spare)
        self.write(in_clumps(hall.hall(), 1024))
        self.done('delete', self.image, 'WEEK1')
        for name in ('B', 'A'):
            self.put(name, 100)
        self.full('RATES', 1024, '1 of B, 1 of A')
        self.full('RATES', 512, '1 of B')
        self.done('cut', '--date=@1', self.image, 'B', '100')
        self.append('RATES', 512)

    def test_spare_blocks_that_do_not_help(self):
        """Those of the fork itself, those of a locked file, too few."""
        self.write(in_clumps(hall.hall(), 1024))
        self.put('NEW', 100)
        self.full('NEW', 1000)
        self.full('WEEK1', 900)
        image = bytearray(self.read())
        image[2048 + 112] |= 1
        self.write(image)
        self.full('WEEK1', 400)

    def test_sizes(self):
        """Two blocks are free. A clump counts if it is a multiple of 512 and
        at least 512, and is taken whole if it fits."""
        for size, blocks in ((0, 1), (256, 1), (512, 1), (513, 1), (1023, 1),
                             (1024, 2), (1025, 1), (1536, 1), (2048, 1),
                             (4294966784, 1), (4294967295, 1)):
            self.write(in_clumps(hall.hall(), size))
            self.put('NEW', 100)
            self.told('NEW', 2 - blocks, 100, 512 * blocks)

    def test_400k(self):
        """A disk as it was formatted, with clumps of eight blocks; bare and
        wrapped."""
        image = in_clumps(hall.large(391), 8192)
        for file in (image, wrapped(image)):
            self.write(file)
            self.put('Week', 100)
            self.told('Week', 383, 100, 8192)
            self.append('Week', 8093)
            self.told('Week', 375, 8193, 16384)
            self.done('cut', '--date=@1', self.image, 'Week', '8193')
            self.told('Week', 382, 8193, 9216)
            self.put('Week', 100)
            self.told('Week', 383, 100, 8192)
            self.full_put('Log', 390 * 1024, '7 of Week')

    def test_help(self):
        for verb, word in (('put', 'clump'), ('append', 'as by put'),
                           ('cut', 'spare')):
            self.assertIn(word, self.done('help', verb).decode())
