"""The disk HALL as document 01 fixes it, and the cases P1 to P12."""

import struct
import unittest

import listing
import volume
from volume import DATA, RESOURCE

LISTING = (b'volume HALL files 2 free 2 of 5\n'
           b'1 700 0 2500000000 2500600000 WEEK1\n'
           b'2 512 0 2500000000 2500000000 RATES\n')


def hall(clump=0):
    """The 12 blocks of HALL, written byte for byte, with its own clump size or
    another."""
    image = bytearray(12 * 512)
    struct.pack_into('>HIIHHHHHIIHIH5s', image, 1024,
                     0xD2D7, 0, 0, 0, 2, 4, 1, 5, 512, clump, 5, 3, 2,
                     b'\4HALL')
    image[1088:1094] = bytes.fromhex('004001001000')
    form = '>BB16sIHIIHIIII6s'
    struct.pack_into(form, image, 2048, 0x80, 0, bytes(16), 1,
                     2, 700, 1024, 0, 0, 0, 2500000000, 2500600000,
                     b'\5WEEK1')
    struct.pack_into(form, image, 2048 + 56, 0x80, 0, bytes(16), 2,
                     3, 512, 512, 0, 0, 0, 2500000000, 2500000000,
                     b'\5RATES')
    return image


def large(n):
    """An empty volume of 800 blocks, S = 16, A = 1,024, N as given."""
    image = bytearray(800 * 512)
    struct.pack_into('>HIIHHHHHIIHIH', image, 1024,
                     0xD2D7, 0, 0, 0, 0, 4, 12, n, 1024, 0, 16, 1, n)
    return image


class Cases(unittest.TestCase):

    def setUp(self):
        self.image = hall()
        self.before = bytes(self.image)

    def free(self):
        number, facts = volume.check(self.image)
        self.assertEqual(number, 0)
        return facts.free

    def fork(self, name):
        number, _, entry = volume.find(self.image, name)
        self.assertEqual(number, 0)
        return entry.forks[DATA]

    def blocks(self, name):
        chain = []
        while True:
            number, b = volume.block(self.image, name, DATA, len(chain))
            if number:
                self.assertEqual((number, b), (16, 0))
                return chain
            chain.append(b)

    def map_begins(self, text):
        want = bytes.fromhex(text)
        self.assertEqual(self.image[1088:1088 + len(want)], want)

    def unchanged(self):
        self.assertEqual(bytes(self.image), self.before)

    def test_listing(self):
        self.assertEqual(listing.listing(bytes(self.image)), LISTING)

    def test_hall(self):
        number, facts = volume.check(self.image)
        self.assertEqual(number, 0)
        self.assertEqual(facts, (0, 0, 0, 2, 4, 1, 5, 512, 0, 5, 3, 2, b'HALL'))
        self.assertEqual(self.blocks(b'WEEK1'), [2, 4])
        self.assertEqual(self.blocks(b'RATES'), [3])
        self.assertEqual(volume.block(self.image, b'RATES', RESOURCE, 0),
                         (16, 0))
        self.unchanged()

    def test_p1(self):
        self.assertEqual(volume.split_map(bytes.fromhex('ABCDEF')),
                         [0xABC, 0xDEF])

    def test_p2(self):
        self.map_begins('00400100100000')
        self.assertEqual(self.image[1095] >> 4, 0)

    def test_p3(self):
        self.assertEqual(
            volume.write(self.image, b'WEEK1', DATA, 700, b'x' * 400, 7), 0)
        self.assertEqual(self.blocks(b'WEEK1'), [2, 4, 5])
        self.map_begins('004001005001')
        self.assertEqual(self.free(), 1)
        self.assertEqual(self.fork(b'WEEK1'), (2, 1100, 1536))
        buffer = bytearray(b'\xEE' * 1200)
        self.assertEqual(
            volume.read(self.image, b'WEEK1', DATA, 0, buffer), (0, 1100))
        self.assertEqual(buffer, bytes(700) + b'x' * 400 + b'\xEE' * 100)

    def test_p4(self):
        self.assertEqual(
            volume.write(self.image, b'WEEK1', DATA, 700, bytes(1348), 7), 0)
        self.assertEqual(len(self.blocks(b'WEEK1')), 4)
        self.assertEqual(self.free(), 0)

    def test_p5(self):
        self.assertEqual(
            volume.write(self.image, b'WEEK1', DATA, 700, bytes(1349), 7), 17)
        self.unchanged()

    def test_p6(self):
        self.assertEqual(
            volume.write(self.image, b'WEEK1', DATA, 701, b'', 7), 16)
        self.unchanged()
        self.assertEqual(
            volume.write(self.image, b'WEEK1', DATA, 700, b'', 7), 0)
        want = bytearray(self.before)
        struct.pack_into('>I', want, 2048 + 46, 7)
        self.assertEqual(self.image, want)

    def test_p7(self):
        self.assertEqual(volume.cut(self.image, b'WEEK1', DATA, 513, 7), 0)
        self.assertEqual(self.blocks(b'WEEK1'), [2, 4])
        self.assertEqual(self.fork(b'WEEK1'), (2, 513, 1024))
        self.assertEqual(self.free(), 2)

    def test_p8(self):
        self.assertEqual(volume.cut(self.image, b'WEEK1', DATA, 512, 7), 0)
        self.assertEqual(self.blocks(b'WEEK1'), [2])
        self.map_begins('001001000000')
        self.assertEqual(self.fork(b'WEEK1'), (2, 512, 512))
        self.assertEqual(self.free(), 3)

    def test_p9(self):
        self.assertEqual(volume.delete(self.image, b'RATES'), 0)
        self.map_begins('004000001000')
        self.assertEqual(self.image[2048:2048 + 56],
                         self.before[2048:2048 + 56])
        self.assertEqual(self.image[2048 + 56:2560], bytes(512 - 56))
        self.assertEqual(self.free(), 3)

    def test_p10(self):
        number, place, entry = volume.find(self.image, b'week1')
        self.assertEqual((number, place, entry.name), (0, 0, b'WEEK1'))
        self.assertEqual(
            volume.create(self.image, b'week1', bytes(16), 1, 2), 14)
        self.unchanged()

    def test_p11(self):
        struct.pack_into('>H', self.image, 1024 + 34, 3)
        self.assertEqual(volume.check(self.image), (10, volume.NO_FACTS))

    def test_p12(self):
        self.image[1091:1093] = bytes.fromhex('0020')
        self.assertEqual(volume.check(self.image), (8, volume.NO_FACTS))

    def test_391_392(self):
        number, facts = volume.check(large(391))
        self.assertEqual((number, facts.free), (0, 391))
        self.assertEqual(volume.check(large(392)), (3, volume.NO_FACTS))


if __name__ == '__main__':
    unittest.main()
