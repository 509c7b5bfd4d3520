"""Names of every byte, in both spellings, and dates from 0 to 4,294,967,295."""

import datetime
import random
import time

from support import (Case, as_text, hall, maker, volume, water, with_names,
                     wrapped)

EPOCH = datetime.datetime(1904, 1, 1)
LAST = 4294967295

# the pairs that are equal beside the letters, lower and upper
ACCENTS = [bytes.fromhex(pair) for pair in (
    '88CB', '8A80', '8BCC', '8C81', '8D82', '8E83', '9684', '9A85', '9BCD',
    '9F86', 'BEAE', 'BFAF', 'CFCE')]
# the bytes that equal a lower number
AGAIN = set(range(0x61, 0x7B)) | {max(pair) for pair in ACCENTS}


class Names(Case):

    def test_every_byte(self):
        """A file for each byte: put, shown, found, taken out again."""
        image = maker.make(random.Random(35), limit=60, per=1, n=20,
                           dir_length=30, locked=False, next_kind='small',
                           styles=('empty',)).image()
        self.write(image)
        for b in range(256):
            name = b'n' + bytes([b])
            text = as_text(name)
            number = 14 if b in AGAIN else 0
            self.assertEqual(volume.create(
                image, name, b'????????' + bytes(8), 5, 5), number)
            self.done('put', '--date=@5', '--as', text, self.image, '-')
            if number == 0:
                volume.write(image, name, 0, 0, b'', 5)
            self.assertEqual(self.read(), image, text)
        table = self.done('list', '-l', self.image).decode('utf-8')
        plain = self.done('list', self.image)
        for b in range(256):
            text = as_text(b'n' + bytes([b]))
            if b not in AGAIN:
                self.assertIn('  %s\n' % text, table)
                self.assertIn(b' n%c\n' % (b if 32 <= b < 127 else 63), plain)
            self.assertEqual(self.done('get', self.image, text), b'')
            self.assertEqual(
                self.done('get', self.image, 'N\\x%02x' % b), b'')
        for b in range(256):
            if b not in AGAIN:
                self.done('delete', self.image, 'n\\x%02X' % b)
                self.assertEqual(volume.delete(image, b'n' + bytes([b])), 0)
        self.assertEqual(self.read(), image)

    def test_one_character_for_one_byte(self):
        self.write(water())
        self.done('get', self.image, 'Relev\u00e9s 1984')
        self.done('get', self.image, 'Relev\\x8Es 1984')
        # the bytes of UTF-8 are not the name's, nor is a combined accent
        self.refused(13, 'get', self.image, 'Relev\\xC3\\xA9s 1984')
        self.failed('get', self.image, 'Releve\u0301s 1984')
        self.failed('get', self.image, b'Relev\x8es 1984')
        self.failed('get', self.image, 'Tariff\u3000')

    def put(self, name, data):
        self.done('put', '--date=@1', '--as', name, self.image, '-',
                  stdin=data)

    def test_both_spellings(self):
        """One file under both, which keeps the name that it was made with."""
        for disk in water(), wrapped(water()):
            self.write(disk)
            for name, other in (('Été', 'été'), ('été', 'ÉTÉ')):
                self.one_file(name, other)
            self.done('check', self.image)

    def one_file(self, name, other):
        self.put(name, b'litres')
        self.assertEqual(self.done('get', self.image, other), b'litres')
        self.done('append', '--date=@1', self.image, other, '-',
                  stdin=b' more')
        self.assertEqual(self.done('get', self.image, name),
                         b'litres more')
        self.put(other, b'new')
        table = self.done('list', '-l', self.image).decode('utf-8')
        self.assertIn('  %s\n' % name, table)
        self.assertNotIn('  %s\n' % other, table)
        self.done('cut', '--date=@1', self.image, other, '2')
        self.assertEqual(self.done('get', self.image, name), b'ne')
        # all of them or none: the second is not there once the first is out
        self.refused(13, 'delete', self.image, name, other)
        self.done('delete', self.image, other)
        self.refused(13, 'get', self.image, name)
        self.refused(13, 'get', self.image, other)

    def test_near_misses(self):
        """Letters of no pair that is listed are two names."""
        self.write(with_names(b'x'))
        for one, other in ('ûÛ', 'ïÏ', 'áÁ', 'èÈ', 'éÑ', '[{'):
            self.put('n' + one, b'one')
            self.refused(13, 'get', self.image, 'n' + other)
            self.put('N' + other, b'other')
            for name, data in ((one, b'one'), (other, b'other')):
                self.assertEqual(self.done('get', self.image, 'n' + name),
                                 data)
                self.done('delete', self.image, 'n' + name)

    def test_both_spellings_on_one_disk(self):
        image = with_names(b'\x83t\x8e', b'\x83t\x8f')
        self.write(image)
        self.done('check', self.image)
        at = image.index(b'\x83t\x8f')
        image[at:at + 3] = b'\x8et\x8e'
        self.write(image)
        self.all_refuse(7)

    def test_no_output_but_text(self):
        """No control character reaches a terminal."""
        image = maker.every_byte(random.Random(36)).image()
        image[1060:1064] = b'\3\x1b\x07\x9b'
        self.write(image)
        lines = [(*line, self.image) for line in (
            ('list', '-l'), ('list', '--json'), ('info',), ('map',),
            ('info', '--json'))]
        for entry in volume.Volume(image).entries:
            for line in (('find',), ('find', '--json')):
                lines.append((*line, '--', self.image,
                              as_text(entry.entry.name)))
        for line in lines:
            text = self.done(*line).decode('utf-8')
            for character in text:
                self.assertTrue(character == '\n' or
                                ord(character) >= 0x20 and
                                not 0x7F <= ord(character) < 0xA0)

    def test_lengths(self):
        image = hall.hall()
        self.write(image)
        for length, number in ((0, 12), (255, 13), (256, 12), (1000, 12)):
            self.refused(number, 'get', self.image, 'x' * length)
            self.refused(number, 'get', self.image, '\\x41' * length)
            self.refused(number, 'delete', self.image, '\u00e9' * length)
        for length, number in ((0, 12), (32, 21), (255, 21), (256, 12)):
            for text in ('\u00e9', '\\x8E'):
                self.refused(number, 'put', '--date=@1', '--as', text * length,
                             self.image, '-')
        self.assertEqual(self.read(), image)
        self.done('put', '--date=@1', '--as', '\u00e9' * 31, self.image, '-')
        self.done('get', self.image, '\\x8E' * 31)
        # an old name
        self.write(with_names(b'\x8e' * 255))
        self.done('put', '--date=@1', '--as', '\u00e9' * 255, self.image, '-')
        self.done('get', self.image, '\\x8E' * 255)


class Dates(Case):

    def put(self, date):
        return self.run_tool('put', '--as=WEEK1', '--date', date, self.image,
                             '-')

    def stored(self):
        return volume.find(bytearray(self.read()), b'WEEK1')[2].changed

    def test_dates(self):
        rng = random.Random(37)
        numbers = [0, 1, 59, 60, 86399, 86400, LAST, LAST - 1, 5097599,
                   5097600, 5183999, 5184000]
        for year in range(1904, 2041):
            first = int((datetime.datetime(year, 1, 1) - EPOCH).total_seconds())
            numbers += [n for n in (first, first - 1) if 0 <= n <= LAST]
        numbers += [rng.randint(0, LAST) for _ in range(60)]
        self.write(hall.hall())
        for number in numbers:
            text = str(EPOCH + datetime.timedelta(seconds=number))
            for given in (text, '@%d' % number):
                self.assertEqual(self.put(given).status, 0)
                self.assertEqual(self.stored(), number)
            self.assertIn('%s  WEEK1\n' % text, self.done(
                'list', '-l', self.image).decode())

    def test_both_dates_of_a_new_file(self):
        self.write(hall.hall())
        self.done('put', '--as=NEW', '--date', '2026-03-29 02:30:00',
                  self.image, '-')
        entry = volume.find(bytearray(self.read()), b'NEW')[2]
        self.assertEqual((entry.created, entry.changed),
                         (3857596200, 3857596200))

    def test_no_zone(self):
        """The machine's zone has no say, but for now."""
        self.write(hall.hall())
        for zone in ('UTC0', 'AAA-13', 'BBB+11',
                     'CET-1CEST,M3.5.0,M10.5.0/3'):
            env = {'TZ': zone, 'PATH': '/usr/bin:/bin'}
            self.done('cut', '--date', '2026-03-29 02:30:00', self.image,
                      'WEEK1', '0', env=env)
            self.assertEqual(self.stored(), 3857596200)
            out = self.done('list', '-l', self.image, env=env).decode()
            self.assertIn('2026-03-29 02:30:00  WEEK1', out)

    def test_now(self):
        self.write(hall.hall())
        for zone, hours in (('UTC0', 0), ('AAA-13', 13), ('BBB+11', -11)):
            self.done('cut', '--date', 'now', self.image, 'WEEK1', '0',
                      env={'TZ': zone, 'PATH': '/usr/bin:/bin'})
            wanted = time.time() + 2082844800 + hours * 3600
            self.assertLess(abs(self.stored() - wanted), 60)

    def test_no_clock(self):
        self.write(hall.hall())
        self.failed('cut', '--date=now', self.image, 'WEEK1', '0',
                    env={'PATH': '/nowhere'})
        self.assertEqual(self.read(), hall.hall())

    def test_bad_dates(self):
        self.write(hall.hall())
        for date in ('', 'today', 'NOW', '@', '@-1', '@+1', '@4294967296',
                     '@1e3', '@ 1', '2040-02-06 06:28:16',
                     '1903-12-31 23:59:59', '2026-02-29 00:00:00',
                     '1985-1-1 0:0:0', '1985-01-01', '1985-01-01T00:00:00',
                     '1985-01-01 00:00:00Z', '1985-01-01 24:00:00',
                     '1985-13-01 00:00:00', '1985-00-01 00:00:00',
                     '1985-04-31 00:00:00', '1985-01-01 00:00:60',
                     '99999-01-01 00:00:00', '\u0661985-01-01 00:00:00'):
            with self.subTest(date):
                ran = self.put(date)
                self.assertEqual((ran.status, ran.out), (2, b''))
                self.assertEqual(self.read(), hall.hall())
