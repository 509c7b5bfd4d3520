"""put, append, cut, delete and rename against the second program: the whole
image after each command, and the number of each refusal."""

import collections
import os
import random

from support import (Case, DATE, as_text, generate, hall, maker, volume,
                     water, with_names, wrapped)

FINDER = b'????????' + bytes(8)


def put(image, name, fork, data, date, finder=FINDER):
    """What put does, by the second program's calls on a copy."""
    copy = bytearray(image)
    if volume.find(copy, name)[0] == 0:
        number = volume.cut(copy, name, fork, 0, date)
    else:
        number = volume.create(copy, name, finder, date, date)
    number = number or volume.write(copy, name, fork, 0, data, date)
    return number, image if number else copy


def append(image, name, fork, data, date):
    copy = bytearray(image)
    end = volume.find(copy, name)[2].forks[fork].logical
    return volume.write(copy, name, fork, end, data, date), copy


def cut(image, name, fork, length, date):
    copy = bytearray(image)
    return volume.cut(copy, name, fork, length, date), copy


def delete(image, names):
    copy = bytearray(image)
    numbers = [volume.delete(copy, name) for name in names]
    return [n for n in numbers if n], image if any(numbers) else copy


def rename(image, name, new, date):
    copy = bytearray(image)
    return volume.rename(copy, name, new, date), copy


def new_name(rng, state, name):
    """A name for a file of this name: its own in any case, that of another
    file, one about as long, or any."""
    kind = rng.randrange(6)
    if kind == 0:
        return maker.other_case(rng, name)
    if kind == 1:
        return generate.chooser.name_for(rng, state, 0.9)[0]
    if kind < 4:
        return maker.any_name(rng, max(0, len(name) + rng.randint(-2, 2)))
    return maker.any_name(rng, rng.choice((
        1, 30, 31, 32, rng.randint(1, 40), rng.randint(1, 40))))


class Commands(Case):
    """Commands that are compared with the second program."""

    verbs = ('put', 'put', 'append', 'append', 'cut', 'delete', 'rename',
             'rename')

    def compare(self, wanted, *args, stdin=b''):
        """Runs a command; the image and the refusals must be as wanted."""
        numbers, image = wanted
        if isinstance(numbers, int):
            numbers = [numbers] if numbers else []
        ran = self.run_tool(*args, stdin=stdin)
        self.assertEqual((ran.status, ran.refusals(), ran.out),
                         (1 if numbers else 0, numbers, b''), (args, ran))
        self.assertEqual(ran.err.count('\n'), len(numbers))
        self.assertEqual(self.read(), image)
        self.only('disk.img')
        self.seen.update([(args[0], n) for n in numbers or [0]])
        return image

    def setUp(self):
        super().setUp()
        self.seen = collections.Counter()

    def some_command(self, rng, image):
        """A command by chance, run and compared; gives the image after it."""
        state = generate.chooser.state_of_volume(volume.Volume(image))
        name, own = generate.chooser.name_for(rng, state, 0.7)
        if rng.random() < 0.3:
            name = maker.any_name(rng, rng.randint(1, 40))
        fork = rng.randrange(2)
        date = rng.getrandbits(32)
        options = ['-r'] * fork + ['--date', '@%d' % date]
        room = state.free * state.block_size
        data = maker.some_bytes(rng, rng.choice((
            0, 1, rng.randint(0, 700), rng.randint(0, 3000), room, room + 1)))
        verb = rng.choice(self.verbs)
        rest = [self.image, as_text(name)]
        if verb == 'put':
            kind = bytes(rng.randrange(256) for _ in range(8))
            options += ['--as', rest.pop(), '--type=' + as_text(kind[:4]),
                        '--creator', as_text(kind[4:])]
            wanted = put(image, name, fork, data, date, kind + bytes(8))
            rest.append('-')
        elif verb == 'append':
            wanted = append(image, name, fork, data, date)
            rest.append('-')
        elif verb == 'cut':
            logical = state.forks[own][fork][0] if own is not None else 0
            length = generate.chooser.some_offset(rng, state, logical)
            wanted = cut(image, name, fork, length, date)
            rest.append(str(length))
        elif verb == 'rename':
            new = new_name(rng, state, name)
            wanted = rename(image, name, new, date)
            options = options[fork:]
            rest.append(as_text(new))
        else:
            names = [name] + rng.sample(state.names, min(
                len(state.names), rng.choice((0, 0, 0, 1, 2))))
            wanted = delete(image, names)
            options, rest = [], [self.image, *map(as_text, names)]
        words = [verb, *options, '--', *rest]
        return self.compare(wanted, *words, stdin=data)


class Changing(Commands):

    def test_by_chance(self):
        rng = random.Random(33)
        for i in range(70):
            m = generate.small_volume(rng, i)
            image = m.image()
            self.write(image)
            for _ in range(16):
                image = self.some_command(rng, image)
        for verb, numbers in (('put', (0, 11, 12, 15, 17, 18, 19, 21)),
                              ('append', (0, 11, 12, 13, 15, 17)),
                              ('cut', (0, 11, 12, 13, 15, 16)),
                              ('delete', (0, 11, 12, 13, 15)),
                              ('rename', (0, 11, 12, 13, 14, 15, 18, 21))):
            for number in numbers:
                self.assertGreater(self.seen[verb, number], 0, (verb, number))

    def test_put_from_a_file(self):
        image = water()
        self.write(image)
        data = b'new tariff\r' * 300
        source = self.path('Tariff')
        for name in ('Tariff', 'August \u00e9t\u00e9'):
            self.write(data, name)
            _, image = put(image, name.encode('mac_roman'), 0, data, DATE)
            self.done('put', '--date=@%d' % DATE, self.image, self.path(name))
            self.assertEqual(self.read(), image)
        self.assertEqual(self.done('get', self.image, 'tariff'), data)
        # the name of a path's last part; options behind the operands
        _, image = put(image, b'Tariff', 1, data, 7, FINDER)
        self.done('put', self.image, source, '-r', '--date', '@7')
        self.assertEqual(self.read(), image)

    def test_put_keeps_what_is_there(self):
        image = water()
        self.write(image)
        before = volume.find(image, b'Hall display')[2]
        self.done('put', '--as', 'HALL DISPLAY', '--type', 'XXXX',
                  '--creator', 'YYYY', '--date', '@5', self.image, '-',
                  stdin=b'data')
        after = volume.find(bytearray(self.read()), b'Hall display')[2]
        self.assertEqual(
            (after.name, after.number, after.finder, after.created),
            (before.name, before.number, before.finder, before.created))
        self.assertEqual((after.changed, after.forks[1]),
                         (5, before.forks[1]))
        self.assertEqual(after.forks[0].logical, 4)

    def test_locked_comes_first(self):
        image = hall.hall()
        image[1034] = 0x80
        self.write(image)
        for name in ('WEEK1', 'none', '', 'x' * 32, 'x' * 256):
            self.compare((11, image), 'append', '--date=@1', self.image, name,
                         '-')
            self.compare((11, image), 'put', '--date=@1', '--as', name,
                         self.image, '-')
            self.compare((11, image), 'cut', '--date=@1', self.image, name,
                         '9999')
            self.compare((11, image), 'delete', self.image, name)
            self.compare((11, image), 'rename', '--date=@1', self.image, name,
                         name)

    def test_new_names(self):
        """A new name has at most 31 characters."""
        image = hall.hall()
        for length, number in ((31, 0), (32, 21), (255, 21), (256, 12)):
            self.write(image)
            wanted = put(image, b'n' * length, 0, b'new', 1)
            self.assertEqual(wanted[0], number)
            self.compare(wanted, 'put', '--date=@1', '--as', 'n' * length,
                         self.image, '-', stdin=b'new')
        # also where the name is that of the file on this machine
        for name, number in (('\u00e9' * 31, 0), ('n' * 32, 21),
                             ('n' * 255, 21)):
            self.write(image)
            source = self.write(b'new', name)
            line = 'put', '--date=@1', self.image, source
            if number:
                ran = self.refused(number, *line)
                self.assertIn('longer than 31', ran.err)
                self.assertEqual(self.read(), image)
            else:
                self.done(*line)
                self.assertEqual(self.read(), put(
                    image, name.encode('mac_roman'), 0, b'new', 1)[1])
            self.only('disk.img', name)
            os.remove(source)

    def test_old_names(self):
        """A file keeps its longer name: shown, read, put, appended to, cut
        and deleted."""
        names = [b'n' * length for length in (32, 254, 255)]
        image = with_names(*names)
        self.write(image)
        listed = self.done('list', self.image)
        for name in names:
            self.assertIn(b' %s\n' % name, listed)
        for name in names:
            text = name.decode().upper()
            wanted = put(image, name, 0, b'new' * 200, 1)
            self.assertEqual(wanted[0], 0)
            image = self.compare(wanted, 'put', '--date=@1', '--as', text,
                                 self.image, '-', stdin=b'new' * 200)
            image = self.compare(append(image, name, 0, b'more', 2), 'append',
                                 '--date=@2', self.image, text, '-',
                                 stdin=b'more')
            self.assertEqual(self.done('get', self.image, text),
                             b'new' * 200 + b'more')
            image = self.compare(cut(image, name, 0, 3, 3), 'cut',
                                 '--date=@3', self.image, text, '3')
        # gone, it can't come back
        for name in names:
            text = name.decode()
            image = self.compare(delete(image, [name]), 'delete', self.image,
                                 text)
            self.compare((21, image), 'put', '--date=@1', '--as', text,
                         self.image, '-')

    def test_full_disks(self):
        """17 and 18, the edge of each, and nothing saved."""
        image = hall.hall()
        self.write(image)
        for verb, name in (('append', 'WEEK1'), ('put', 'RATES')):
            for length in (1348, 1349, 1536, 1537, 2000, 40000):
                data = b'x' * length
                self.write(image)
                if verb == 'append':
                    self.compare(append(image, b'WEEK1', 0, data, 1), 'append',
                                 '--date=@1', self.image, name, '-',
                                 stdin=data)
                else:
                    self.compare(put(image, b'RATES', 0, data, 1), 'put',
                                 '--date=@1', '--as', name, self.image, '-',
                                 stdin=data)
        # put creates the file only where its bytes have room too
        self.write(image)
        for length, number in ((1025, 17), (1024, 0)):
            wanted = put(image, b'NEW', 0, bytes(length), 1)
            self.assertEqual(wanted[0], number)
            self.compare(wanted, 'put', '--date=@1', '--as=NEW', self.image,
                         '-', stdin=bytes(length))
        # the directory
        self.write(image)
        while True:
            name = b'Name %d' % volume.check(image)[1].files
            wanted = put(image, name, 0, b'', 1)
            image = self.compare(wanted, 'put', '--date=@1', '--as',
                                 name.decode(), self.image, '-')
            if wanted[0]:
                self.assertEqual(wanted[0], 18)
                break

    def append_pieces(self, name, pieces, *options):
        """Appends each piece from a file; the number that refused each, 0
        for none."""
        numbers = []
        for piece in pieces:
            ran = self.run_tool('append', *options, '--date=@%d' % DATE,
                                self.image, name, self.write(piece, 'piece'))
            numbers += ran.refusals() or [ran.status]
        os.remove(self.path('piece'))
        self.only('disk.img')
        return numbers

    def test_append_in_pieces(self):
        """They leave the image file that one append of them all leaves."""
        rng = random.Random(35)
        tagged = wrapped(water(), b'Desk', 2, b'tags' * 2400)
        for before in (bytes(water()), tagged):
            for name, *options in (('Log',), ('Hall display', '-r'),
                                   ('Log', '-r')):
                data = maker.some_bytes(rng, 5000)
                self.write(before)
                self.assertEqual(
                    self.append_pieces(name, [data], *options), [0])
                whole = self.read()
                self.assertNotEqual(whole, before)
                for ends in ([0, 5000, 5000], [1, 1, 4999], [1024, 2048],
                             sorted(rng.choices(range(5001), k=39))):
                    ends = [0, *ends, 5000]
                    pieces = [data[a:b] for a, b in zip(ends, ends[1:])]
                    self.write(before)
                    self.assertEqual(
                        self.append_pieces(name, pieces, *options),
                        [0] * len(pieces))
                    self.assertEqual(self.read(), whole)

    def test_append_until_full(self):
        """A piece that has no room is refused, and those before it stay."""
        image = hall.hall()
        for name, fork, room in (('WEEK1', 0, 1348), ('RATES', 1, 1024)):
            options = ['-r'] * fork
            data = maker.some_bytes(random.Random(36), room + 1)
            for pieces, numbers, kept in (
                    ([data], [17], 0),
                    ([data[:400], b'', data[400:], b''], [0, 0, 17, 0], 400),
                    ([data[:400], data[400:-1], data[-1:], b''],
                     [0, 0, 17, 0], room)):
                self.write(image)
                self.assertEqual(
                    self.append_pieces(name, pieces, *options), numbers)
                wanted = 0, image
                if kept:
                    wanted = append(image, name.encode(), fork, data[:kept],
                                    DATE)
                self.assertEqual((0, self.read()), wanted)

    def test_delete_all_or_none(self):
        image = water()
        self.write(image)
        self.compare(delete(image, [b'Week 01', b'none', b'Meters', b'Log']),
                     'delete', self.image, 'Week 01', 'none', 'Meters', 'Log')
        self.compare(delete(image, [b'Week 01', b'week 01']), 'delete',
                     self.image, 'Week 01', 'week 01')
        ran = self.run_tool('delete', self.image, 'Week 01', 'none')
        self.assertIn('(none)', ran.err)
        image = self.compare(delete(image, [b'Week 01', b'Log']), 'delete',
                             self.image, 'week 01', 'LOG')
        self.compare(delete(image, [b'Tariff']), 'delete', self.image,
                     'Tariff')

    def test_endless_input(self):
        image = water()
        self.write(image)
        self.compare((17, image), 'put', '--date=@1', '--as=Z', self.image,
                     '/dev/zero')
        self.compare((17, image), 'append', '--date=@1', self.image, 'Log',
                     '/dev/zero')

    def test_largest_shapes(self):
        rng = random.Random(34)
        for shape in (maker.disk_400k, maker.disk_400k_of_640,
                      maker.longest_directory, maker.largest_blocks,
                      maker.most_blocks, maker.every_byte):
            image = shape(rng).image()
            self.write(image)
            for _ in range(8):
                image = self.some_command(rng, image)

    def test_the_disk_of_document_01(self):
        """P3 to P10."""
        image = hall.hall()
        new = b'0123456789abcdef' * 100
        for wanted, args, data in (
                (append(image, b'WEEK1', 0, new[:400], DATE),
                 ('append', 'WEEK1', '-'), new[:400]),
                (append(image, b'WEEK1', 0, new[:1348], DATE),
                 ('append', 'WEEK1', '-'), new[:1348]),
                (append(image, b'WEEK1', 0, new[:1349], DATE),
                 ('append', 'WEEK1', '-'), new[:1349]),
                (append(image, b'WEEK1', 0, b'', DATE),
                 ('append', 'WEEK1', '-'), b''),
                (cut(image, b'WEEK1', 0, 513, DATE), ('cut', 'WEEK1', '513'),
                 b''),
                (cut(image, b'WEEK1', 0, 512, DATE), ('cut', 'WEEK1', '512'),
                 b''),
                (cut(image, b'WEEK1', 0, 701, DATE), ('cut', 'WEEK1', '701'),
                 b'')):
            self.write(image)
            verb, *rest = args
            self.compare(wanted, verb, '--date', '1983-03-30 06:53:20',
                         self.image, *rest, stdin=data)
        self.write(image)
        self.compare(delete(image, [b'RATES']), 'delete', self.image, 'RATES')
