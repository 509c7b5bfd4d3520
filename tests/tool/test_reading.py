"""check, list, info, map and get against the second program."""

import datetime
import json
import os
import random
import time

from support import (Case, as_text, hall, listing, maker, shapes, volume,
                     water)


def date_text(number):
    return str(datetime.datetime(1904, 1, 1)
               + datetime.timedelta(seconds=number))


def counted(number, noun):
    return '%d %s%s' % (number, noun, '' if number == 1 else 's')


def date_json(number):
    return {'text': date_text(number), 'number': number}


def name_json(name):
    return {'text': as_text(name), 'hex': name.hex().upper()}


def facts_json(facts):
    return {
        'name': name_json(facts.name), 'created': date_json(facts.created),
        'backup': date_json(facts.backup), 'attributes': facts.attributes,
        'locked': bool(facts.attributes & 0x8080), 'files': facts.files,
        'next_number': facts.next_number, 'directory_start': facts.dir_start,
        'directory_length': facts.dir_length,
        'allocation_blocks': facts.blocks, 'allocation_start': facts.area,
        'block_size': facts.block_size, 'free_blocks': facts.free,
        'clump_size': facts.clump}


def entry_json(entry):
    data, resource = ({'start': f.start, 'logical': f.logical,
                       'physical': f.physical} for f in entry.forks)
    return {
        'number': entry.number, 'name': name_json(entry.name),
        'flags': entry.flags, 'locked': bool(entry.flags & 1),
        'type': as_text(entry.finder[:4]),
        'creator': as_text(entry.finder[4:8]),
        'finder': entry.finder.hex().upper(), 'data': data,
        'resource': resource, 'created': date_json(entry.created),
        'changed': date_json(entry.changed)}


class Reading(Case):

    def test_every_shape(self):
        for shape, image in shapes():
            with self.subTest(shape):
                self.write(image)
                self.check_shape(image)
                self.assertEqual(self.read(), image)
                self.only('disk.img')

    def check_shape(self, image):
        v = volume.Volume(image)
        facts = v.facts
        self.assertEqual(self.done('check', self.image).decode(),
                         '%s: sound, %s, %d of %d blocks free\n' % (
                             self.image, counted(facts.files, 'file'),
                             facts.free, facts.blocks))
        self.assertEqual(self.done('list', self.image),
                         listing.listing(image))
        self.assertEqual(json.loads(self.done('info', '--json', self.image)),
                         {'image': self.image, 'sound': True,
                          'volume': facts_json(facts)})
        self.assertEqual(
            json.loads(self.done('list', '--json', self.image)),
            {'image': self.image, 'sound': True, 'volume': facts_json(facts),
             'files': [entry_json(p.entry) for p in v.entries]})
        self.check_table(v)
        self.check_map(v)
        self.check_info(facts)

    def check_table(self, v):
        lines = self.done('list', '-l', self.image).decode().split('\n')
        self.assertEqual(lines[0].split(), [
            'number', 'flags', 'type', 'creator', 'data', 'resource',
            'created', 'changed', 'name'])
        free = v.facts.free
        self.assertEqual(lines[-2:], ['%s, free %d of %d blocks (%s)' % (
            counted(v.facts.files, 'file'), free, v.facts.blocks,
            counted(free * v.facts.block_size, 'byte')), ''])
        at = lines[0].index('name')
        dates_at = lines[0].index('created'), lines[0].index('changed')
        self.assertEqual(len(lines) - 3, len(v.entries))
        for line, placed in zip(lines[1:], v.entries):
            entry = placed.entry
            self.assertEqual(line[at:], as_text(entry.name))
            for column, date in zip(dates_at, (entry.created, entry.changed)):
                self.assertEqual(line[column:column + 19], date_text(date))
            number, flag = line[:at].split()[:2]
            self.assertEqual((int(number), flag), (
                entry.number, 'locked' if entry.flags & 1 else '-'))
            lengths = line[:dates_at[0]].split()[-2:]
            self.assertEqual([int(n) for n in lengths],
                             [fork.logical for fork in entry.forks])

    def check_map(self, v):
        text = self.done('map', self.image).decode()
        self.assertTrue(all(len(line) <= 80 for line in text.split('\n')))
        picture, legend = text.split('\n\n', 1)
        marks = ''
        for i, row in enumerate(picture.split('\n')):
            number, row = row.split()
            self.assertEqual(int(number), 2 + 64 * i)
            self.assertTrue(len(row) == 64 or i == (v.facts.blocks - 1) // 64)
            marks += row
        wanted = ['.'] * v.facts.blocks
        letters = 'ABCDEFGHIJKLMNOPQRSTUVWXYZabcdefghijklmnopqrstuvwxyz'
        forks = [(placed.entry.name, which, chain) for placed in v.entries
                 for which, chain in enumerate(placed.chains) if chain]
        # a line of the legend goes on in lines that begin with seven spaces
        legend = legend.replace('\n       ', ' ').rstrip('\n').split('\n')
        self.assertEqual(len(legend), len(forks) + 1)
        for i, (name, which, chain) in enumerate(forks):
            for b in chain:
                wanted[b - 2] = letters[i % 52]
            about, blocks = legend[i].rsplit(': ', 1)
            squeezed = '%s%s,%sfork,%s' % (
                letters[i % 52], as_text(name), ('data', 'resource')[which],
                counted(len(chain), 'block'))
            self.assertEqual(about.replace(' ', ''),
                             squeezed.replace(' ', ''))
            self.assertEqual([b for run in blocks.split(',') for b in
                              self.run_of(run)], chain)
        self.assertEqual(marks, ''.join(wanted))
        self.assertEqual(legend[-1].split(), ['.', 'free,'] + counted(
            v.facts.free, 'block').split())

    @staticmethod
    def run_of(text):
        first, _, last = text.strip().partition('-')
        return range(int(first), int(last or first) + 1)

    def check_info(self, facts):
        text = self.done('info', self.image).decode()
        lines = dict(line.split(':', 1) for line in text.split('\n')[:-1])
        self.assertEqual(lines['name'][14:], as_text(facts.name))
        lines = {label: value.strip(' ') for label, value in lines.items()}
        self.assertEqual(lines['created'], date_text(facts.created))
        self.assertEqual(lines['last backup'], date_text(facts.backup))
        self.assertEqual(lines['files'], str(facts.files))
        self.assertEqual(lines['next file number'], str(facts.next_number))
        self.assertEqual(lines['locked'].split()[0],
                         'yes' if facts.attributes & 0x8080 else 'no')

    def test_get(self):
        for shape, image in shapes():
            v = volume.Volume(image)
            entries = v.entries[:12] + v.entries[-2:]
            self.write(image)
            for placed in entries:
                for which, options in ((0, ()), (1, ('-r',))):
                    with self.subTest(shape, name=placed.entry.name):
                        self.check_get(image, placed.entry, which, options)

    def check_get(self, image, entry, which, options):
        wanted = bytearray(entry.forks[which].logical)
        volume.read(image, entry.name, which, 0, wanted)
        name = as_text(entry.name)
        arguments = ('get', *options, '--', self.image, name)
        self.assertEqual(self.done(*arguments), wanted)
        if entry.number % 3 == 0:
            self.assertEqual(self.done(*arguments, '-'), wanted)
            self.assertEqual(self.done(*arguments, 'out'), b'')
            self.assertEqual(self.read('out'), wanted)
            self.only('disk.img', 'out')

    def test_names_in_other_spellings(self):
        self.write(water())
        for name in ('WEEK 01', 'week 01', 'RELEVéS 1984', 'RELEVÉS 1984'):
            self.done('get', self.image, name)
        for name in ('RELEVèS 1984', 'RELEVÈS 1984', 'RELEVES 1984'):
            self.refused(13, 'get', self.image, name)


class Refused(Case):

    def test_every_damage(self):
        rng = random.Random(32)
        for kind in maker.DAMAGES:
            image = maker.damaged(rng, kind).image()
            with self.subTest(kind[1]):
                self.write(image)
                self.check_refused(kind[0])
                self.assertEqual(self.read(), image)

    def check_refused(self, number):
        self.assertEqual(volume.check(bytearray(self.read()))[0], number)
        self.all_refuse(number)
        self.only('disk.img')

    def test_several_images(self):
        good = self.write(hall.hall(), 'good.img')
        bad = self.write(b'', 'bad.img')
        none = self.path('none.img')
        line = '%s: sound, 2 files, 2 of 5 blocks free\n' % good
        for images, status in (((good, good), 0), ((bad, good), 1),
                               ((bad, none, good), 2), ((good, none), 2)):
            ran = self.run_tool('check', *images)
            self.assertEqual((ran.status, ran.out.decode()), (
                status, line * images.count(good)))
            self.assertEqual(ran.refusals(), [1] * images.count(bad))
            self.assertEqual(ran.err.count('\n'), len(images)
                             - images.count(good))
            told = self.run_tool('check', '--json', *images)
            self.assertEqual((told.status, told.err), (status, ran.err))
            told = json.loads(told.out)['images']
            self.assertEqual([one['image'] for one in told], list(images))
            self.assertEqual([one.get('sound') for one in told], [
                {good: True, bad: False, none: None}[i] for i in images])

    def test_long_images(self):
        image = hall.hall()
        for blocks, number in ((65535, 0), (65536, 1), (1 << 31, 1)):
            self.write(image)
            os.truncate(self.image, blocks * 512)
            began = time.monotonic()
            if number:
                self.refused(number, 'check', self.image)
                self.refused(number, 'delete', self.image, 'WEEK1')
            else:
                self.done('check', self.image)
                self.done('delete', self.image, 'WEEK1')
                self.assertEqual(os.stat(self.image).st_size, blocks * 512)
            self.assertLess(time.monotonic() - began, 30)
        self.write(image + b'\0')
        self.refused(1, 'check', self.image)

    def test_no_images(self):
        os.mkdir(self.path('folder'))
        for image in ('none.img', 'folder', 'none/none.img', '', '-'):
            for args in (('check', image), ('list', image), ('info', image),
                         ('map', image), ('get', image, 'A'),
                         ('find', image, 'A'), ('delete', image, 'A')):
                self.failed(*args)

    def test_odd_paths(self):
        for name in ('a b.img', '-x.img', 'd\u00e9j\u00e0.img', 'a\nb.img',
                     'a\\b.img', b'\xff.img'):
            path = os.path.join(os.fsencode(self.folder), os.fsencode(name))
            with open(path, 'wb') as file:
                file.write(hall.hall())
            out = self.done('check', '--', os.fsencode(name))
            self.assertEqual(out.count(b'\n'), 1)
            self.assertTrue(out.endswith(b': sound, 2 files, 2 of 5 blocks '
                                         b'free\n'))
            json.loads(self.done('check', '--json', '--', os.fsencode(name)))

    def test_image_from_a_pipe(self):
        out = self.done('list', '/dev/stdin', stdin=bytes(hall.hall()))
        self.assertEqual(out, hall.LISTING)
