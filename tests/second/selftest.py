"""Tests of the second implementation itself.

Random runs of all nine calls, of rename and of quick find start from made
volumes.  After every call the image must be accepted, must read as a plain
history says, and must equal, byte for byte, what the maker's writer gives for
the same change made in plain lists.  Names at the edges of 12, 21 and 14, old
long names and accented names run so too, disks inside wrapped files, renames
worked by hand, writes in parts beside the same in one piece, clumps, quick
finds beside find and beside a plain reading, and the cases P1 to P12.
"""

from collections import Counter
import itertools
import random
import struct
import sys
import time
import unittest

import accent_notes
import accents
import chooser
import clump_notes
import diskcopy
import generate
import hall
import listing
import maker
import part_notes
import parts
import quick
import replay
import spelling
import tapes
import volume
import wrapper

SEED = 19840124
RUNS = 220
CALLS = 60
NINE_KINDS = 'CEFBRNNNWWWWWWUUUUDD'
KINDS = NINE_KINDS + 'MMMMQQ'
CHANGING = replay.CHANGING + 'M'


# the letters of document 02's pairs, and a to z
LETTERS = 'àäãåçéñöõüæøœ' + 'abcdefghijklmnopqrstuvwxyz'
UPPER = str.maketrans(LETTERS, LETTERS.upper())


def key(name):
    """Equal for equal names: as text, and these letters upper."""
    return bytes(name).decode('mac_roman').translate(UPPER)


def fewest(length, a):
    return (length + a - 1) // a


class History:
    """The history of document 01: the facts, and for each file its number,
    name, flags, Finder bytes, dates, and each fork's bytes and count of
    blocks.  It knows no image, map or directory block; of each answer it is
    told only whether it is 18.  It decides 21 (T-01 in document 02) from the
    arguments alone, and counts the blocks in whole clumps by T-07."""

    def __init__(self, m):
        self.locked = m.attributes & 0x8080 != 0
        self.fixed = (m.created, m.backup, m.attributes)
        self.n, self.a = m.n, m.a
        whole, rest = divmod(m.clump, m.a)
        self.clump = whole if whole and not rest else 1
        self.next_number = m.next_number
        self.files = {}
        for file in m.files():
            self.files[key(file.name)] = {
                'number': file.number, 'name': file.name,
                'flags': file.flags, 'finder': file.finder,
                'created': file.created, 'changed': file.changed,
                'bytes': [m.contents(fork) for fork in file.forks],
                'blocks': [fork.physical // m.a for fork in file.forks]}

    def free(self):
        return self.n - sum(sum(f['blocks']) for f in self.files.values())

    def state(self):
        return chooser.State(self.a, self.free(), {
            f['name']: [(len(data), count) for data, count
                        in zip(f['bytes'], f['blocks'])]
            for f in self.files.values()})

    def step(self, call, no_room):
        """Gives the call's number and, for a read, count and bytes."""
        tag, args = call[0], call[1:]
        if tag == 'C':
            return 0
        if tag == 'E':
            return 0 if args[0] < len(self.files) else 13
        name = args[0]
        if tag in CHANGING and self.locked:
            return 11
        if tag == 'M':
            return self.rename(*args, no_room)
        if not 1 <= len(name) <= 255:
            return 12
        if tag == 'N' and len(name) > 31:
            return 21
        file = self.files.get(key(name))
        if tag == 'N':
            if file is not None:
                return 14
            if self.next_number == maker.TOP:
                return 19
            if no_room:
                return 18
            self.files[key(name)] = {
                'number': self.next_number, 'name': name, 'flags': 0x80,
                'finder': args[1], 'created': args[2], 'changed': args[3],
                'bytes': [b'', b''], 'blocks': [0, 0]}
            self.next_number += 1
            return 0
        if file is None:
            return 13
        if tag in 'FQ':
            return 0
        if tag in 'WUD' and file['flags'] & 1:
            return 15
        if tag == 'D':
            del self.files[key(name)]
            return 0
        fork = args[1]
        data, count = file['bytes'][fork], file['blocks'][fork]
        if tag == 'B':
            return 0 if args[2] < count else 16
        if args[2] > len(data):
            return 16
        if tag == 'R':
            return 0
        if tag == 'W':
            offset, new, changed = args[2:]
            whole = data[:offset] + new + data[offset + len(new):]
            need = max(count, fewest(len(whole), self.a))
            if need - count > self.free():
                return 17
            rounded = fewest(need, self.clump) * self.clump
            if need > count and rounded - count <= self.free():
                need = rounded
        else:
            length, changed = args[2:]
            whole = data[:length]
            need = fewest(length, self.a)
        file['bytes'][fork], file['blocks'][fork] = whole, need
        file['changed'] = changed
        return 0

    def rename(self, old, new, changed, no_room):
        if not 1 <= len(old) <= 255 or not 1 <= len(new) <= 255:
            return 12
        if len(new) > 31:
            return 21
        file = self.files.get(key(old))
        if file is None:
            return 13
        if file['flags'] & 1:
            return 15
        if self.files.get(key(new), file) is not file:
            return 14
        if no_room:
            return 18
        del self.files[key(old)]
        self.files[key(new)] = file
        file['name'], file['changed'] = new, changed
        return 0

    def read(self, name, fork, offset, length):
        return self.files[key(name)]['bytes'][fork][offset:offset + length]


class Twin:
    """Makes the changes of successful calls in the maker's plain lists."""

    def __init__(self, m):
        self.m = m

    def file(self, name):
        for files in self.m.directory:
            for file in files:
                if key(file.name) == key(name):
                    return files, file
        return None, None

    def no_room(self, call):
        """Whether no block has room for what a create or a rename puts in,
        the renamed file being out."""
        tag, name = call[:2]
        file = self.file(name)[1] if tag == 'M' else None
        size = maker.File(call[2] if tag == 'M' else name).size()
        if file is not None and file.size() == size:
            return False
        return all(sum(f.size() for f in files if f is not file) + size > 512
                   for files in self.m.directory)

    def clear(self, d):
        at = 512 * (self.m.dir_start + d)
        self.m.base[at:at + 512] = bytes(512)

    def put_in(self, file):
        for d, files in enumerate(self.m.directory):
            if sum(f.size() for f in files) + file.size() <= 512:
                files.append(file)
                self.clear(d)
                return

    def take_out(self, files, file):
        files.remove(file)
        for d in range(self.m.dir_length):
            if self.m.directory[d] is files:
                self.clear(d)

    def change(self, call):
        m, tag, name = self.m, call[0], call[1]
        if tag == 'N':
            file = maker.File(name)
            _, _, file.finder, file.created, file.changed = call
            file.number = m.next_number
            m.next_number += 1
            m.file_count += 1
            self.put_in(file)
            return
        files, file = self.file(name)
        if tag == 'D':
            for fork in file.forks:
                self.keep(fork, 0)
            m.file_count -= 1
            self.take_out(files, file)
            return
        if tag == 'M':
            size = file.size()
            _, _, file.name, file.changed = call
            file.pad = 0
            if file.size() != size:
                self.take_out(files, file)
                self.put_in(file)
            return
        fork = file.forks[call[2]]
        file.changed = call[-1]
        if tag == 'U':
            fork.logical = call[3]
            self.keep(fork, fewest(call[3], m.a))
            return
        offset, data = call[3:5]
        fork.logical = max(fork.logical, offset + len(data))
        self.grow(fork)
        for i, byte in enumerate(data):
            b = fork.blocks[(offset + i) // m.a]
            m.base[m.byte_of(b) + (offset + i) % m.a] = byte

    def take(self, fork, count):
        for _ in range(count):
            fork.blocks.append(min(self.m.free_blocks()))
            self.m.tie(fork)

    def grow(self, fork):
        """Takes blocks until the fork holds its bytes, and then all that is
        missing of its last clump, or nothing."""
        m = self.m
        if len(fork.blocks) * m.a >= fork.logical:
            return
        while len(fork.blocks) * m.a < fork.logical:
            self.take(fork, 1)
        if m.clump and m.clump % m.a == 0:
            missing = -len(fork.blocks) * m.a % m.clump // m.a
            if missing <= m.free:
                self.take(fork, missing)

    def keep(self, fork, count):
        for b in fork.blocks[count:]:
            self.m.set_map(b, 0)
        del fork.blocks[count:]
        self.m.tie(fork)


def bare(call, image, *arguments):
    """A call of volume.py on a bare image, as diskcopy.serve on a file."""
    return call(image, *arguments)


def carry_out(image, call, serve=bare):
    """Runs a call; gives its number and its other results."""
    tag, args = call[0], call[1:]
    if tag == 'R':
        buffer = bytearray(b'\xEE' * args[3])
        number, count = serve(volume.read, image, *args[:3], buffer)
        return number, (count, bytes(buffer))
    function = {'C': volume.check, 'E': volume.entry, 'F': volume.find,
                'B': volume.block, 'N': volume.create, 'W': volume.write,
                'U': volume.cut, 'D': volume.delete, 'M': volume.rename,
                'Q': volume.quick_find}[tag]
    result = serve(function, image, *args)
    if tag in CHANGING:
        return result, ()
    return result[0], result[1:]


ZEROS = {'C': (volume.NO_FACTS,), 'E': (volume.NO_ENTRY,),
         'F': (0, volume.NO_ENTRY), 'B': (0,), 'Q': (0, volume.NO_ENTRY, 0),
         **dict.fromkeys(CHANGING, ())}


def same(got, want, text):
    if got != want:
        raise AssertionError('%s: got %r, want %r' % (text, got, want))


def told(file, entry):
    """Whether an entry tells of this file of the history."""
    return (entry.number == file['number'] and entry.name == file['name']
            and entry.flags == file['flags']
            and entry.finder == file['finder']
            and entry.created == file['created']
            and entry.changed == file['changed']
            and [f.logical for f in entry.forks]
            == [len(data) for data in file['bytes']])


def compare(image, history, m):
    """The whole image against the history and the plain lists."""
    number, facts = volume.check(image)
    same(number, 0, 'check')
    same(facts[:3], history.fixed, 'facts')
    same(facts.files, len(history.files), 'number of files')
    same(facts.next_number, history.next_number, 'next number')
    same(facts.free, history.free(), 'free')
    fork_blocks = 0
    for place, plain in enumerate(m.files()):
        number, entry = volume.entry(image, place)
        same(number, 0, 'entry')
        file = history.files[key(entry.name)]
        same(told(file, entry), True, 'entry')
        same(entry.name, plain.name, 'place')
        for fork in (0, 1):
            data, count = file['bytes'][fork], file['blocks'][fork]
            same(entry.forks[fork].physical, count * history.a, 'physical')
            buffer = bytearray(len(data) + 3)
            same(volume.read(image, entry.name, fork, 0, buffer),
                 (0, len(data)), 'read')
            same(bytes(buffer), data + bytes(3), 'bytes')
            fork_blocks += count
    same(facts.free + fork_blocks, facts.blocks, 'free and used blocks')


def refused_results(call):
    """What a refused call gives beside its number."""
    return (0, b'\xEE' * call[4]) if call[0] == 'R' else ZEROS[call[0]]


class Run:
    """An image, its history and the plain lists, held to each other at every
    call."""

    serve = staticmethod(bare)

    def __init__(self, m):
        self.m = m
        self.image = self.written()
        self.history, self.twin = History(m), Twin(m)
        compare(self.inside(), self.history, m)

    def written(self):
        """What the maker writes for the plain lists."""
        return self.m.image()

    def inside(self):
        return self.image

    def call(self, *call):
        """Makes a call and gives its number."""
        image, m, history, twin = self.image, self.m, self.history, self.twin
        before = bytes(image)
        no_room = call[0] in 'NM' and twin.no_room(call)
        number, results = carry_out(image, call, self.serve)
        want = history.step(call, no_room)
        same(number, want, call)
        if number:
            same(bytes(image), before, 'a refused call changed the image')
            same(results, self.refused(call, number), 'refused call')
            return number
        if call[0] in CHANGING:
            twin.change(call)
            same(bytes(image) == bytes(self.written()), True, call)
            compare(self.inside(), history, m)
            return 0
        same(bytes(image), before, 'a reading call changed the image')
        self.read(call, results)
        return 0

    def refused(self, call, number):
        """Beside the number of quick find 13 alone carries the count."""
        if call[0] == 'Q' and number == 13:
            return 0, volume.NO_ENTRY, self.m.dir_length
        return refused_results(call)

    def read(self, call, results):
        """Holds what a reading call gave to the history and the lists."""
        m, history, twin = self.m, self.history, self.twin
        if call[0] == 'R':
            data = history.read(*call[1:])
            same(results, (len(data), data + b'\xEE' * (call[4] - len(data))),
                 'read')
        elif call[0] == 'B':
            _, file = twin.file(call[1])
            same(results, (file.forks[call[2]].blocks[call[3]],), 'block')
        elif call[0] == 'E':
            same(results[0].name, m.files()[call[1]].name, 'entry')
        elif call[0] == 'F':
            place, entry = results
            same(entry.name, m.files()[place].name, 'find')
            same(told(history.files[key(call[1])], entry), True, 'find')
        elif call[0] == 'Q':
            number, *found = volume.find(self.image, call[1])
            files, _ = twin.file(call[1])
            same((number, *results), (0, *found, m.directory.index(files) + 1),
                 'quick find')

    def create(self, name):
        return self.call('N', name, b'Finder bytes: 16', 3, 4)


class WrappedRun(Run):
    """The same inside a wrapped file."""

    serve = staticmethod(diskcopy.serve)

    def __init__(self, m, around):
        self.around = around
        super().__init__(m)

    def written(self):
        return self.around.file(self.m.image())

    def inside(self):
        return diskcopy.inside(self.image)


def any_clump(rng, m):
    """The volume with a clump size of any kind, often one that fits it."""
    sizes = list(clump_notes.sizes(m.a, m.n).values())
    m.clump = rng.choice(sizes + [2 * m.a, 3 * m.a, 4 * m.a] * 4)
    return m


def one_run(rng, run, calls, seen, kinds=KINDS):
    for _ in range(calls):
        call = chooser.choose(rng, run.history.state(), kinds)
        number = run.call(*call)
        seen[call[0], number] = seen.get((call[0], number), 0) + 1


class Runs(unittest.TestCase):

    def test_runs(self):
        rng = random.Random(SEED)
        seen = {}
        for i in range(RUNS):
            want = rng.choice(({}, {}, {}, {'full_disk': True},
                               {'free_most': True}, {'surplus': 0.9},
                               {'styles': ('full', 'nearly', 'short')},
                               {'next_kind': 'near'}, {'file_locks': 0.6}))
            limit = rng.choice((8, 9, 12, 16, 16, 24, 24, 40))
            m = any_clump(rng, maker.make(rng, limit=limit, **want))
            one_run(rng, Run(m), CALLS, seen)
        for _ in range(10):
            one_run(rng, Run(maker.long_names(rng)), CALLS, seen)
        one_run(rng, Run(any_clump(rng, maker.disk_400k(rng))), 20, seen)
        one_run(rng, Run(maker.most_blocks(rng)), 40, seen)
        one_run(rng, Run(maker.largest_blocks(rng)), 40, seen)
        one_run(rng, Run(maker.longest_directory(rng)), 10, seen)
        wanted = {'C': [0], 'E': [0, 13], 'F': [0, 12, 13],
                  'B': [0, 12, 13, 16], 'R': [0, 12, 13, 16],
                  'N': [0, 11, 12, 21, 14, 19, 18],
                  'W': [0, 11, 12, 13, 15, 16, 17],
                  'U': [0, 11, 12, 13, 15, 16], 'D': [0, 11, 12, 13, 15],
                  'M': [0, 11, 12, 21, 13, 15, 14, 18], 'Q': [0, 12, 13]}
        for tag, numbers in wanted.items():
            for number in numbers:
                self.assertGreaterEqual(seen.get((tag, number), 0), 10,
                                        (tag, number))

    def test_damage(self):
        """Each kind of damage gives its own number, by every call; quick find
        gives only 1 to 4 of them."""
        rng = random.Random(SEED + 1)
        for kind in maker.DAMAGES * 3:
            m = maker.damaged(rng, kind)
            image = m.image()
            before = bytes(image)
            for tag in replay.ALL:
                call = chooser.choose(rng, chooser.state_of_made(m), tag)
                number, results = carry_out(image, call)
                if tag == 'Q':
                    self.assertEqual((number, *results),
                                     plain_quick(image, call[1]))
                    self.assertEqual(number in (1, 2, 3, 4), kind[0] < 5)
                if tag != 'Q' or kind[0] < 5:
                    self.assertEqual(number, kind[0], kind[:2])
            self.assertEqual(bytes(image), before)
        for number, text, shape in maker.LARGE_DAMAGES:
            self.assertEqual(volume.check(shape(rng).image())[0], number, text)

    def test_image_blocks(self):
        """65,535 blocks are enough, 65,536 are too many."""
        image = hall.hall() + bytes(512 * (65536 - 12))
        self.assertEqual(volume.check(image)[0], 1)
        del image[-512:]
        self.assertEqual(volume.check(image)[0], 0)

    def test_hostile(self):
        """A ring with the largest physical length, many times over."""
        m = maker.most_blocks(random.Random(SEED + 2))
        fork = maker.longest(m)
        m.set_map(fork.blocks[-1], fork.blocks[0])
        fork.physical = maker.TOP // m.a * m.a
        image = m.image()
        start = time.perf_counter()
        for _ in range(100):
            self.assertEqual(volume.check(image)[0], 8)
        self.assertLess(time.perf_counter() - start, 2)

    def test_flips(self):
        """Random damage never breaks a call."""
        rng = random.Random(SEED + 3)
        for _ in range(1500):
            m = maker.rich(rng)
            image = maker.flipped(rng, m)
            listing.listing(bytes(image))
            call = chooser.choose(rng, chooser.state_of_made(m), KINDS)
            number, results = carry_out(image, call)
            if call[0] == 'Q':
                self.assertEqual((number, *results),
                                 plain_quick(image, call[1]))
            elif number == 0:
                self.assertEqual(volume.check(image)[0], 0)

    def test_lists(self):
        """The lists hold what they must, and run as a whole."""
        for calls in generate.LISTS:
            tape = generate.make_list(calls)
            self.assertEqual(replay.replay(tape.input()), tape.output())

    def test_sum(self):
        rng = random.Random(SEED + 4)
        for size in (0, 1, 511, 512, 513, 5000):
            data = maker.some_bytes(rng, size)
            s = 0
            for byte in data:
                s = (31 * s + byte) % 4294967296
            self.assertEqual(replay.total(data), s)


OLD = [letter * length for letter, length in (
    (b'd', 31), (b'e', 32), (b'F', 33), (b'g', 100), (b'H', 254), (b'i', 255))]
TOO_LONG = (32, 33, 100, 254, 255)


def old_volume(names=OLD, next_kind='small', **want):
    return maker.with_names(random.Random(SEED + 6), names, locked=False,
                            file_locks=0, next_kind=next_kind, **want)


class Names(unittest.TestCase):
    """Create gives 21 for a name of 32 to 255 bytes, after 11 and 12 and
    before 14, 19 and 18; files that have such names are served as before."""

    def creates(self, run, letter, numbers):
        """By length, what names of this letter give, in both cases."""
        for length, number in numbers.items():
            for name in (letter * length, letter.swapcase() * length):
                self.assertEqual(run.create(name), number, length)

    def test_new(self):
        for length in (1, 30, 31):
            self.assertEqual(Run(old_volume()).create(b'N' * length), 0)
        self.creates(Run(old_volume()), b'N', dict.fromkeys(TOO_LONG, 21))
        self.creates(Run(old_volume()), b'N', {0: 12, 256: 12, 1024: 12})

    def test_any_bytes(self):
        """The length counts, not the bytes."""
        rng = random.Random(SEED + 7)
        run = Run(old_volume())
        for _ in range(20):
            for length, number in ((31, 0), (32, 21), (255, 21), (256, 12)):
                name = maker.any_name(rng, length)
                self.assertEqual(run.create(name), number)
                if number == 0:
                    self.assertEqual(run.call('D', name), 0)

    def test_locked(self):
        for bits in (0x80, 0x8000):
            m = old_volume()
            m.attributes |= bits
            lengths = (0, 1, 31) + TOO_LONG + (256,)
            for letter in (b'N', b'e', b'i'):
                self.creates(Run(m), letter, dict.fromkeys(lengths, 11))

    def test_refused_volume(self):
        image = hall.hall()
        image[1024 + 35] = 3
        for length in (31,) + TOO_LONG:
            self.assertEqual(
                volume.create(image, b'N' * length, bytes(16), 3, 4), 10)

    def test_exists(self):
        run = Run(old_volume())
        for name in OLD:
            number = 14 if len(name) == 31 else 21
            for spelling in (name, name.swapcase()):
                self.assertEqual(run.create(spelling), number)

    def test_last_number(self):
        run = Run(old_volume(next_kind='end'))
        self.creates(run, b'N', {1: 19, 31: 19})
        self.creates(run, b'N', dict.fromkeys(TOO_LONG, 21))
        self.creates(run, b'd', {31: 14})
        self.creates(run, b'i', {255: 21, 256: 12})

    def test_room(self):
        """Names of 31 where the only directory block has this much left;
        longer ones give 21 with room and without."""
        for left, number in ((0, 18), (52, 18), (80, 18), (82, 0), (84, 0)):
            names = [b'L' * 255, b'M' * (154 - left)]
            m = old_volume(names, dir_length=1)
            at, end = m.tail_at(0)
            self.assertEqual(end - at, left)
            run = Run(m)
            self.creates(run, b'N', dict.fromkeys(TOO_LONG, 21))
            self.creates(run, b'L', {255: 21, 256: 12})
            self.assertEqual(run.create(b'N' * 31), number)
        run = Run(old_volume([b'L' * 255], dir_length=1))
        self.creates(run, b'N', {32: 21, 254: 21})
        self.assertEqual(run.call('D', b'l' * 255), 0)
        self.creates(run, b'N', {32: 21, 255: 21})

    def test_old(self):
        """Old names are told, found, read, written, cut and deleted."""
        for name in OLD:
            run = Run(old_volume())
            place = [file.name for file in run.m.files()].index(name)
            for spelling in (name, name.swapcase()):
                self.old(run, spelling, place)
            self.assertEqual(run.call('D', name.swapcase()), 0)
            self.assertEqual(run.call('F', name), 13)
            self.assertEqual(run.create(name), 0 if len(name) == 31 else 21)

    def old(self, run, name, place):
        self.assertEqual(run.call('C'), 0)
        self.assertEqual(run.call('E', place), 0)
        self.assertEqual(run.call('F', name), 0)
        a = run.m.a
        for fork in (0, 1):
            length, blocks = run.history.state().forks[
                run.m.files()[place].name][fork]
            for at in range(blocks):
                self.assertEqual(run.call('B', name, fork, at), 0)
            self.assertEqual(run.call('B', name, fork, blocks), 16)
            for offset in (0, 1, length // 2, length):
                self.assertEqual(
                    run.call('R', name, fork, offset, length), 0)
            self.assertEqual(run.call('R', name, fork, length + 1, 1), 16)
            for offset, data in ((0, b'first'), (length, b'last' * 200),
                                 (length // 2, b''), (1, bytes(2 * a))):
                self.assertEqual(run.call('W', name, fork, offset, data, 7), 0)
            self.assertEqual(
                run.call('W', name, fork, 0, bytes(60 * a), 8), 17)
            for length in (2 * a, a + 1, a, 1, 0):
                self.assertEqual(run.call('U', name, fork, length, 9), 0)
            self.assertEqual(run.call('U', name, fork, 1, 9), 16)
            self.assertEqual(run.call('W', name, fork, 0, b'again', 10), 0)

    def test_old_locked(self):
        m = old_volume()
        for file in m.files():
            file.flags |= 1
        run = Run(m)
        for name in OLD:
            self.assertEqual(run.call('F', name), 0)
            self.assertEqual(run.call('R', name, 1, 0, 9), 0)
            self.assertEqual(run.call('W', name, 0, 0, b'', 7), 15)
            self.assertEqual(run.call('U', name, 1, 0, 7), 15)
            self.assertEqual(run.call('D', name), 15)
            self.assertEqual(run.create(name), 14 if len(name) == 31 else 21)


def words(text):
    return bytes.fromhex(text)


def single(b):
    return bytes([b])


class Accents(unittest.TestCase):
    """The equal bytes of T-03 in document 02, and what they do to 7, 13 and
    14."""

    def test_pairs(self):
        """Each listed pair is a small letter of Mac OS Roman and its capital;
        the unlisted ones are all the others."""
        self.assertEqual(len(spelling.ACCENTS), 13)
        self.assertEqual(len(spelling.ACCENTED), 26)
        for lower, upper in spelling.ACCENTS + spelling.OTHERS:
            letter = single(lower).decode('mac_roman')
            self.assertEqual(letter.upper(), single(upper).decode('mac_roman'))
            self.assertNotEqual(lower, upper)
        found = []
        for b in range(0x80, 0x100):
            letter = single(b).decode('mac_roman')
            upper = letter.upper().encode('mac_roman', 'ignore')
            if letter.upper() != letter and len(upper) == 1 and upper[0] > 127:
                found.append((b, upper[0]))
        self.assertEqual(sorted(spelling.ACCENTS + spelling.OTHERS), found)

    def test_equal_bytes(self):
        """All 256 by 256: equal are a byte and itself, a letter in both cases
        and a listed pair both ways, and no others."""
        wanted = {(b, b) for b in range(256)}
        for i in range(26):
            wanted |= {(0x61 + i, 0x41 + i), (0x41 + i, 0x61 + i)}
        for one, two in spelling.ACCENTS:
            wanted |= {(one, two), (two, one)}
        self.assertEqual(len(wanted), 256 + 2 * (26 + 13))
        equal = {(one, two) for one in range(256) for two in range(256)
                 if spelling.fold(single(one)) == spelling.fold(single(two))}
        self.assertEqual(equal, wanted)
        self.assertEqual(equal, {
            (one, two) for one in range(256) for two in range(256)
            if key(single(one)) == key(single(two))})

    def test_fold(self):
        self.assertEqual(len(spelling.FOLD), 256)
        for b in range(256):
            folded = spelling.fold(single(b))
            self.assertEqual(spelling.fold(folded), folded)
            self.assertEqual(spelling.fold(spelling.swapped(single(b))), folded)
            self.assertEqual(
                spelling.swapped(spelling.swapped(single(b))), single(b))
        for lower, upper in spelling.EQUAL:
            self.assertEqual(spelling.fold(single(lower)), single(upper))
            self.assertEqual(spelling.swapped(single(upper)), single(lower))

    def test_near(self):
        for b in range(256):
            self.assertGreaterEqual(len(spelling.NEAR[b]), 2)
            for near in spelling.NEAR[b]:
                self.assertNotEqual(key(single(near)), key(single(b)))
        for one, two, miss in (
                ('été', 'étè', True), ('été', 'ÉTè', True),
                ('Été', 'Ête', False), ('été', 'ÉTÉ', False),
                ('été', 'ét', False), ('été', 'eté', True),
                ('a1', 'a2', False)):
            self.assertEqual(spelling.near_miss(
                accents.mac(one), accents.mac(two)), miss, (one, two))

    def test_every_byte(self):
        for left_out in (spelling.LOWER, spelling.UPPER):
            for place in maker.PLACES:
                m = maker.every_byte(random.Random(SEED + 5), left_out, place,
                                     b'xy')
                image = m.image()
                names = [key(file.name) for file in m.files()]
                self.assertEqual(len(names), 217)
                for b in range(256):
                    name = maker.put(place, b, b'xy')
                    number, at, entry = volume.find(image, name)
                    self.assertEqual((number, names[at]), (0, key(name)))
                    self.assertEqual(key(entry.name), key(name))

    def test_both_spellings(self):
        """Accepted before, and 7 now; near misses are accepted."""
        rng = random.Random(SEED + 9)
        for way in accent_notes.WAYS:
            for count in (2, 3, 4, 5, 6, 7, 12, 30, 200):
                couple = accents.two_spellings(rng, way)
                m = accents.together(rng, couple, count)
                image = m.image()
                self.assertIsNotNone(accent_notes.before(image))
                self.assertEqual(volume.check(image), (7, volume.NO_FACTS))
                file = [f for f in m.files() if f.name == couple[1]][0]
                file.name = accents.beside(couple[1], count)
                names = {key(f.name) for f in m.files()}
                self.assertEqual(volume.check(m.image())[0],
                                 0 if len(names) == count else 7)

    def test_runs(self):
        """Short accented names, so that near and equal ones often meet."""
        rng = random.Random(SEED + 10)
        seen = {}
        for i in range(40):
            m = maker.accented_names(rng, rng.choice((1, 2, 5, 6, 9, 20)))
            one_run(rng, Run(m), CALLS, seen)
        for tag, number in [(tag, 0) for tag in 'FBRNWUDM'] + [
                (tag, 13) for tag in 'FBRWUDM'] + [('N', 14), ('M', 14)]:
            self.assertGreaterEqual(seen.get((tag, number), 0), 5,
                                    (tag, number))

    def test_words(self):
        for own, other in accents.WORDS:
            run = Run(accents.roomy(random.Random(SEED + 11), [b'Other']))
            self.assertEqual(run.create(own), 0)
            self.assertEqual(run.create(other), 14)
            self.assertEqual(run.call('W', other, 0, 0, b'new', 5), 0)
            self.assertEqual(run.call('R', own, 0, 0, 5), 0)
            self.assertEqual(run.create(accents.beside(own, 1)), 0)
            for old, new, number in (
                    (other, other, 0), (own, b'Another', 0), (other, own, 13),
                    (accents.beside(own, 1), b'aNOTHER', 14),
                    (b'another', own, 0), (b'Other', other, 14)):
                self.assertEqual(run.call('M', old, new, 6), number)
            self.assertEqual(run.call('D', other), 0)
            self.assertEqual(run.call('F', own), 13)
            self.assertEqual(run.call('D', accents.beside(own, 1)), 0)
            self.assertEqual(run.create(other), 0)
            self.assertEqual(run.call('F', own), 0)
            self.assertEqual(run.m.files()[-1].name, other)


def plain_sum(data):
    """Document 02's sentence, bit by bit: the sum as 32 digits, of which the
    last goes to the front."""
    s = 0
    for at in range(0, len(data), 2):
        s = (s + 256 * data[at] + data[at + 1]) % 4294967296
        digits = '{:032b}'.format(s)
        s = int(digits[-1] + digits[:-1], 2)
    return s


def header_number(at, value):
    """What a sound file gives with another value at a byte of its header."""
    if at == 0:
        return 22 if value > 63 else 0
    for end, number in ((64, 0), (72, 22), (76, 23), (80, 24), (81, 22),
                        (82, 0), (84, 22)):
        if at < end:
            return number


class Wrapped(unittest.TestCase):
    """The checksum, the header, the refusals and wrap, and runs of the nine
    calls inside a wrapped file."""

    def setUp(self):
        self.rng = random.Random(SEED + 8)
        self.m = maker.disk_400k(self.rng, base='sparse', file_locks=0)
        self.files = [
            wrapper.Wrapper(self.rng, tags=tags).file(self.m.image())
            for tags in (False, True)]

    def gives(self, file, want, tags=replay.NINE):
        """Each of these calls gives this number and, refused, nothing else."""
        before = bytes(file)
        state = chooser.state_of_made(self.m)
        for tag in tags:
            call = chooser.choose(self.rng, state, tag)
            number, results = carry_out(file, call, diskcopy.serve)
            self.assertEqual(number, want)
            self.assertEqual(results, refused_results(call))
            self.assertEqual(bytes(file), before)

    def test_checksum(self):
        """Worked by hand.  1 turns to the top bit; 16 words 0001 fill the
        upper half with ones, FFFF the lower, and then the sum wraps."""
        for text, want in (
                ('', 0), ('0000', 0), ('0001', 0x80000000), ('0002', 1),
                ('0100', 0x80), ('FFFF', 0x80007FFF),
                ('0001 0000', 0x40000000), ('0000 0001', 0x80000000),
                ('0001 0001', 0xC0000000), ('0002 0001', 1),
                ('FFFF FFFF', 0x4000BFFF),
                ('0001' * 16, 0xFFFF0000), ('0001' * 16 + 'FFFF', 0xFFFFFFFF),
                ('0001' * 16 + 'FFFF 0001', 0),
                ('0001' * 16 + 'FFFF 0002', 0x80000000),
                ('0001' * 16 + 'FFFF FFFF', 0x7FFF),
                ('0002' + '0000' * 31, 2), ('0002' + '0000' * 32, 1)):
            self.assertEqual(diskcopy.checksum(words(text)), want, text)
            self.assertEqual(plain_sum(words(text)), want, text)

    def test_checksum_of_disks(self):
        for base in ('zero', 'sparse', 'pattern', 'random'):
            data = bytes(maker.base_bytes(self.rng, 50 * 512, base))
            self.assertEqual(diskcopy.checksum(data), plain_sum(data), base)
        for file in self.files:
            data, tags = bytes(file[84:409684]), bytes(file[409684 + 12:])
            self.assertEqual(diskcopy.checksum(data), plain_sum(data))
            self.assertEqual(diskcopy.checksum(tags), plain_sum(tags))

    def test_sound(self):
        for file in self.files:
            self.assertEqual(diskcopy.refusal(file), 0)
            self.assertEqual(diskcopy.serve(volume.check, file),
                             volume.check(self.m.image()))

    def test_header(self):
        for file in self.files:
            for at in range(84):
                old = file[at]
                for value in {0, 1, 63, 64, 255, old ^ 1, old ^ 128} - {old}:
                    file[at] = value
                    self.assertEqual(diskcopy.refusal(file),
                                     header_number(at, value), (at, value))
                file[at] = old

    def test_length(self):
        for file in self.files:
            for length in (0, 1, 83, 84, 85, 409600, len(file) - 1):
                self.gives(file[:length], 22)
            self.gives(file + b'\0', 22)
            self.gives(file + bytes(9600), 22)
        # each with the tag size and, where it tells, the tags of the other
        without, tagged = self.files
        self.gives(wrapper.off(without[:], 68, 9600), 22)
        tagged[68:72] = tagged[76:80] = bytes(4)
        self.gives(tagged, 22)
        self.gives(tagged[:409684], 0, '')

    def test_sums(self):
        for file in self.files:
            for at in (84, 84 + 1024, 409683):
                self.gives(wrapper.off(file[:], at, 1, 1), 23)
            for by in (1, -1, 1 << 16, 1 << 31):
                self.gives(wrapper.off(file[:], 72, by), 23)
                self.gives(wrapper.off(file[:], 76, by), 24)
        file = self.files[1]
        for at in range(12):
            self.assertEqual(
                diskcopy.refusal(wrapper.off(file[:], 409684 + at, 1, 1)), 0)
        for at in (12, 13, 14, 5000, 9598, 9599):
            self.gives(wrapper.off(file[:], 409684 + at, 1, 1), 24)

    def test_order(self):
        for file in self.files:
            wrapper.off(file, 84 + 1024, 1, 1)          # the signature
            self.gives(file, 23)
            file[72:76] = plain_sum(file[84:409684]).to_bytes(4, 'big')
            self.gives(file, 2)
            wrapper.off(file, 76)
            self.gives(file, 24)
            wrapper.off(file, 72)
            self.gives(file, 23)
            wrapper.off(file, 82, 1, 2)
            self.gives(file, 22)

    def test_damage(self):
        """Each kind of damage inside gives its own number, and so does wrap
        on the bare disk."""
        for kind in maker.ON_A_DISK:
            self.m = maker.damaged_400k(self.rng, kind, base='sparse')
            image = self.m.image()
            file = wrapper.Wrapper(self.rng, tags=kind[0] % 2).file(image)
            self.gives(file, kind[0])
            self.wrap_gives(image, b'A disk', 409684, kind[0])

    def wrap_gives(self, image, name, length, want):
        """A refused wrap leaves image and buffer as they were."""
        before, buffer = bytes(image), bytearray(b'\xEE' * length)
        self.assertEqual(diskcopy.wrap(image, name, 1, buffer), want)
        self.assertEqual(bytes(image), before)
        self.assertEqual(bytes(buffer), b'\xEE' * length)

    def test_wrap(self):
        image = self.m.image()
        stored = plain_sum(image).to_bytes(4, 'big')
        for length in (0, 1, 4, 62, 63):
            for format_byte in (0, 1, 2, 0x22, 255):
                name = maker.some_bytes(self.rng, length)
                buffer = bytearray(b'\xEE' * 409684)
                self.assertEqual(
                    diskcopy.wrap(image, name, format_byte, buffer), 0)
                self.assertEqual(buffer, bytes([length]) + name
                                 + bytes(63 - length) + words('00064000')
                                 + bytes(4) + stored + bytes(5)
                                 + bytes([format_byte, 1, 0]) + image)
                self.assertEqual(diskcopy.refusal(buffer), 0)

    def test_wrap_refused(self):
        image = self.m.image()
        for length in (64, 65, 255, 256, 319, 1024):
            self.wrap_gives(image, b'N' * length, 409684, 22)
        for length in (0, 84, 409600, 409683, 409685, 419284):
            self.wrap_gives(image, b'NAME', length, 22)
        for length in (0, 512, 6144, 409088, 409599, 409601, 409684, 410112):
            other = (image + bytes(1000))[:length]
            self.wrap_gives(other, b'NAME', 409684, 22)
        # 22 is before 1 to 10
        image[1024] ^= 1
        self.wrap_gives(image, b'N' * 64, 409684, 22)
        self.wrap_gives(image, b'N' * 63, 409685, 22)
        self.wrap_gives(image, b'N' * 63, 409684, 2)

    def test_runs(self):
        seen = {}
        for want in ({}, {'per': 1, 'n': 640, 's': 20}, {'full_disk': True},
                     {'dir_length': 1, 'next_kind': 'near'},
                     {'per': 64, 'n': 12, 's': 20}, {'locked': True}):
            for tags in (False, True):
                m = any_clump(self.rng, maker.disk_400k(self.rng, **{
                    'dir_length': 2, 'base': 'sparse', **want}))
                around = wrapper.Wrapper(self.rng, tags=tags)
                one_run(self.rng, WrappedRun(m, around), 2 * CALLS, seen,
                        NINE_KINDS)
        for tag, number in (('N', 0), ('W', 0), ('U', 0), ('D', 0), ('N', 11),
                            ('W', 11), ('W', 15), ('W', 16), ('W', 17)):
            self.assertGreaterEqual(seen.get((tag, number), 0), 3,
                                    (tag, number))


def hall_entry(name, number, start, logical, physical, changed):
    """An entry of HALL, its pad byte left out."""
    return struct.pack('>BB16sIHIIHIIIIB', 0x80, 0, bytes(16), number, start,
                       logical, physical, 0, 0, 0, 2500000000, changed,
                       len(name)) + name


def week(name=b'WEEK1', changed=2500600000):
    return hall_entry(name, 1, 2, 700, 1024, changed)


def rates(name=b'RATES', changed=2500000000):
    return hall_entry(name, 2, 3, 512, 512, changed)


class Renames(unittest.TestCase):
    """T-05 of document 02.  On HALL the directory block is worked by hand,
    and no byte outside it changes; in larger directories the names are."""

    def setUp(self):
        self.image = hall.hall()

    def block(self, *parts):
        """The directory block: these bytes, and otherwise zeros."""
        self.image[2048:2560] = b''.join(parts).ljust(512, b'\0')

    def renamed(self, old, new, changed, *parts):
        """A rename, and the directory block after it."""
        image = bytearray(self.image)
        self.assertEqual(volume.rename(image, old, new, changed), 0)
        self.block(*parts)
        self.assertEqual(image, self.image)

    def refused(self, number, old, new):
        before = bytes(self.image)
        self.assertEqual(volume.rename(self.image, old, new, 7), number)
        self.assertEqual(bytes(self.image), before)

    def test_hall(self):
        self.block(week(), rates())
        self.assertEqual(self.image, hall.hall())

    def test_longer(self):
        self.renamed(b'WEEK1', b'WEEK30 BAD', 7,
                     rates(), week(b'WEEK30 BAD', 7), b'\0')
        self.renamed(b'RATES', b'RATES12', 8,
                     week(b'WEEK30 BAD', 7), b'\0', rates(b'RATES12', 8))
        self.renamed(b'rates12', b'R' * 31, 9,
                     week(b'WEEK30 BAD', 7), b'\0', rates(b'R' * 31, 9))

    def test_shorter(self):
        self.renamed(b'week1', b'W', 7, rates(), week(b'W', 7))
        self.renamed(b'w', b'wK', 8, rates(), week(b'wK', 8), b'\0')
        self.renamed(b'RATES', b'ab', 4294967295, week(b'wK', 8), b'\0',
                     rates(b'ab', 4294967295), b'\0')

    def test_stays(self):
        """Five and four bytes make the same size."""
        self.renamed(b'WEEK1', b'WEEK2', 7, week(b'WEEK2', 7), rates())
        self.renamed(b'WEEK2', b'WEEK', 8, week(b'WEEK', 8), b'\0', rates())
        self.renamed(b'WEEK', b'five5', 9, week(b'five5', 9), rates())

    def test_own_name(self):
        self.renamed(b'WEEK1', b'WEEK1', 7, week(b'WEEK1', 7), rates())
        self.renamed(b'wEEk1', b'week1', 8, week(b'week1', 8), rates())
        self.renamed(b'WEEK1', b'Week1', 9, week(b'Week1', 9), rates())

    def test_stale_bytes(self):
        """An entry that stays leaves what lies behind the last one."""
        stale = b'\x7F' + bytes(range(100)) * 3 + bytes(99)
        self.block(week(), rates(), stale)
        self.renamed(b'RATES', b'RATE', 7, week(), rates(b'RATE', 7), b'\0',
                     stale)
        self.renamed(b'WEEK1', b'week1', 8, week(b'week1', 8),
                     rates(b'RATE', 7), b'\0', stale)
        self.renamed(b'RATE', b'RATES1', 9, week(b'week1', 8),
                     rates(b'RATES1', 9), b'\0')

    def test_stale_bytes_behind_shorter(self):
        self.block(week(), rates(), b'\x7F' * 400)
        self.renamed(b'WEEK1', b'WEE', 7, rates(), week(b'WEE', 7))

    def test_pad(self):
        """The renamed entry's pad byte becomes 0, the other's stays."""
        names = week(b'WEEK'), b'\xAA', rates(b'RATE'), b'\xBB'
        self.block(*names)
        self.renamed(b'week', b'WEEK', 7, week(b'WEEK', 7), b'\0', *names[2:])
        self.block(*names)
        self.renamed(b'RATE', b'abcd', 7, *names[:2], rates(b'abcd', 7), b'\0')
        self.block(*names)
        self.renamed(b'WEEK', b'WEEK20', 7, *names[2:], week(b'WEEK20', 7),
                     b'\0')
        self.block(*names)
        self.renamed(b'WEEK', b'ab', 7, *names[2:], week(b'ab', 7), b'\0')

    def test_flags(self):
        self.image[2048] = 0xFE
        self.renamed(b'WEEK1', b'W', 7, rates(), b'\xFE' + week(b'W', 7)[1:])
        self.renamed(b'W', b'X', 8, rates(), b'\xFE' + week(b'X', 8)[1:])

    def test_refused(self):
        """Each with all that would refuse it later."""
        missing, over, most = b'none', b'o' * 256, b'm' * 255
        self.image[2048] |= 1                       # WEEK1 is locked
        for old, new in ((b'', b''), (over, over), (b'', b'RATES'),
                         (over, most), (b'RATES', b''), (b'WEEK1', over),
                         (missing, b'')):
            self.refused(12, old, new)
        for old in (missing, b'WEEK1', b'RATES'):
            for length in (32, 33, 254, 255):
                self.refused(21, old, b'n' * length)
        for new in (b'WEEK1', b'rates', missing, b'n' * 31):
            self.refused(13, missing, new)
            self.refused(15, b'WEEK1', new)
        self.refused(14, b'RATES', b'week1')
        self.image[2048] &= 0xFE
        self.refused(14, b'WEEK1', b'Rates')
        for at in (10, 11):
            self.image[1024 + at] = 0x80            # the volume is locked
            for old, new in ((b'', b''), (b'WEEK1', most), (missing, b'A'),
                             (b'WEEK1', b'RATES'), (b'WEEK1', b'WEEK2')):
                self.refused(11, old, new)
            self.image[1024 + at] = 0
        self.image[1024 + 35] = 3                   # the free count
        self.refused(10, b'', b'')

    def test_old_names(self):
        for name in OLD:
            for new in (b'N', b'N' * 30, b'N' * 31):
                run = Run(old_volume())
                if len(name) > 31:
                    for long in (name, name.swapcase(), b'N' * 32):
                        self.assertEqual(run.call('M', name, long, 7), 21)
                self.assertEqual(run.call('M', name.swapcase(), new, 7), 0)
                self.assertEqual(run.call('F', name), 13)
                self.assertEqual(run.call('R', new, 1, 0, 900), 0)

    def run_in(self, *directory, **want):
        """A run on a volume with these names in its directory blocks."""
        names = [name for block in directory for name in block]
        m = old_volume(names, dir_length=len(directory), **want)
        files = m.files()
        m.directory = [[files.pop(0) for _ in block] for block in directory]
        return Run(m)

    def names(self, run):
        return [[file.name for file in files] for files in run.m.directory]

    def test_room(self):
        """Entries of 306, 96, 52 and 56 bytes, and two bytes left."""
        there = [b'L' * 255, b'M' * 45, b'S', b'TTTT']
        run = self.run_in(there)
        self.assertEqual(run.call('M', b'S', b'tttt', 7), 14)
        self.assertEqual(run.call('M', b'S', b'SSSS', 7), 18)
        self.assertEqual(run.call('M', b'S', b'SSSSS', 7), 18)
        self.assertEqual(run.call('M', b'S', b's' * 31, 7), 18)
        self.assertEqual(run.call('M', b'TTTT', b'T' * 8, 7), 18)
        self.assertEqual(run.create(b'N'), 18)
        self.assertEqual(run.call('M', b'S', b'U', 7), 0)
        self.assertEqual(self.names(run), [there[:2] + [b'U', b'TTTT']])
        self.assertEqual(run.call('M', b'U', b'SSS', 7), 0)
        self.assertEqual(self.names(run), [there[:2] + [b'TTTT', b'SSS']])
        self.assertEqual(run.call('M', b'M' * 45, b'm' * 31, 7), 0)
        self.assertEqual(self.names(run), [
            [b'L' * 255, b'TTTT', b'SSS', b'm' * 31]])
        self.assertEqual(run.call('M', b'SSS', b'S' * 17, 7), 0)
        self.assertEqual(run.call('M', b'S' * 17, b'S' * 18, 7), 18)

    def test_blocks(self):
        """Two bytes are left in the first block, 460 and 408 in the others."""
        long = [b'%d' % i * 31 for i in range(4)]
        old = b'y' * 79
        run = self.run_in(long + [b's', old], [b'b'], [b'c', b'd'])
        for call, want in (
                # no room in the first
                ((b'c', b'cc'), [long + [b's', old], [b'b', b'cc'], [b'd']]),
                # its own is the first with room
                ((b'b', b'bb'), [long + [b's', old], [b'cc', b'bb'], [b'd']]),
                # longer than what is left once it is out
                ((b's', b'ssss'),
                 [long + [old], [b'cc', b'bb', b'ssss'], [b'd']]),
                # its block is left empty
                ((b'd', b'dd'),
                 [long + [old, b'dd'], [b'cc', b'bb', b'ssss'], []]),
                ((old, b'y'),
                 [long + [b'dd', b'y'], [b'cc', b'bb', b'ssss'], []]),
                # shorter, and there is room before its own block
                ((b'ssss', b's'),
                 [long + [b'dd', b'y', b's'], [b'cc', b'bb'], []]),
                ((b'bb', b'bbb'),
                 [long + [b'dd', b'y', b's'], [b'cc', b'bbb'], []]),
                ((b'cc', b'cccc'),
                 [long + [b'dd', b'y', b's'], [b'bbb', b'cccc'], []])):
            self.assertEqual(run.call('M', *call, 7), 0)
            self.assertEqual(self.names(run), want)

    def test_fills_a_block(self):
        """Its own block, to the last byte."""
        long = [b'%d' % i * 31 for i in range(4)]
        run = self.run_in(long + [b's', b'y' * 79], [b'b'])
        self.assertEqual(run.call('M', b's', b'sss', 7), 0)
        self.assertEqual(self.names(run), [
            long + [b'y' * 79, b'sss'], [b'b']])
        self.assertEqual(run.m.tail_at(0)[0], run.m.tail_at(0)[1])

    def test_last_number(self):
        run = self.run_in([b'a', b'b'], next_kind='end')
        self.assertEqual(run.create(b'c'), 19)
        self.assertEqual(run.call('M', b'a', b'ccc', 7), 0)
        self.assertEqual(run.call('M', b'b', b'd', 7), 0)

    def test_record(self):
        self.assertEqual(replay.rename(b'A', b'BC', 5),
                         b'M\0\1A\0\2BC\0\0\0\5')

    def test_wrapped(self):
        """A wrapped file is an image of wrong length; a bare image said to be
        wrapped is renamed in as it is."""
        rng = random.Random(SEED + 12)
        disk = maker.disk_400k(rng, base='sparse', file_locks=0)
        record = replay.rename(disk.files()[0].name, b'NEW', 5)
        image = disk.image()
        for tags in (False, True):
            file = wrapper.Wrapper(rng, tags=tags).file(image)
            self.assertEqual(
                replay.replay(replay.wrapped(file) + record),
                b'M 1 %d\n' % replay.total(file))
        bare = replay.replay(replay.image(image) + record)
        self.assertEqual(bare[:4], b'M 0 ')
        self.assertEqual(replay.replay(replay.wrapped(image) + record), bare)


class Parts(unittest.TestCase):
    """T-06 of document 02.  By chance each write and its parts are held to the
    history and the plain lists too."""

    def on_hall(self, offset, lengths, numbers):
        """The parts of a write in WEEK1 give these numbers; gives the image
        after them."""
        image = hall.hall()
        call = parts.Write('W', b'WEEK1', 0, offset, bytes(
            i % 251 + 1 for i in range(sum(lengths))), 7)
        self.assertEqual([volume.write(image, *part[1:]) for part
                          in parts.parts_of(call, lengths)], numbers)
        return image

    def test_hall_fits(self):
        """P4: four blocks, 2, 4, 5 and 6, none free."""
        whole = self.on_hall(700, [1348], [0])
        self.assertEqual(whole[1088:1096], words('0040010050060010'))
        self.assertEqual(whole[1024 + 34:1024 + 36], bytes(2))
        self.assertEqual(whole[2048 + 24:2048 + 32], words('00000800' * 2))
        self.assertEqual(whole[2048 + 46:2048 + 50], words('00000007'))
        for lengths in ([34] * 39 + [22], [1] * 39 + [1309], [1309] + [1] * 39,
                        [0] * 39 + [1348], [1348] + [0] * 39, [324, 512, 512],
                        [325, 511, 512], [323, 513, 512], [400, 948],
                        [0, 0, 836, 0, 512, 0]):
            image = self.on_hall(700, lengths, [0] * len(lengths))
            self.assertEqual(image, whole, lengths)

    def test_hall_too_long(self):
        """P5: one byte more."""
        for lengths, numbers, before in (
                ([1349], [17], None), ([400, 949], [0, 17], [400]),
                ([1349, 0], [17, 16], None), ([0, 1349], [0, 17], [0]),
                ([1348, 1], [0, 17], [1348]),
                ([1348, 0, 1, 0], [0, 0, 17, 16], [1348]),
                ([325, 1000, 24], [0, 0, 17], [1325]),
                ([512, 837, 0, 0], [0, 17, 16, 16], [512]),
                ([34] * 39 + [23], [0] * 39 + [17], [1326])):
            image = self.on_hall(700, lengths, numbers)
            if before is None:
                self.assertEqual(image, hall.hall())
            else:
                self.assertEqual(image, self.on_hall(700, before, [0]))

    def test_hall_above(self):
        """P6: only the date at 700, and 16 at 701."""
        dated = self.on_hall(700, [0], [0])
        self.assertEqual(self.on_hall(700, [0] * 40, [0] * 40), dated)
        for lengths in ([0], [1], [0, 0, 0], [0, 1, 0], [34] * 40):
            image = self.on_hall(701, lengths, [16] * len(lengths))
            self.assertEqual(image, hall.hall())

    def test_sentences(self):
        for number, numbers, alike, want in (
                (0, [0], True, True), (0, [0, 0, 0], True, True),
                (0, [0, 0], False, False), (0, [0, 17], True, False),
                (0, [16, 0], True, False), (17, [17], True, True),
                (17, [0, 0, 17, 16], False, True), (17, [0, 0], False, False),
                (17, [0, 16, 17], False, False), (17, [16], True, False),
                (13, [13], True, True), (13, [0, 13], False, False),
                (16, [17, 16], True, False), (1, [2, 1], True, False)):
            self.assertEqual(parts.sentences(number, numbers, alike), want,
                             (number, numbers))
        for number, numbers, want in (
                (0, [0, 0], True), (17, [17], True), (17, [0, 17, 16], True),
                (17, [17, 17], False), (17, [17, 0], False),
                (13, [13, 13], True), (13, [13, 0], False)):
            self.assertEqual(parts.behind(number, numbers), want,
                             (number, numbers))

    def both_ways(self, start, call, lengths):
        """Start gives a new run on the same volume each time.  Gives what the
        single write gave and, for 17, which part met it."""
        self.assertEqual(sum(lengths), len(call.data))
        self.assertTrue(1 <= len(lengths) <= 40)
        single, parted = start(), start()
        number = single.call(*call)
        numbers = [parted.call(*part)
                   for part in parts.parts_of(call, lengths)]
        self.assertTrue(parts.sentences(number, numbers,
                                        single.image == parted.image))
        self.assertTrue(parts.behind(number, numbers))
        if number not in (0, 17):
            self.assertEqual(parted.image, single.image)
            return number
        room = part_notes.Room(start().inside(), call, lengths)
        at = numbers.index(17) if number else len(numbers)
        self.assertEqual(parted.history.free(), room.free - sum(room.new[:at]))
        if number == 0:
            return 0
        if at:
            # the parts before it leave what they leave in one piece
            done = call._replace(data=call.data[:sum(lengths[:at])])
            self.assertEqual(single.call(*done), 0)
        self.assertEqual(parted.image, single.image)
        return next(room.refused(numbers))

    def test_by_chance(self):
        rng = random.Random(SEED + 13)
        seen = Counter()
        aims = sum(parts.FITTING, ()) + parts.TOO_LONG * 2
        for i in range(300):
            per, n = ((1, 4), (1, 6), (2, 3), (1, 5), (3, 2))[i % 5]
            m = any_clump(rng, parts.small(
                rng, (range(n), range(3))[i % 2], per=per, n=n))
            call, lengths = parts.write_in(rng, chooser.state_of_made(m),
                                           rng.choice(aims))
            seen[self.both_ways(lambda: Run(m.copy()), call, lengths)] += 1
        for i in range(120):
            m = parts.small(rng, range(3), locked=i % 6 == 0, file_locks=0.3)
            call, lengths = parts.any_write(rng, chooser.state_of_made(m))
            seen[self.both_ways(lambda: Run(m.copy()), call, lengths)] += 1
        for what in (0, 11, 12, 13, 15, 16, 'only part', 'middle part',
                     'first of several parts', 'last of several parts'):
            self.assertGreaterEqual(seen[what], 5, what)

    def test_damage(self):
        rng = random.Random(SEED + 14)
        for kind in maker.DAMAGES:
            m = maker.damaged(rng, kind)
            image = m.image()
            before = bytes(image)
            for _ in range(3):
                call, lengths = parts.any_write(rng, chooser.state_of_made(m))
                for part in parts.parts_of(call, lengths):
                    self.assertEqual(volume.write(image, *part[1:]), kind[0])
            self.assertEqual(bytes(image), before)

    def test_wrapped(self):
        rng = random.Random(SEED + 15)
        seen = Counter()
        for i in range(8):
            m = any_clump(rng, maker.disk_400k(
                rng, base='sparse', file_locks=0, per=64, n=12, s=20,
                full_disk=i % 2 == 1))
            around = wrapper.Wrapper(rng, tags=i % 4 > 1)
            aim = rng.choice(parts.TOO_LONG if i % 2 else parts.FITTING[0])
            call, lengths = parts.write_in(rng, chooser.state_of_made(m), aim)
            seen[self.both_ways(lambda: WrappedRun(m.copy(), around), call,
                                lengths)] += 1
        self.assertGreaterEqual(min(seen[0], sum(seen.values()) - seen[0]), 3)


class Clumps(unittest.TestCase):
    """T-07 of document 02.  HALL, whose WEEK1 has the blocks 2 and 4 and 700
    bytes, is worked by hand with other clump sizes; 5 and 6 are free."""

    ONE_BLOCK = (0, 1, 256, 511, 512, 513, 1023, 1025, 1535, 1537, 2047, 2049,
                 2304, 65535, 65537, 4294967295)
    TOO_LARGE = (3072, 4096, 66560, 512 * 65535, 0x80000000, 4294966784)

    def on_hall(self, clump, *calls):
        """The image after these calls, which succeed."""
        image = hall.hall(clump)
        for call in calls:
            self.assertEqual(carry_out(image, call)[0], 0, (clump, call))
        self.assertEqual(volume.check(image)[0], 0)
        return image

    def is_hall(self, image, clump, text, free, *fields):
        """HALL with this map, these free blocks, and other fields: each with
        its place and its bytes."""
        want = hall.hall(clump)
        for at, data in ((1088, words(text)), (1024 + 34, bytes([0, free])),
                         *fields):
            want[at:at + len(data)] = data
        self.assertEqual(image, want, clump)

    def test_p3(self):
        """A third block is needed: 2 and 4 are two blocks, 5 is taken, and 6
        too where a clump has two or four.  Five would need 3 free blocks."""
        call = ('W', b'WEEK1', 0, 700, b'x' * 400, 7)
        for clumps, text, free, physical in (
                (self.ONE_BLOCK + (1536, 2560) + self.TOO_LARGE,
                 '0040010050010000', 1, '00000600'),
                ((1024, 2048), '0040010050060010', 0, '00000800')):
            for clump in clumps:
                self.is_hall(
                    self.on_hall(clump, call), clump, text, free,
                    (2048 + 24, words('0000044C' + physical)),
                    (2048 + 46, words('00000007')),
                    (512 * 7 + 188, b'x' * 324), (512 * 8, b'x' * 76))

    def test_no_new_block(self):
        """P6, and bytes that go into the two blocks, which are no whole clump
        of three or more."""
        for clump in (1024, 1536, 2048, 2560) + self.ONE_BLOCK:
            dated = (2048 + 46, words('00000007'))
            for data in (b'', b'x', b'x' * 188):
                image = self.on_hall(clump, ('W', b'WEEK1', 0, 512, data, 7))
                self.is_hall(image, clump, '0040010010000000', 2, dated,
                             (512 * 7, data))
            image = self.on_hall(clump, ('W', b'WEEK1', 0, 700, b'y' * 324, 7))
            self.is_hall(image, clump, '0040010010000000', 2, dated,
                         (512 * 7 + 188, b'y' * 324),
                         (2048 + 24, words('00000400')))
            image = self.on_hall(clump, ('W', b'WEEK1', 1, 0, b'', 7))
            self.is_hall(image, clump, '0040010010000000', 2, dated)

    def test_room(self):
        """P4 takes all that is free, P5 is refused, whatever the clump."""
        for clump in ((1024, 1536, 2048, 2560) + self.ONE_BLOCK
                      + self.TOO_LARGE):
            call = ('W', b'WEEK1', 0, 700, bytes(1348), 7)
            image = self.on_hall(clump, call)
            self.is_hall(image, clump, '0040010050060010', 0,
                         (2048 + 24, words('00000800' * 2)),
                         (2048 + 46, words('00000007')))
            image = hall.hall(clump)
            self.assertEqual(
                volume.write(image, b'WEEK1', 0, 700, bytes(1349), 7), 17)
            self.assertEqual(
                volume.write(image, b'RATES', 1, 0, bytes(1025), 7), 17)
            self.assertEqual(image, hall.hall(clump))

    def test_after_delete(self):
        """Without RATES 3, 5 and 6 are free: a clump of five just fits."""
        calls = (('D', b'RATES'), ('W', b'WEEK1', 0, 700, b'x' * 400, 7))
        for clump, text, free in (
                (512, '0040010030000000', 2), (1024, '0040050030010000', 1),
                (1536, '0040010030000000', 2), (2048, '0040050030010000', 1),
                (2560, '0040050030060010', 0), (3072, '0040010030000000', 2)):
            image = self.on_hall(clump, *calls)
            self.assertEqual(image[1088:1096], words(text), clump)
            self.assertEqual(image[1024 + 35], free)
            self.assertEqual(image[2048 + 28:2048 + 32],
                             struct.pack('>I', 512 * (5 - free)))

    def test_new_fork(self):
        """Its bytes beyond the written one stay, in both blocks."""
        for which, fields in ((0, 22), (1, 32)):
            image = hall.hall(1024)
            self.assertEqual(
                volume.create(image, b'NEW', bytes(16), 3, 4), 0)
            image[512 * 8:512 * 10] = b'\xAA' * 1024
            want = bytearray(image)
            self.assertEqual(volume.write(image, b'NEW', which, 0, b'n', 5), 0)
            for at, data in ((1088, words('0040010010060010')),
                             (1024 + 34, bytes(2)), (512 * 8, b'n'),
                             (2048 + 112 + fields,
                              words('00050000000100000400')),
                             (2048 + 112 + 46, words('00000005'))):
                want[at:at + len(data)] = data
            self.assertEqual(image, want)

    def test_cut(self):
        """P7 and P8; and a cut to the own length gives back the rest."""
        for clump in (512, 1024, 1536, 2048, 2560):
            for length, text, free in (
                    (700, '0040010010000000', 2), (513, '0040010010000000', 2),
                    (512, '0010010000000000', 3), (1, '0010010000000000', 3),
                    (0, '0000010000000000', 4)):
                for before in ((), (('W', b'WEEK1', 0, 700, b'x' * 400, 6),)):
                    image = self.on_hall(clump, *before,
                                         ('U', b'WEEK1', 0, length, 7))
                    self.assertEqual(image[1088:1096], words(text))
                    self.assertEqual(image[1024 + 35], free)
        image = self.on_hall(1024, ('W', b'WEEK1', 0, 700, b'x' * 400, 6),
                             ('U', b'WEEK1', 0, 1100, 7))
        self.assertEqual(image[1088:1096], words('0040010050010000'))

    def test_runs(self):
        """Small volumes with clumps of any kind, and all that writes meet."""
        rng = random.Random(SEED + 16)
        seen = Counter()
        for i in range(160):
            run = Run(any_clump(rng, maker.make(
                rng, limit=24, per=rng.choice((1, 1, 2)), locked=False,
                file_locks=0, free_most=i % 2 == 0)))
            for _ in range(40):
                call = chooser.choose(rng, run.history.state(), 'WWWWUUDNBR')
                before = bytes(run.image)
                number = run.call(*call)
                if call[0] == 'W' and number in (0, 17):
                    growth = clump_notes.Growth(before, call)
                    if growth.clump > 1:
                        seen[growth.outcome] += 1
        for outcome in clump_notes.OUTCOMES:
            self.assertGreaterEqual(seen[outcome], 10, outcome)

    def test_clump_blocks(self):
        for a in range(512, 32769, 512):
            for size in {0, 1, a // 2, a - 512, a - 1, a, a + 1, a + 512,
                         2 * a - 1, 2 * a, 2 * a + 1, 65535 * a,
                         4294967295 // a * a, 4294967295}:
                want = [n for n in (1, 2, 65535, 4294967295 // a)
                        if n * a == size] or [1]
                self.assertEqual(volume.clump_blocks(size, a), want[0])
            for text, size in clump_notes.counting(a, 7).items():
                self.assertEqual(volume.clump_blocks(size, a) * a, size, text)
            for text, size in clump_notes.idle(a).items():
                self.assertEqual(volume.clump_blocks(size, a), 1, text)

    def test_taken(self):
        """Against a search: the first count of whole clumps, if any, that the
        fork can have; and what the notes call it."""
        for have, needed, free, clump in itertools.product(
                range(8), range(7), range(13), range(1, 9)):
            if needed > free:
                continue
            counts = range(have + needed, have + free + 1)
            whole = [count for count in counts if count % clump == 0]
            want = (whole + [have + needed])[0] - have if needed else 0
            taken = volume.blocks_taken(have, needed, free, clump)
            self.assertEqual(taken, want)
            text = clump_notes.outcome(have, needed, free, clump)
            self.assertEqual(text.startswith('rounds'), taken > needed)
            self.assertEqual(text == clump_notes.NONE, needed == 0)
            self.assertEqual(text == clump_notes.WHOLE, taken == needed > 0
                             and (have + needed) % clump == 0)


def plain_reading(block):
    """The entries that quick find reads in a directory block, as bytes: up to
    its end, to one whose bit 7 is clear, or to one that check 6 would
    refuse."""
    if len(block) < 52 or block[0] < 128 or block[1] or not block[50]:
        return []
    size = 52 + block[50] // 2 * 2
    if size > len(block):
        return []
    return [block[:51 + block[50]]] + plain_reading(block[size:])


def plain_entry(raw):
    numbers = [int.from_bytes(raw[at:to], 'big') for at, to in (
        (18, 22), (22, 24), (24, 28), (28, 32), (32, 34), (34, 38), (38, 42),
        (42, 46), (46, 50))]
    forks = tuple(numbers[1:4]), tuple(numbers[4:7])
    return (raw[0], raw[2:18], numbers[0], forks, *numbers[7:], raw[51:])


def plain_quick(image, name):
    """T-08 in its own words, from lists."""
    number = volume.check(image)[0]
    if 1 <= number <= 4 or not 1 <= len(name) <= 255:
        return number if 1 <= number <= 4 else 12, 0, volume.NO_ENTRY, 0
    start, length = struct.unpack_from('>HH', image, 1024 + 14)
    read = [(block - start + 1, raw) for block in range(start, start + length)
            for raw in plain_reading(bytes(image[512 * block:][:512]))]
    for place, (looked, raw) in enumerate(read):
        if key(raw[51:]) == key(name):
            return 0, place, plain_entry(raw), looked
    return 13, 0, volume.NO_ENTRY, length


class Quick(unittest.TestCase):
    """T-08 of document 02.  Directory blocks are worked by hand; lists, damage
    and blocks by chance are held to a plain reading, and accepted images to
    find."""

    def directory(self, *blocks):
        """HALL's facts and these directory blocks, each given as pieces; what
        is left of a block is zeros."""
        image = hall.hall() + bytes(512 * (len(blocks) - 1))
        image[2048:] = bytes(len(image) - 2048)
        struct.pack_into('>H', image, 1024 + 16, len(blocks))
        struct.pack_into('>H', image, 1024 + 28, 4 + len(blocks))
        for d, pieces in enumerate(blocks):
            raw = b''.join(pieces)
            image[2048 + 512 * d:2048 + 512 * d + len(raw)] = raw
        return image

    def gives(self, image, name, *wanted):
        """A quick find: the number and, where it is 0, the place and the name,
        and then the blocks looked at."""
        before = bytes(image)
        number, place, entry, looked = volume.quick_find(image, name)
        self.assertEqual((number, place, entry, looked),
                         plain_quick(image, name))
        self.assertEqual(bytes(image), before)
        if number:
            self.assertEqual((place, entry), (0, volume.NO_ENTRY))
            self.assertEqual((number, looked), wanted)
        else:
            self.assertEqual((number, place, entry.name, looked), wanted)

    def test_hall(self):
        image = hall.hall()
        self.assertEqual(volume.quick_find(image, b'week1'), (
            0, 0, (0x80, bytes(16), 1, ((2, 700, 1024), (0, 0, 0)),
                   2500000000, 2500600000, b'WEEK1'), 1))
        self.gives(image, b'RATES', 0, 1, b'RATES', 1)
        self.gives(image, b'RATE', 13, 1)
        self.gives(image, b'HALL', 13, 1)
        for name in (b'', b'W' * 256, b'W' * 1024):
            self.gives(image, name, 12, 0)

    def test_blocks(self):
        """The place of the entry's block counted from 1, or all of them."""
        image = self.directory([week(b'AAA'), rates(b'BBB')], [],
                               [week(b'CCC'), rates(b'DDD')], [week(b'EEE')])
        for place, (name, looked) in enumerate((
                (b'AAA', 1), (b'BBB', 1), (b'CCC', 3), (b'DDD', 3),
                (b'EEE', 4))):
            self.gives(image, name, 0, place, name, looked)
            self.gives(image, name.lower(), 0, place, name, looked)
        for name in (b'FFF', b'AA', b'AAAA', b'A' * 255):
            self.gives(image, name, 13, 4)
        self.gives(self.directory([]), b'A', 13, 1)

    def test_bad_entries(self):
        """A block's reading stops there, and the next block is read."""
        version = bytearray(week(b'XXX'))
        version[1] = 1
        nameless = bytearray(week(b'X'))
        nameless[50] = 0
        for bad, own in ((version, b'XXX'), (nameless, b'X')):
            image = self.directory(
                [week(b'AAA'), bad, rates(b'BBB'), rates(b'CCC')],
                [bad, week(b'DDD')], [week(b'ccc'), rates(b'EEE')])
            self.gives(image, b'AAA', 0, 0, b'AAA', 1)
            self.gives(image, b'CCC', 0, 1, b'ccc', 3)
            self.gives(image, b'EEE', 0, 2, b'EEE', 3)
            for name in (b'BBB', b'DDD', own):
                self.gives(image, name, 13, 3)
            image[2048 + 1024:] = bytes(len(image) - 2048 - 1024)
            self.gives(image, b'CCC', 13, 3)

    def test_block_ends(self):
        """The last entry ends at the block's last byte, by its name or by its
        pad byte; or it crosses the block by one byte or by two.  Before it
        stand eight entries of 56 bytes, so that it has 64."""
        there = [week(b'%d' % i * 5) for i in range(8)]
        for length, crosses in ((12, False), (13, False), (14, True),
                                (15, True)):
            name, after = b'Z' * length, week(b'AAA')
            pieces = there + [rates(name)]
            if crosses:
                # the name goes on over the next entry's first bytes
                name = name[:13] + after[:length - 13]
                pieces = there + [rates(name)[:64]]
            self.assertLessEqual(len(b''.join(pieces)), 512)
            image = self.directory(pieces, [after], [rates(name)])
            self.gives(image, b'77777', 0, 7, b'77777', 1)
            place = 8 if crosses else 9
            self.gives(image, b'aaa', 0, place, b'AAA', 2)
            self.gives(image, name, 0, *(
                (9, name, 3) if crosses else (8, name, 1)))
            self.gives(image, b'Z' * 16, 13, 3)

    def test_last_bytes(self):
        """A used entry begins where 50 bytes or two are left."""
        for length, left in ((157, 50), (205, 2)):
            there = [week(b'L' * 203), rates(b'M' * length)]
            self.assertEqual(len(b''.join(there)), 512 - left)
            image = self.directory(there + [b'\x80' + bytes(left - 1)],
                                   [rates(b'BBB')])
            self.gives(image, b'm' * length, 0, 1, b'M' * length, 1)
            self.gives(image, b'bbb', 0, 2, b'BBB', 2)
            self.gives(image, b'CCC', 13, 2)

    def test_unused(self):
        """Bit 7 is clear, whatever else the byte holds."""
        for flags in (0, 1, 0x40, 0x7F):
            unused = bytes([flags]) + week(b'XXX')[1:]
            image = self.directory([week(b'AAA'), unused, rates(b'BBB')],
                                   [unused, rates(b'AAA')], [rates(b'CCC')])
            self.gives(image, b'AAA', 0, 0, b'AAA', 1)
            self.gives(image, b'CCC', 0, 1, b'CCC', 3)
            for name in (b'XXX', b'BBB'):
                self.gives(image, name, 13, 3)

    def test_equal_names(self):
        """The first equal name so read is the answer."""
        for one, two in ((b'AAA', b'AAA'), (b'aAA', b'AaA'),
                         (accents.mac('Été'), accents.mac('éTÉ'))):
            image = self.directory([week(b'BBB'), week(one), rates(two)],
                                   [rates(two)])
            self.assertEqual(volume.check(image)[0], 7)
            for name in (one, two):
                self.gives(image, name, 0, 1, one, 1)
            image = self.directory([week(b'BBB')], [week(two)], [rates(one)])
            self.gives(image, one, 0, 1, two, 2)

    def test_order(self):
        """1 to 4, then 12, then 13; the other checks are not asked."""
        for at, text, number in (
                (0, '', 0), (1024, '4244', 2), (1024 + 20, '00000201', 3),
                (1024 + 30, '00000000', 3), (1024 + 36, '1C', 4),
                (1088, 'FFF', 5), (2048 + 1, '01', 6), (1024 + 12, '0003', 7),
                (2048 + 22, '0000', 8), (1093, '01', 9),
                (1024 + 34, '0003', 10), (1024 + 10, '8080', 0)):
            image = hall.hall()
            data = bytes.fromhex(text + '0' * (len(text) % 2))
            image[at:at + len(data)] = data
            self.assertEqual(volume.check(image)[0], number, text)
            refused = (number, 0) if 1 <= number <= 4 else None
            for name in (b'', b'N' * 256):
                self.gives(image, name, *(refused or (12, 0)))
            self.gives(image, b'none', *(refused or (13, 1)))
            if number == 6:
                self.gives(image, b'Rates', 13, 1)
            elif not refused:
                self.gives(image, b'Rates', 0, 1, b'RATES', 1)
        for length in (0, 512, 3584, 6143, 6145):
            image = (hall.hall() + b'\0')[:length]
            for name in (b'WEEK1', b'none', b'', b'N' * 256):
                self.gives(image, name, 1, 0)

    def test_most_blocks(self):
        """A directory of 256 blocks."""
        blocks = [[] for _ in range(256)]
        blocks[0], blocks[255] = [week(b'AAA')], [rates(b'BBB')]
        image = self.directory(*blocks)
        self.gives(image, b'aaa', 0, 0, b'AAA', 1)
        self.gives(image, b'bbb', 0, 1, b'BBB', 256)
        self.gives(image, b'ccc', 13, 256)

    def test_by_chance(self):
        rng = random.Random(SEED + 17)
        seen = Counter()
        for _ in range(400):
            pool = quick.fresh(rng, 7, quick.LENGTHS + (40, 255))
            pages = [quick.any_page(rng, pool)
                     for _ in range(rng.randint(1, 4))]
            image = quick.disk(rng, pages).image()
            for name in pool + [b'', maker.near_name(rng, pool[0])]:
                name = maker.other_case(rng, name)
                got = volume.quick_find(image, name)
                self.assertEqual(got, plain_quick(image, name))
                if got[0] != 12:
                    place, looked = quick.where(pages, name)
                    self.assertEqual(got[0], 13 if place is None else 0)
                    self.assertEqual((got[1], got[3]), (place or 0, looked))
                seen[got[0]] += 1
        for number in (0, 12, 13):
            self.assertGreaterEqual(seen[number], 300)

    def test_list(self):
        """Each quick find of the list's own runs: by the plain reading, and on
        an accepted image as find."""
        tape, seen = tapes.Tape(), Counter()
        quick.runs(tape)
        machine = replay.Machine()
        for record in tape.records:
            machine.run(record)
            if record[:1] != b'Q':
                continue
            image, name = machine.image, record[3:]
            got = volume.quick_find(image, name)
            self.assertEqual(got, plain_quick(image, name))
            accepted = volume.check(image)[0] == 0
            if accepted:
                self.assertEqual(got[:3], volume.find(image, name))
            seen[accepted, got[0]] += 1
        self.assertEqual(machine.output(), tape.output())
        for accepted in (False, True):
            for number in (0, 13):
                self.assertGreaterEqual(seen[accepted, number], 200)

    def test_record(self):
        record = replay.quick_find
        self.assertEqual(record(b'AB'), b'Q\0\2AB')
        image = hall.hall()
        total = replay.total(image)
        start = replay.image(image)
        self.assertEqual(
            replay.replay(start + record(b'rates') + record(b'none')
                          + record(b'') + record(bytes(256))),
            b'Q 0 1 128 %s 2 3 512 512 0 0 0 2500000000 2500000000 '
            b'5241544553 1 %d\nQ 13 1 %d\nQ 12 %d\nQ 12 %d\n'
            % (b'0' * 32, total, total, total, total))
        image[1024] = 0
        self.assertEqual(
            replay.replay(replay.image(image) + record(b'rates')),
            b'Q 2 %d\n' % replay.total(image))
        self.assertEqual(replay.replay(record(b'A')), b'Q 1 0\n')
        for cut in (1, 2, 3, 4):
            self.assertEqual(replay.replay(record(b'AB')[:cut]),
                             b'bad record\n')
        self.assertEqual(replay.replay(record(bytes(1025))), b'too long\n')
        self.assertEqual(replay.replay(b'Q\4\1'), b'too long\n')

    def test_wrapped(self):
        """A wrapped file is an image of wrong length; a bare image said to be
        wrapped is read as it is."""
        rng = random.Random(SEED + 18)
        disk = maker.disk_400k(rng, base='sparse')
        image = disk.image()
        record = replay.quick_find(disk.files()[-1].name)
        for tags in (False, True):
            file = wrapper.Wrapper(rng, tags=tags).file(image)
            self.assertEqual(replay.replay(replay.wrapped(file) + record),
                             b'Q 1 %d\n' % replay.total(file))
        bare = replay.replay(replay.image(image) + record)
        self.assertEqual(bare[:4], b'Q 0 ')
        self.assertEqual(replay.replay(replay.wrapped(image) + record), bare)


def load_tests(loader, tests, pattern):
    tests.addTests(loader.loadTestsFromTestCase(hall.Cases))
    return tests


if __name__ == '__main__':
    sys.exit(not unittest.main(exit=False).result.wasSuccessful())
