"""The nine calls on a volume image, straight from the rules of document 01
and, for number 21, of T-01 in document 02; and rename and quick find, from
T-05 and T-08 there.  A write takes whole clumps by T-07.  Names compare by
spelling.py.

The image is a bytearray.  Each call gives the number first: 0, or the number
of the refusal.  A refusal changes no byte and its other results are zero, but
for the blocks that quick find looked at where it gives 13.

    check(image)                                       number, Facts
    entry(image, place)                                number, Entry
    find(image, name)                                  number, place, Entry
    block(image, name, fork, place)                    number, block
    read(image, name, fork, offset, buffer)            number, count
    create(image, name, finder, created, changed)      number
    write(image, name, fork, offset, data, changed)    number
    cut(image, name, fork, length, changed)            number
    delete(image, name)                                number
    rename(image, old, new, changed)                   number
    quick_find(image, name)                            number, place, Entry,
                                                       blocks looked at
"""

from collections import namedtuple
import struct

import spelling

DATA, RESOURCE = 0, 1

LOGICAL_BLOCK = 512
INFO_AT = 1024
MAP_AT = 1088
ENTRY_HEAD = 51             # bytes of an entry before the name's first byte
LAST_NUMBER = 4294967295
LONGEST_NEW = 31            # bytes of a name that create and rename give

Facts = namedtuple('Facts', (
    'created', 'backup', 'attributes', 'files', 'dir_start', 'dir_length',
    'blocks', 'block_size', 'clump', 'area', 'next_number', 'free', 'name'))

Entry = namedtuple('Entry', (
    'flags', 'finder', 'number', 'forks', 'created', 'changed', 'name'))

Fork = namedtuple('Fork', ('start', 'logical', 'physical'))

NO_FORK = Fork(0, 0, 0)
NO_FACTS = Facts(0, 0, 0, 0, 0, 0, 0, 0, 0, 0, 0, 0, b'')
NO_ENTRY = Entry(0, bytes(16), 0, (NO_FORK, NO_FORK), 0, 0, b'')

INFO = struct.Struct('>HIIHHHHHIIHIH')          # the 36 bytes before the name
HEAD = struct.Struct('>BB16sIHIIHIIIIB')        # the 51 bytes before the name
FORK = struct.Struct('>HII')
FORK_AT = (22, 32)
CHANGED_AT = 46


class Refused(Exception):
    def __init__(self, number):
        super().__init__(number)
        self.number = number


def even(size):
    return size + size % 2


def entry_size(name):
    return even(ENTRY_HEAD + len(name))


def blocks_for(length, block_size):
    """The fewest blocks that hold this many bytes."""
    return -(-length // block_size)


def blocks_needed(have, length, block_size):
    """The new blocks that a fork which has so many needs to hold this many
    bytes."""
    return max(0, blocks_for(length, block_size) - have)


def clump_blocks(clump, block_size):
    """The blocks in a clump; one where the clump size does not count."""
    if clump < block_size or clump % block_size:
        return 1
    return clump // block_size


def blocks_taken(have, needed, free, clump):
    """The new blocks that a write takes for a fork which has so many: none
    where none is needed; else as many as make the fork's count one of whole
    clumps of so many blocks, if they are free, or only the needed ones."""
    if needed == 0:
        return 0
    rounded = needed + -(have + needed) % clump
    return rounded if rounded <= free else needed


def split_map(raw):
    """The 12-bit entries of a run of map bytes, three bytes for each pair."""
    entries = []
    for i in range(0, len(raw), 3):
        x, y, z = raw[i], raw[i + 1], raw[i + 2]
        entries.append(x << 4 | y >> 4)
        entries.append((y & 15) << 8 | z)
    return entries


class Placed:
    """An entry, the byte where it starts, its size, which directory block
    holds it, and the blocks of its two forks."""

    def __init__(self, entry, at, size, dir_block):
        self.entry = entry
        self.at = at
        self.size = size
        self.dir_block = dir_block
        self.chains = [[], []]


class Directory:
    """The facts, and the directory's blocks one by one.  Raises Refused at the
    first of the checks 1 to 4 that fires."""

    fold = staticmethod(spelling.fold)

    def __init__(self, image):
        self.image = image
        self.read_facts()

    # checks 1 to 4

    def read_facts(self):
        image = self.image
        if len(image) % LOGICAL_BLOCK:
            raise Refused(1)
        image_blocks = len(image) // LOGICAL_BLOCK
        if not 8 <= image_blocks <= 65535:
            raise Refused(1)
        (signature, created, backup, attributes, files, dir_start, dir_length,
         n, a, clump, s, next_number, free) = INFO.unpack_from(image, INFO_AT)
        if signature != 0xD2D7:
            raise Refused(2)
        if a % 512 or not 512 <= a <= 32768:
            raise Refused(3)
        if not 1 <= n <= 640:
            raise Refused(3)
        if not 1 <= dir_length <= 256 or dir_start < 4:
            raise Refused(3)
        if dir_start + dir_length > s:
            raise Refused(3)
        if s + n * (a // 512) > image_blocks - 2:
            raise Refused(3)
        if next_number == 0:
            raise Refused(3)
        name_length = image[INFO_AT + 36]
        if name_length > 27:
            raise Refused(4)
        name = bytes(image[INFO_AT + 37:INFO_AT + 37 + name_length])
        self.facts = Facts(created, backup, attributes, files, dir_start,
                           dir_length, n, a, clump, s, next_number, free, name)

    # check 6

    def read_block(self, d):
        """The entries of directory block d, one after another.  Raises Refused
        at one that crosses its block, has name length 0 or version other than
        0."""
        image = self.image
        at = (self.facts.dir_start + d) * LOGICAL_BLOCK
        end = at + LOGICAL_BLOCK
        while at < end and image[at] & 0x80:
            if at + ENTRY_HEAD > end:
                raise Refused(6)
            (flags, version, finder, number, start0, logical0, physical0,
             start1, logical1, physical1, created, changed,
             name_length) = HEAD.unpack_from(image, at)
            size = even(ENTRY_HEAD + name_length)
            if at + size > end or name_length == 0 or version != 0:
                raise Refused(6)
            name_at = at + ENTRY_HEAD
            forks = (Fork(start0, logical0, physical0),
                     Fork(start1, logical1, physical1))
            yield Placed(
                Entry(flags, finder, number, forks, created, changed,
                      bytes(image[name_at:name_at + name_length])),
                at, size, d)
            at += size

    # check 12

    def refuse_name(self, name):
        if not 1 <= len(name) <= 255:
            raise Refused(12)


class Volume(Directory):
    """All that the checks 1 to 10 read.  Raises Refused at the first check
    that fires."""

    def __init__(self, image):
        super().__init__(image)
        self.read_map()
        self.read_directory()
        self.check_files()
        self.walk_forks()

    # check 5

    def read_map(self):
        """self.map[b] is the entry of allocation block b; the places 0 and 1
        stand for no block."""
        n = self.facts.blocks
        pairs = (n + 1) // 2
        entries = [0, 0] + split_map(self.image[MAP_AT:MAP_AT + 3 * pairs])
        del entries[n + 2:]                     # dead space where n is odd
        if max(entries) > n + 1:
            raise Refused(5)
        self.map = entries

    # check 6

    def read_directory(self):
        self.entries = []
        self.ends = []              # where each block's reading ends
        for d in range(self.facts.dir_length):
            at = (self.facts.dir_start + d) * LOGICAL_BLOCK
            for placed in self.read_block(d):
                self.entries.append(placed)
                at += placed.size
            self.ends.append(at)

    # check 7

    def check_files(self):
        facts = self.facts
        if len(self.entries) != facts.files:
            raise Refused(7)
        numbers = set()
        self.places = {}                        # folded name -> place
        for place, placed in enumerate(self.entries):
            number = placed.entry.number
            if number == 0 or number >= facts.next_number or number in numbers:
                raise Refused(7)
            numbers.add(number)
            key = self.fold(placed.entry.name)
            if key in self.places:
                raise Refused(7)
            self.places[key] = place

    # checks 8 to 10

    def walk_forks(self):
        n, a = self.facts.blocks, self.facts.block_size
        owned = [False] * (n + 2)
        for placed in self.entries:
            for which, fork in enumerate(placed.entry.forks):
                if fork.start == 0:
                    if fork.logical or fork.physical:
                        raise Refused(8)
                    continue
                if fork.physical == 0 or fork.physical % a:
                    raise Refused(8)
                if fork.logical > fork.physical:
                    raise Refused(8)
                placed.chains[which] = self.walk(
                    fork.start, fork.physical // a, owned)
        for b in range(2, n + 2):
            if self.map[b] and not owned[b]:
                raise Refused(9)
        if self.facts.free != self.map.count(0) - 2:
            raise Refused(10)

    def walk(self, start, count, owned):
        """The chain of exactly count blocks from start.  Each step takes a
        block that no step took before, so there are at most n steps however
        large the count is: a ring, or a block of another fork, ends it."""
        n = self.facts.blocks
        chain = []
        b = start
        while True:
            if not 2 <= b <= n + 1 or owned[b]:
                raise Refused(8)
            owned[b] = True
            chain.append(b)
            b = self.map[b]
            if len(chain) == count:
                if b != 1:
                    raise Refused(8)
                return chain

    # checks after 10

    def refuse_locked(self):
        if self.facts.attributes & 0x8080:
            raise Refused(11)

    def refuse_long(self, name):
        if len(name) > LONGEST_NEW:
            raise Refused(21)

    def place_of(self, name):
        self.refuse_name(name)
        place = self.places.get(self.fold(name))
        if place is None:
            raise Refused(13)
        return place

    def file_of(self, name):
        return self.entries[self.place_of(name)]

    def file_to_change(self, name):
        self.refuse_locked()
        placed = self.file_of(name)
        if placed.entry.flags & 1:
            raise Refused(15)
        return placed

    # places and stores

    def byte_of(self, b):
        """The byte where allocation block b starts."""
        return 512 * self.facts.area + (b - 2) * self.facts.block_size

    def pieces(self, chain, offset, length):
        """The runs of image bytes that hold length fork bytes at offset."""
        a = self.facts.block_size
        while length > 0:
            skip = offset % a
            run = min(a - skip, length)
            yield self.byte_of(chain[offset // a]) + skip, run
            offset += run
            length -= run

    def store(self, at, size, value):
        self.image[at:at + size] = value.to_bytes(size, 'big')

    def store_files(self, count):
        self.store(INFO_AT + 12, 2, count)

    def store_next_number(self, number):
        self.store(INFO_AT + 30, 4, number)

    def store_free(self, count):
        self.store(INFO_AT + 34, 2, count)

    def store_map(self, b, value):
        """Stores one 12-bit entry and keeps its neighbour's half-byte."""
        pair, low = divmod(b - 2, 2)
        at = MAP_AT + 3 * pair
        image = self.image
        if low:
            image[at + 1] = image[at + 1] & 0xF0 | value >> 8
            image[at + 2] = value & 0xFF
        else:
            image[at] = value >> 4
            image[at + 1] = (value & 0x0F) << 4 | image[at + 1] & 0x0F

    def store_fork(self, placed, which, chain, logical):
        start = chain[0] if chain else 0
        physical = len(chain) * self.facts.block_size
        FORK.pack_into(self.image, placed.at + FORK_AT[which],
                       start, logical, physical)

    def free_blocks(self):
        """The free blocks, lowest number first."""
        return [b for b in range(2, self.facts.blocks + 2) if self.map[b] == 0]

    def join(self, chain, count):
        """Takes so many free blocks, lowest number first, joins them to the
        chain at its end, and gives the longer chain."""
        new = self.free_blocks()[:count]
        if chain:
            self.store_map(chain[-1], new[0])
        for b, following in zip(new, new[1:] + [1]):
            self.store_map(b, following)
        self.store_free(self.facts.free - count)
        return chain + new

    def dir_block_end(self, d):
        return (self.facts.dir_start + d + 1) * LOGICAL_BLOCK

    def with_room(self, size, ends):
        """The first directory block with this much behind the end of its
        reading."""
        for d, at in enumerate(ends):
            if self.dir_block_end(d) - at >= size:
                return d
        raise Refused(18)

    def take_out(self, placed):
        """Moves the later entries of the block up and clears what follows."""
        later = self.image[placed.at + placed.size:self.ends[placed.dir_block]]
        end = self.dir_block_end(placed.dir_block)
        self.image[placed.at:end] = later + bytes(end - placed.at - len(later))

    def put_in(self, d, at, raw):
        """Stores an entry's bytes and clears what follows in its block."""
        end = self.dir_block_end(d)
        self.image[at:end] = raw + bytes(end - at - len(raw))


def check(image):
    try:
        return 0, Volume(image).facts
    except Refused as refused:
        return refused.number, NO_FACTS


def entry(image, place):
    try:
        v = Volume(image)
        if place >= len(v.entries):
            raise Refused(13)
        return 0, v.entries[place].entry
    except Refused as refused:
        return refused.number, NO_ENTRY


def find(image, name):
    try:
        v = Volume(image)
        place = v.place_of(name)
        return 0, place, v.entries[place].entry
    except Refused as refused:
        return refused.number, 0, NO_ENTRY


def block(image, name, fork, place):
    try:
        chain = Volume(image).file_of(name).chains[fork]
        if place >= len(chain):
            raise Refused(16)
        return 0, chain[place]
    except Refused as refused:
        return refused.number, 0


def read(image, name, fork, offset, buffer):
    try:
        v = Volume(image)
        placed = v.file_of(name)
        logical = placed.entry.forks[fork].logical
        if offset > logical:
            raise Refused(16)
        count = min(len(buffer), logical - offset)
        to = 0
        for at, run in v.pieces(placed.chains[fork], offset, count):
            buffer[to:to + run] = image[at:at + run]
            to += run
        return 0, count
    except Refused as refused:
        return refused.number, 0


def create(image, name, finder, created, changed):
    try:
        v = Volume(image)
        v.refuse_locked()
        v.refuse_name(name)
        v.refuse_long(name)
        if v.fold(name) in v.places:
            raise Refused(14)
        if v.facts.next_number == LAST_NUMBER:
            raise Refused(19)
        d = v.with_room(entry_size(name), v.ends)
    except Refused as refused:
        return refused.number
    head = HEAD.pack(0x80, 0, bytes(finder), v.facts.next_number,
                     0, 0, 0, 0, 0, 0, created, changed, len(name))
    v.put_in(d, v.ends[d], head + name)
    v.store_next_number(v.facts.next_number + 1)
    v.store_files(v.facts.files + 1)
    return 0


def write(image, name, fork, offset, data, changed):
    try:
        v = Volume(image)
        placed = v.file_to_change(name)
        logical = placed.entry.forks[fork].logical
        if offset > logical:
            raise Refused(16)
        logical = max(logical, offset + len(data))
        chain, facts = placed.chains[fork], v.facts
        needed = blocks_needed(len(chain), logical, facts.block_size)
        if needed > facts.free:
            raise Refused(17)
    except Refused as refused:
        return refused.number
    taken = blocks_taken(len(chain), needed, facts.free,
                         clump_blocks(facts.clump, facts.block_size))
    if taken:
        chain = v.join(chain, taken)
    v.store_fork(placed, fork, chain, logical)
    v.store(placed.at + CHANGED_AT, 4, changed)
    done = 0
    for at, run in v.pieces(chain, offset, len(data)):
        image[at:at + run] = data[done:done + run]
        done += run
    return 0


def cut(image, name, fork, length, changed):
    try:
        v = Volume(image)
        placed = v.file_to_change(name)
        if length > placed.entry.forks[fork].logical:
            raise Refused(16)
    except Refused as refused:
        return refused.number
    chain = placed.chains[fork]
    keep = blocks_for(length, v.facts.block_size)
    kept, dropped = chain[:keep], chain[keep:]
    if kept:
        v.store_map(kept[-1], 1)
    for b in dropped:
        v.store_map(b, 0)
    v.store_free(v.facts.free + len(dropped))
    v.store_fork(placed, fork, kept, length)
    v.store(placed.at + CHANGED_AT, 4, changed)
    return 0


def delete(image, name):
    try:
        v = Volume(image)
        placed = v.file_to_change(name)
    except Refused as refused:
        return refused.number
    dropped = placed.chains[DATA] + placed.chains[RESOURCE]
    for b in dropped:
        v.store_map(b, 0)
    v.store_free(v.facts.free + len(dropped))
    v.store_files(v.facts.files - 1)
    v.take_out(placed)
    return 0


def rename(image, old, new, changed):
    try:
        v = Volume(image)
        v.refuse_locked()
        v.refuse_name(old)
        v.refuse_name(new)
        v.refuse_long(new)
        placed = v.file_to_change(old)
        other = v.places.get(v.fold(new))
        if other is not None and v.entries[other] is not placed:
            raise Refused(14)
        size = entry_size(new)
        stays = size == placed.size
        if not stays:
            ends = list(v.ends)
            ends[placed.dir_block] -= placed.size   # once it is out
            d = v.with_room(size, ends)
    except Refused as refused:
        return refused.number
    raw = image[placed.at:placed.at + CHANGED_AT]
    raw += struct.pack('>IB', changed, len(new)) + new
    raw += bytes(size - len(raw))                   # the pad byte
    if stays:
        image[placed.at:placed.at + size] = raw
    else:
        v.take_out(placed)
        v.put_in(d, ends[d], raw)
    return 0


def quick_find(image, name):
    """From the checks 1 to 4 and the directory blocks up to the one that has
    the name.  A block's reading stops at an entry that check 6 would refuse,
    and the next block is read."""
    try:
        directory = Directory(image)
        directory.refuse_name(name)
    except Refused as refused:
        return refused.number, 0, NO_ENTRY, 0
    wanted = directory.fold(name)
    place = 0                       # counted over the entries so read
    for d in range(directory.facts.dir_length):
        try:
            for placed in directory.read_block(d):
                if directory.fold(placed.entry.name) == wanted:
                    return 0, place, placed.entry, d + 1
                place += 1
        except Refused:
            continue
    return 13, 0, NO_ENTRY, directory.facts.dir_length
