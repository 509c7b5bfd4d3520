"""Makes volumes of many shapes, and damaged ones, from a random.Random.

The bytes come from a writer of its own; none of the nine calls is used.  All
that document 01 leaves free is filled with garbage: the dead half-byte, bytes
behind the map, behind a directory block's reading, pad bytes, boot and backup
blocks, gaps, free blocks, bytes behind logical ends and behind the volume
name, and the bits of flags and attributes that have no meaning here.  Names
have up to 255 bytes, as on old volumes, though create takes no more than 31.
"""

import copy
import struct

import spelling

TOP = 4294967295


class Fork:
    """A chain of allocation blocks in order, and the three stored fields."""

    def __init__(self):
        self.blocks = []
        self.start = self.logical = self.physical = 0


class File:
    def __init__(self, name):
        self.name = name
        self.flags = 0x80
        self.version = 0
        self.finder = bytes(16)
        self.number = 0
        self.forks = [Fork(), Fork()]
        self.created = self.changed = 0
        self.pad = 0

    def size(self):
        return (len(self.name) + 52) // 2 * 2

    def raw(self):
        data, resource = self.forks
        head = struct.pack(
            '>BB16sIHIIHIIIIB', self.flags, self.version, self.finder,
            self.number, data.start, data.logical, data.physical,
            resource.start, resource.logical, resource.physical,
            self.created, self.changed, len(self.name) & 255)
        return (head + self.name + bytes([self.pad]))[:self.size()]


FACTS = ('signature', 'created', 'backup', 'attributes', 'file_count',
         'dir_start', 'dir_length', 'n', 'a', 'clump', 's', 'next_number',
         'free')


class Made:
    """What a volume holds, as plain fields; image() writes it out.

    For damage: wrong holds facts to store in the place of the true ones,
    patches holds bytes to put over the finished image, and length, where it
    is not None, is the image's length in the end.
    """

    def image(self):
        out = bytearray(self.base)
        struct.pack_into(
            '>HIIHHHHHIIHIHB', out, 1024,
            *(self.wrong.get(fact, getattr(self, fact)) for fact in FACTS),
            len(self.name))
        out[1061:1061 + len(self.name)] = self.name
        # the map as hex digits, three for each entry
        digits = ''.join('%03x' % value for value in self.map)
        if len(digits) % 2:
            digits += '%x' % (out[1088 + len(digits) // 2] & 15)
        out[1088:1088 + len(digits) // 2] = bytes.fromhex(digits)
        for d, files in enumerate(self.directory):
            at = 512 * (self.dir_start + d)
            raw = b''.join(file.raw() for file in files)
            out[at:at + len(raw)] = raw
            if len(raw) < 512:
                out[at + len(raw)] &= 0x7F
        for at, data in self.patches:
            out[at:at + len(data)] = data
        if self.length is not None:
            out = (out + bytes(max(0, self.length - len(out))))[:self.length]
        return out

    def files(self):
        """All files in directory order."""
        return [file for files in self.directory for file in files]

    def forks(self):
        """All forks that have blocks."""
        return [fork for file in self.files() for fork in file.forks
                if fork.blocks]

    def free_blocks(self):
        return [i + 2 for i, value in enumerate(self.map) if value == 0]

    def byte_of(self, b):
        return 512 * self.s + (b - 2) * self.a

    def contents(self, fork):
        runs = [self.base[self.byte_of(b):self.byte_of(b) + self.a]
                for b in fork.blocks]
        return bytes(b''.join(runs))[:fork.logical]

    def entry_at(self, wanted):
        """The byte where a file's entry starts, and its block's end."""
        for d, files in enumerate(self.directory):
            at = 512 * (self.dir_start + d)
            end = at + 512
            for file in files:
                if file is wanted:
                    return at, end
                at += file.size()
        raise ValueError('no such file')

    def tail_at(self, d):
        """The byte behind the last entry of directory block d, and its end."""
        at = 512 * (self.dir_start + d)
        return at + sum(f.size() for f in self.directory[d]), at + 512

    def set_map(self, b, value):
        self.map[b - 2] = value

    def patch(self, at, data):
        self.patches.append((at, bytes(data)))

    def tie(self, fork):
        """Sets the stored fields and the map from the fork's blocks."""
        fork.start = fork.blocks[0] if fork.blocks else 0
        fork.physical = len(fork.blocks) * self.a
        for b, following in zip(fork.blocks, fork.blocks[1:] + [1]):
            self.set_map(b, following)
        self.free = len(self.free_blocks())

    def copy(self):
        return copy.deepcopy(self)


# Names

EDGE_BYTES = b'@AZ[`az{\x00\x1f\x20\x7e\x7f\x80\xc1\xe1\xda\xfa\xff:/?'
ACCENTED_BYTES = bytes(sorted(spelling.HIGH)) + b'aceinouyACEINOUY 1'


def some_bytes(rng, length):
    if length == 0:
        return b''
    return rng.getrandbits(8 * length).to_bytes(length, 'big')


def any_name(rng, length):
    kind = rng.randrange(5)
    if kind == 0:
        return some_bytes(rng, length)
    if kind == 1:
        return bytes(rng.choice(EDGE_BYTES) for _ in range(length))
    if kind == 2:
        return accented_name(rng, length)
    letters = b'abcdefghijklmnopqrstuvwxyzABCDEFGHIJKLMNOPQRSTUVWXYZ0123456789 '
    return bytes(rng.choice(letters) for _ in range(length))


def accented_name(rng, length):
    return bytes(rng.choice(ACCENTED_BYTES) for _ in range(length))


def near_name(rng, name):
    """A name that differs from this one in one byte, so that a careless
    folding takes the two for equal."""
    i = rng.randrange(len(name))
    return (name[:i] + bytes([rng.choice(spelling.NEAR[name[i]])])
            + name[i + 1:])


def new_name(rng, length, used, some_name=any_name):
    """A name that equals none of the used ones without case."""
    folded = {spelling.fold(name) for name in used}
    same = [name for name in used if len(name) == length]
    for _ in range(100):
        if same and rng.random() < 0.2:
            name = near_name(rng, rng.choice(same))
        else:
            name = some_name(rng, length)
        if spelling.fold(name) not in folded:
            return name
    return None


def other_case(rng, name):
    """The same name with the case of some letters changed, accented ones
    too."""
    return bytes(other if other != b and rng.random() < 0.5 else b
                 for b, other in zip(name, spelling.swapped(name)))


PLACES = ('first', 'middle', 'last')


def put(place, byte, text):
    """The text with this byte put in at one of the PLACES."""
    at = {'first': 0, 'middle': len(text) // 2, 'last': len(text)}[place]
    return text[:at] + bytes([byte]) + text[at:]


def name_length(rng):
    return rng.choice((1, 2, 5, 8, 12, 20, 31, 32, 254, 255,
                       rng.randint(1, 60), rng.randint(1, 255)))


def new_length(rng):
    """The length of a name that create takes."""
    return rng.choice((1, 2, 5, 8, 12, 20, 30, 31, 31,
                       rng.randint(1, 31), rng.randint(1, 31)))


def long_length(rng):
    """The length of a name that only an old file has."""
    return rng.choice((32, 32, 33, 253, 254, 255, rng.randint(32, 255)))


def length_for(rng, size):
    """The length of a name whose entry has this size."""
    return rng.choice((size - 51, max(1, size - 52)))


# Shapes

def lengths_in_block(rng, style):
    """Name lengths for one directory block.

    empty   no entry
    some    one to four entries
    full    entries up to the last byte
    nearly  2 to 50 bytes left, too few for any entry
    short   nine names of about one byte
    """
    if style == 'empty':
        return []
    if style == 'short':
        return [rng.randint(1, 3) for _ in range(9)]
    if style == 'some':
        lengths, left = [], 512
        for _ in range(rng.randint(1, 4)):
            length = name_length(rng)
            size = (length + 52) // 2 * 2
            if size <= left:
                lengths.append(length)
                left -= size
        return lengths
    left = 512
    if style == 'nearly':
        left -= 2 * rng.randint(1, 25)
    lengths = []
    while left > 306 or (left >= 104 and rng.random() < 0.6):
        size = min((name_length(rng) + 52) // 2 * 2, left - 52)
        lengths.append(length_for(rng, size))
        left -= size
    lengths.append(length_for(rng, left))
    return lengths


def base_bytes(rng, size, kind):
    """What lies under the fields: zeros, random bytes, a pattern that repeats
    (with an odd length, so that no two blocks look alike), or zeros and here
    and there a block of random bytes."""
    if kind == 'zero':
        return bytearray(size)
    if kind == 'sparse':
        return bytearray(b''.join(
            some_bytes(rng, 512) if rng.random() < 0.05 else bytes(512)
            for _ in range(size // 512)))
    if kind == 'random':
        return bytearray(some_bytes(rng, size))
    pattern = some_bytes(rng, 1021)
    return bytearray((pattern * (size // 1021 + 1))[:size])


def make(rng, limit=24, per=None, n=None, dir_start=None, dir_length=None,
         s=None, size=None, tight=False, styles=None, full_disk=False,
         free_most=False, surplus=0.3, locked=None, file_locks=0.15,
         next_kind=None, base=None, first=(), names=None):
    """A volume that every check accepts.

    limit     most logical blocks of the image (more if the rest needs more)
    per       logical blocks in an allocation block
    n         allocation blocks
    tight     no gap and no spare block anywhere
    styles    what to choose each directory block's filling from
    full_disk no free block (where there is a file at all)
    free_most few blocks in use
    surplus   chance of a fork with more blocks than it needs
    locked    whether the volume is locked
    file_locks chance of a locked file
    next_kind next file number: small, any, near the end, or at the end
    base      what lies under the fields: zero, random, pattern or sparse
    first     block counts of the first forks that are filled
    names     the files' names, in the place of names by chance
    """
    m = Made()
    m.wrong = {}
    m.patches = []
    m.length = None
    size = lay_out(rng, m, limit, per, n, dir_start, dir_length, s, size,
                   tight)
    base = base or rng.choice(('zero', 'random', 'random', 'random'))
    m.base = base_bytes(rng, 512 * size, base)
    fill_facts(rng, m, locked)
    if names is None:
        m.directory = any_directory(rng, m.dir_length, styles)
    else:
        m.directory = given_names(names, m.dir_length)
    fill_entries(rng, m, file_locks)
    fill_numbers(rng, m, next_kind)
    fill_forks(rng, m, full_disk, free_most, first)
    fill_lengths(rng, m, surplus)
    return m


def lay_out(rng, m, limit, per, n, dir_start, dir_length, s, size, tight):
    """Sizes and places; gives the image's size in logical blocks."""
    limit = max(limit, 6 + (dir_length or 1) + (per or 1) * (n or 1))
    if per is None:
        sizes = (1, 1, 1, 1, 2, 2, 2, 3, 4, 8, 64, rng.randint(1, 64))
        most = limit - 6 - (dir_length or 1)
        per = rng.choice([p for p in sizes if p * (n or 1) <= most])
    room = limit - 6 - per * (n or 1)       # blocks not yet given away
    if dir_length is None:
        dir_length = 1
        if not tight and rng.random() < 0.4:
            dir_length = rng.randint(1, min(4, room))
    room -= dir_length

    def gap():
        if tight or rng.random() < 0.5:
            return 0
        return rng.randint(0, min(2, room))

    if dir_start is None:
        dir_start = 4 + gap()
        room -= dir_start - 4
    if s is None:
        s = dir_start + dir_length + gap()
        room -= s - dir_start - dir_length
    if n is None:
        most = min(640, 1 + room // per)
        n = most if tight or rng.random() < 0.5 else rng.randint(1, most)
    if size is None:
        room = max(0, limit - 2 - s - n * per)
        size = s + n * per + 2 + gap()
    m.n, m.a, m.s = n, 512 * per, s
    m.dir_start, m.dir_length = dir_start, dir_length
    return size


def fill_facts(rng, m, locked):
    m.signature = 0xD2D7
    m.created, m.backup = rng.getrandbits(32), rng.getrandbits(32)
    m.attributes = rng.choice((0, rng.getrandbits(16))) & 0x7F7F
    if locked is None:
        locked = rng.random() < 0.1
    if locked:
        m.attributes |= rng.choice((0x80, 0x8000, 0x8080))
    m.clump = rng.getrandbits(32)
    m.name = any_name(rng, rng.choice((0, 1, 4, 26, 27, rng.randint(0, 27))))


def any_directory(rng, dir_length, styles):
    """Files with names by chance, a list of them for each block."""
    styles = styles or ('empty', 'some', 'some', 'some', 'full', 'nearly',
                        'short')
    used = []
    directory = []
    for _ in range(dir_length):
        files = []
        for length in lengths_in_block(rng, rng.choice(styles)):
            name = new_name(rng, length, used)
            if name is not None:
                used.append(name)
                files.append(File(name))
        directory.append(files)
    return directory


def given_names(names, dir_length):
    """Files with these names, put into the directory blocks in order."""
    directory = [[]]
    for name in names:
        file = File(name)
        if sum(f.size() for f in directory[-1]) + file.size() > 512:
            directory.append([])
        directory[-1].append(file)
    return directory + [[] for _ in range(dir_length - len(directory))]


def fill_entries(rng, m, file_locks):
    for file in m.files():
        file.flags = 0x80 | rng.choice((0, rng.getrandbits(8) & 0x7E))
        if rng.random() < file_locks:
            file.flags |= 1
        file.finder = some_bytes(rng, 16)
        file.created, file.changed = rng.getrandbits(32), rng.getrandbits(32)
        file.pad = rng.choice((0, rng.getrandbits(8)))


def fill_numbers(rng, m, kind):
    """The number of files, the next file number, and a number below it for
    each file; often the last one that is allowed."""
    files = m.files()
    m.file_count = count = len(files)
    kind = kind or rng.choice(('small', 'small', 'any', 'near', 'end'))
    m.next_number = {
        'end': TOP,
        'near': TOP - rng.randint(1, 3),
        'small': count + 1 + rng.choice((0, 0, rng.randint(0, 9))),
        'any': rng.randint(count + 1, TOP)}[kind]
    lowest = 1
    if rng.random() < 0.3:
        lowest = max(1, m.next_number - 100000)
    numbers = rng.sample(range(lowest, m.next_number), count)
    if count and rng.random() < 0.3 and m.next_number - 1 not in numbers:
        numbers[-1] = m.next_number - 1
    for file, number in zip(files, numbers):
        file.number = number


def fill_forks(rng, m, full_disk, free_most, first):
    """Gives blocks to forks, in any order, and leaves some free."""
    n = m.n
    pool = list(range(2, n + 2))
    order = rng.random()
    if order < 0.7:
        rng.shuffle(pool)
    elif order < 0.85:
        pool.reverse()
    leave = rng.choice((0, rng.randint(0, n // 2), rng.randint(0, n)))
    if full_disk:
        leave = 0
    if free_most:
        leave = n - min(n, 4)
    if first:
        leave = min(2 + rng.randint(0, n), n - sum(first))
    wanting = [fork for file in m.files() for fork in file.forks]
    rng.shuffle(wanting)
    counts = list(first)
    for fork in wanting:
        k = rng.choice((0, 0, 1, 1, 2, 3, rng.randint(0, 12),
                        rng.randint(0, n)))
        if counts:
            k = counts.pop()
        while k > 0 and len(pool) > leave:
            fork.blocks.append(pool.pop())
            k -= 1
    if full_disk and wanting:
        rng.choice(wanting).blocks.extend(pool)
    m.map = [0] * n
    m.free = n
    for fork in wanting:
        m.tie(fork)


def fill_lengths(rng, m, surplus):
    """Logical lengths: the last block full, or partly, or not needed."""
    for fork in m.forks():
        most = fork.physical
        least = most - m.a          # what one block less would hold
        if rng.random() < surplus:
            fork.logical = rng.choice((0, least, rng.randint(0, least)))
        else:
            fork.logical = rng.choice((most, most - 1, least + 1,
                                       rng.randint(least + 1, most)))


def smallest(rng):
    """Eight blocks: one directory block and one allocation block."""
    return make(rng, limit=8, per=1, tight=True)


def disk_400k(rng, **want):
    """800 blocks, S = 16, A = 1,024, N = 391, which ends at the backup."""
    usual = {'limit': 800, 'per': 2, 'n': 391, 'dir_start': 4,
             'dir_length': 12, 's': 16, 'size': 800, 'locked': False,
             'next_kind': 'small', 'base': 'pattern', 'file_locks': 0.1,
             'styles': ('some', 'full', 'nearly')}
    return make(rng, **{**usual, **want})


def disk_400k_of_640(rng, **want):
    """800 blocks, A = 512, N = 640."""
    return disk_400k(rng, **{'per': 1, 'n': 640, 'dir_start': 5, 's': 20,
                             'next_kind': 'any', **want})


def most_blocks(rng, n=640):
    """N = 640, or one more than is allowed."""
    return make(rng, limit=7 + n, per=1, n=n, tight=True, locked=False,
                next_kind='small', styles=('some',), base='pattern')


def longest_directory(rng, dir_length=256):
    """A directory of 256 blocks, or one more than is allowed."""
    return make(rng, limit=20 + dir_length, per=1, n=12, tight=True,
                dir_length=dir_length, locked=False, base='pattern',
                styles=('empty',) * 9 + ('some',))


def largest_blocks(rng, per=64):
    """A = 32,768, or 512 more than is allowed."""
    return make(rng, limit=7 + per, per=per, n=1, tight=True, base='pattern',
                styles=('some',), full_disk=True)


def rich(rng, per=None, **want):
    """A small volume with all that the damages need: at least two files in a
    directory block, forks of three and of two blocks, an empty fork and two
    free blocks."""
    per = per or rng.choice((1,) * 7 + (2,))
    want.setdefault('styles', ('some',))
    want.setdefault('dir_length', 1)
    while True:
        n = rng.randint(7, 9)
        m = make(rng, limit=8 + n * per + want['dir_length'], per=per, n=n,
                 first=(2, 3), **want)
        sizes = sorted(len(fork.blocks) for fork in m.forks())
        if (len(sizes) >= 2 and sizes[-1] >= 3 and sizes[-2] >= 2
                and len(m.files()) >= 2 and m.free >= 2
                and len(sizes) < 2 * len(m.files())):
            return m


def directory_for(names):
    """The directory blocks that these names fill."""
    return len(given_names(names, 0))


def every_byte(rng, left_out=spelling.LOWER, place='first', text=b''):
    """A file for each byte at a place of the name, of two equal bytes only
    one, in any order."""
    names = [put(place, b, text) for b in spelling.BYTES if b not in left_out]
    rng.shuffle(names)
    return make(rng, limit=9, per=1, n=2, dir_length=directory_for(names) + 1,
                locked=False, file_locks=0, next_kind='small', names=names)


def accented_names(rng, count):
    """This many files with short accented names, and some blocks."""
    names = []
    while len(names) < count:
        name = new_name(rng, rng.choice((1, 2, 2, 3, 3, 4, 12)), names,
                        accented_name)
        if name is not None:
            names.append(name)
    return make(rng, limit=9, per=1, n=4, dir_length=directory_for(names) + 1,
                locked=False, next_kind='small', names=names)


def with_names(rng, names, **want):
    """Files with these names; each fork has blocks and bytes, and two or more
    blocks are free."""
    first = [rng.randint(1, 3) for _ in range(2 * len(names))]
    want.setdefault('dir_length', len(names))
    return make(rng, per=1, n=sum(first) + rng.randint(2, 6), surplus=0,
                first=first, names=names, **want)


def long_names(rng, **want):
    """Old long names and one of 31 bytes, in any order."""
    lengths = [31, 32, rng.randint(33, 253), 254, 255]
    rng.shuffle(lengths)
    names = []
    for length in lengths:
        names.append(new_name(rng, length, names))
    return with_names(rng, names, **want)


def little(rng):
    """Any volume of up to ten blocks."""
    return make(rng, limit=rng.randint(8, 10), per=1)


# Damage.  Each kind is a number, what is wrong, the shape it starts from,
# and what it does to that shape.

DAMAGES = []


def damage(number, text, shape=rich):
    def keep(change):
        DAMAGES.append((number, text, shape, change))
        return change
    return keep


def field(number, text, fact, values, shape=rich):
    """Damage by storing a wrong fact: one kind for each value, which may be
    a function of the random numbers and the volume."""
    for value in values:
        def change(rng, m, value=value):
            m.wrong[fact] = value(rng, m) if callable(value) else value
        label = text if callable(value) else '%s %s' % (text, value)
        DAMAGES.append((number, label, shape, change))


def longest(m):
    return max(m.forks(), key=lambda fork: len(fork.blocks))


def two_forks(rng, m):
    """Two forks, each of two or more blocks."""
    return rng.sample([f for f in m.forks() if len(f.blocks) >= 2], 2)


def empty_fork(rng, m):
    return rng.choice([fork for file in m.files() for fork in file.forks
                       if not fork.blocks])


def some_file(rng, m):
    return rng.choice(m.files())


# 1: the length

def length(text, find):
    def change(rng, m):
        m.length = find(m)
    DAMAGES.append((1, text, little, change))


for value in (0, 1, 511, 512, 1536, 3583, 3584, 4095):
    length('length %d' % value, lambda m, value=value: value)
length('length one more', lambda m: len(m.base) + 1)
length('length one less', lambda m: len(m.base) - 1)
length('length 256 more', lambda m: len(m.base) + 256)

# 2: the signature
field(2, 'signature', 'signature',
      (0, 0xD2D6, 0xD3D7, 0xD7D2, 0x4244, 0x52D7), little)

# 3: sizes and places
field(3, 'A', 'a', (0, 1, 256, 511, 513, 0x8001, 33280, 0x10000, 0x10200,
                    0x02000200, TOP), little)
field(3, 'A no multiple of 512, though it fits:', 'a', (768, 1023),
      lambda rng: make(rng, limit=12, per=2))
field(3, 'N', 'n', (0, 641, 1024, 65535), little)
field(3, 'directory length', 'dir_length', (0, 257, 65535), little)
field(3, 'directory start', 'dir_start', (0, 1, 2, 3, 65535), little)
field(3, 'directory end one beyond S', 'dir_start', (
    lambda rng, m: m.s - m.dir_length + 1,), little)
field(3, 'S one below directory end', 's', (
    lambda rng, m: m.dir_start + m.dir_length - 1,), little)
field(3, 'S', 's', (0, 65535), little)
field(3, 'S one too far', 's', (
    lambda rng, m: len(m.base) // 512 - 1 - m.n * m.a // 512,), little)
field(3, 'next file number', 'next_number', (0,), little)


@damage(3, 'image one block shorter than S and N need',
        lambda rng: make(rng, limit=rng.randint(9, 12), per=1, dir_start=5))
def _(rng, m):
    m.length = 512 * (m.s + m.n * m.a // 512 + 1)


# these shapes are large, so they are made only once
LARGE_DAMAGES = (
    (3, 'N = 641 and nothing else wrong', lambda rng: most_blocks(rng, 641)),
    (3, 'directory length 257 and nothing else wrong',
     lambda rng: longest_directory(rng, 257)),
    (3, 'A = 33,280 and nothing else wrong',
     lambda rng: largest_blocks(rng, 65)),
)


# 4: the volume name

def volume_name(size):
    def change(rng, m):
        m.patch(1060, [size])
    DAMAGES.append((4, 'volume name length %d' % size, little, change))


for value in (28, 29, 32, 128, 255):
    volume_name(value)


# 5: the map

@damage(5, 'free entry N+2')
def _(rng, m):
    m.set_map(rng.choice(m.free_blocks()), m.n + 2)


@damage(5, 'used entry N+2')
def _(rng, m):
    m.set_map(rng.choice(longest(m).blocks), m.n + 2)


@damage(5, 'first entry 4095')
def _(rng, m):
    m.set_map(2, 4095)


@damage(5, 'last entry 4095')
def _(rng, m):
    m.set_map(m.n + 1, 4095)


@damage(5, 'last entry N+2')
def _(rng, m):
    m.set_map(m.n + 1, m.n + 2)


@damage(5, 'any bad value anywhere')
def _(rng, m):
    m.set_map(rng.randint(2, m.n + 1), rng.randint(m.n + 2, 4095))


# 6: the directory's entries

@damage(6, 'version')
def _(rng, m):
    some_file(rng, m).version = rng.choice((1, 2, 128, 255))


@damage(6, 'name length 0')
def _(rng, m):
    at, _ = m.entry_at(some_file(rng, m))
    m.patch(at + 50, b'\0')


def crowded(rng):
    """A directory block with an entry near its end."""
    while True:
        m = rich(rng, styles=('full', 'nearly', 'short'))
        at, end = m.entry_at(m.directory[0][-1])
        if end - at <= 304:
            return m


@damage(6, 'entry one byte over the end', crowded)
def _(rng, m):
    at, end = m.entry_at(m.directory[0][-1])
    m.patch(at + 50, [end - at - 50])


@damage(6, 'name of 255 over the end',
        lambda rng: rich(rng, styles=('short',)))
def _(rng, m):
    at, end = m.entry_at(rng.choice(m.directory[0][-4:]))
    m.patch(at + 50, b'\xFF')


@damage(6, 'used entry where less than 51 bytes are left',
        lambda rng: rich(rng, styles=('nearly', 'short')))
def _(rng, m):
    at, end = m.tail_at(0)
    m.patch(at, b'\x80\0' + bytes(end - at - 2))


@damage(6, 'used entry in the last two bytes',
        lambda rng: rich(rng, styles=('full',)))
def _(rng, m):
    # the last entry becomes two bytes shorter
    file = max(m.directory[0], key=lambda f: len(f.name))
    file.name = file.name[:-2]
    at, end = m.tail_at(0)
    m.patch(at, b'\x80\0')


def roomy(rng):
    """A directory block with some bytes behind its last entry."""
    while True:
        m = rich(rng)
        at, end = m.tail_at(0)
        if end > at:
            return m


@damage(6, 'used entry with name length 0 behind the last', roomy)
def _(rng, m):
    at, end = m.tail_at(0)
    m.patch(at, b'\x80' + bytes(min(60, end - at - 1)))


@damage(6, 'bad version in a later directory block',
        lambda rng: rich(rng, dir_length=2))
def _(rng, m):
    at, end = m.tail_at(1)
    if m.directory[1]:
        m.directory[1][-1].version = 1
    else:
        m.patch(at, b'\x80\1')


# 7: files and numbers
field(7, 'number of files', 'file_count', (
    lambda rng, m: m.file_count + 1, lambda rng, m: m.file_count - 1,
    0, 65535, lambda rng, m: m.file_count + 256))


@damage(7, 'file number 0')
def _(rng, m):
    some_file(rng, m).number = 0


@damage(7, 'file number repeated')
def _(rng, m):
    one, two = rng.sample(m.files(), 2)
    one.number = two.number


@damage(7, 'file number equals the next')
def _(rng, m):
    some_file(rng, m).number = m.next_number


@damage(7, 'file number above the next')
def _(rng, m):
    m.wrong['next_number'] = rng.randint(
        1, max(file.number for file in m.files()))


@damage(7, 'file number 4,294,967,295')
def _(rng, m):
    some_file(rng, m).number = TOP


@damage(7, 'two names equal')
def _(rng, m):
    one, two = sorted(rng.sample(m.files(), 2), key=lambda f: len(f.name))
    two.name = one.name


@damage(7, 'two names equal but for case')
def _(rng, m):
    one, two = sorted(rng.sample(m.files(), 2), key=lambda f: len(f.name))
    letter = rng.choice(b'aAzZmM')
    one.name = one.name[:-1] + bytes([letter])
    two.name = one.name.swapcase()


@damage(7, 'two names equal but for accents')
def _(rng, m):
    one, two = sorted(rng.sample(m.files(), 2), key=lambda f: len(f.name))
    letter = rng.choice(rng.choice(spelling.ACCENTS))
    one.name = one.name[:-1] + bytes([letter])
    two.name = spelling.swapped(one.name)


# 8: forks

@damage(8, 'start 0, logical length 1')
def _(rng, m):
    empty_fork(rng, m).logical = rng.choice((1, 0x10000, 0x80000000, TOP))


@damage(8, 'start 0, physical length A')
def _(rng, m):
    empty_fork(rng, m).physical = rng.choice((1, m.a, 0x10000, TOP))


@damage(8, 'start 0, both lengths')
def _(rng, m):
    fork = empty_fork(rng, m)
    fork.logical, fork.physical = 1, m.a


@damage(8, 'start 0 of a fork with blocks')
def _(rng, m):
    longest(m).start = 0


@damage(8, 'start 1')
def _(rng, m):
    rng.choice(m.forks()).start = 1


@damage(8, 'start 1 and length A')
def _(rng, m):
    fork = empty_fork(rng, m)
    fork.start, fork.logical, fork.physical = 1, 0, m.a


@damage(8, 'start N+2')
def _(rng, m):
    rng.choice(m.forks()).start = m.n + 2


@damage(8, 'start far above N+1')
def _(rng, m):
    rng.choice(m.forks()).start = rng.choice((4095, 4096 + 2, 65535))


@damage(8, 'start at a free block')
def _(rng, m):
    fork = empty_fork(rng, m)
    fork.start, fork.physical = rng.choice(m.free_blocks()), m.a


@damage(8, 'start with physical length 0')
def _(rng, m):
    fork = rng.choice(m.forks())
    fork.logical = fork.physical = 0


@damage(8, 'start of a free block with physical length 0')
def _(rng, m):
    empty_fork(rng, m).start = rng.choice(m.free_blocks())


@damage(8, 'physical length one more')
def _(rng, m):
    rng.choice(m.forks()).physical += 1


@damage(8, 'physical length one less')
def _(rng, m):
    fork = rng.choice(m.forks())
    fork.physical -= 1
    fork.logical = min(fork.logical, fork.physical)


@damage(8, 'physical length a multiple of 512 but not of A',
        lambda rng: rich(rng, per=2))
def _(rng, m):
    rng.choice(m.forks()).physical += 512


@damage(8, 'logical length one above physical')
def _(rng, m):
    fork = rng.choice(m.forks())
    fork.logical = fork.physical + 1


@damage(8, 'logical length far above physical')
def _(rng, m):
    rng.choice(m.forks()).logical = rng.choice((0x1000000, TOP))


@damage(8, 'chain shorter than the physical length')
def _(rng, m):
    rng.choice(m.forks()).physical += m.a


@damage(8, 'chain longer than the physical length')
def _(rng, m):
    fork = longest(m)
    fork.physical -= m.a
    fork.logical = min(fork.logical, fork.physical)


@damage(8, 'chain much longer than the physical length')
def _(rng, m):
    fork = longest(m)
    fork.physical = m.a
    fork.logical = min(fork.logical, fork.physical)


@damage(8, 'huge physical length, chain as it was')
def _(rng, m):
    rng.choice(m.forks()).physical = rng.choice(
        (TOP // m.a * m.a, 0x80000000, 4095 * m.a, (m.n + 1) * m.a))


@damage(8, 'physical length 4,294,967,295')
def _(rng, m):
    longest(m).physical = TOP


@damage(8, 'ring of the whole fork')
def _(rng, m):
    fork = longest(m)
    m.set_map(fork.blocks[-1], fork.blocks[0])


@damage(8, 'ring into the middle')
def _(rng, m):
    fork = longest(m)
    m.set_map(fork.blocks[-1], rng.choice(fork.blocks))


@damage(8, 'ring with a huge physical length')
def _(rng, m):
    fork = longest(m)
    m.set_map(fork.blocks[-1], fork.blocks[0])
    fork.physical = rng.choice((TOP, TOP // m.a * m.a))
    fork.logical = rng.choice((fork.logical, fork.physical))


@damage(8, 'ring of one block with a huge physical length')
def _(rng, m):
    fork = rng.choice(m.forks())
    m.set_map(fork.blocks[0], fork.blocks[0])
    fork.physical = rng.choice((TOP, TOP // m.a * m.a, m.a))
    fork.logical = 0


@damage(8, 'ring with a physical length of several rounds')
def _(rng, m):
    fork = longest(m)
    m.set_map(fork.blocks[-1], fork.blocks[0])
    fork.physical *= rng.randint(2, 5)


@damage(8, 'chain broken by a free entry')
def _(rng, m):
    m.set_map(rng.choice(longest(m).blocks), 0)
    m.free += 1


@damage(8, 'chain ended early')
def _(rng, m):
    m.set_map(rng.choice(longest(m).blocks[:-1]), 1)


@damage(8, 'chain led on into a free block')
def _(rng, m):
    m.set_map(longest(m).blocks[-1], rng.choice(m.free_blocks()))


@damage(8, 'two forks with the same blocks')
def _(rng, m):
    one, two = two_forks(rng, m)
    two.start, two.physical = one.start, one.physical
    two.logical = min(two.logical, two.physical)


@damage(8, 'two forks with the same tail')
def _(rng, m):
    # the second leads into the middle of the first, with a fitting length
    one, two = two_forks(rng, m)
    m.set_map(two.blocks[0], one.blocks[1])
    two.physical = len(one.blocks) * m.a
    two.logical = min(two.logical, two.physical)


@damage(8, 'one fork inside another')
def _(rng, m):
    fork = empty_fork(rng, m)
    fork.start, fork.physical = longest(m).blocks[-1], m.a


@damage(8, 'both forks of one file with the same blocks')
def _(rng, m):
    file = rng.choice([f for f in m.files()
                       if f.forks[0].blocks or f.forks[1].blocks])
    have = max(file.forks, key=lambda fork: len(fork.blocks))
    for fork in file.forks:
        fork.start, fork.physical = have.start, have.physical
        fork.logical = rng.randint(0, fork.physical)


# 9: blocks of no fork

@damage(9, 'a last block of no fork')
def _(rng, m):
    m.set_map(rng.choice(m.free_blocks()), 1)
    m.free -= rng.randint(0, 1)


@damage(9, 'block N+1 or 2 of no fork, or another')
def _(rng, m):
    free = m.free_blocks()
    m.set_map(rng.choice((free[0], free[-1])), 1)
    m.free -= 1


@damage(9, 'a block of no fork leading into a fork')
def _(rng, m):
    m.set_map(rng.choice(m.free_blocks()), rng.choice(longest(m).blocks))
    m.free -= rng.randint(0, 1)


@damage(9, 'a block of no fork leading to itself')
def _(rng, m):
    b = rng.choice(m.free_blocks())
    m.set_map(b, b)
    m.free -= 1


@damage(9, 'a block of no fork leading to a free block')
def _(rng, m):
    one, two = rng.sample(m.free_blocks(), 2)
    m.set_map(one, two)
    m.free -= 1


@damage(9, 'a fork given up without freeing its blocks')
def _(rng, m):
    fork = rng.choice(m.forks())
    fork.start = fork.logical = fork.physical = 0


# 10: the free count
field(10, 'free count', 'free', (
    lambda rng, m: m.free + 1, lambda rng, m: m.free - 1, 0, 65535,
    lambda rng, m: m.free + 256, lambda rng, m: m.n + 2,
    lambda rng, m: 0x8000 | m.free))


def damaged(rng, kind):
    """A volume with one kind of damage from DAMAGES."""
    _, _, shape, change = kind
    m = shape(rng)
    change(rng, m)
    return m


# the kinds of damage that a disk with many files can have
ON_A_DISK = [kind for kind in DAMAGES
             if kind[0] > 1 and kind[2] in (rich, little)]


def damaged_400k(rng, kind, **want):
    """A disk of 400K with one kind of damage from ON_A_DISK."""
    m = disk_400k(rng, first=(2, 3), **want)
    kind[3](rng, m)
    return m


def doubly_damaged(rng):
    """A volume with two kinds of damage, so that the order of checks shows.
    """
    while True:
        one, two = (rng.choice([kind for kind in DAMAGES if kind[0] == number])
                    for number in rng.sample(range(1, 11), 2))
        m = one[2](rng)
        try:
            one[3](rng, m)
            two[3](rng, m)
            m.image()
        except (ValueError, IndexError, TypeError, struct.error):
            continue            # these two do not go together
        return m


def flipped(rng, m):
    """An image with a few bytes changed at places that matter."""
    image = m.image()
    for _ in range(rng.choice((1, 1, 1, 2, 3))):
        kind = rng.randrange(4)
        if kind == 0:
            at = 1024 + rng.randrange(64)
        elif kind == 1:
            at = 1088 + rng.randrange(3 * m.n // 2 + 1)
        elif kind == 2:
            at = 512 * m.dir_start + rng.randrange(512 * m.dir_length)
        elif m.files():
            at = m.entry_at(some_file(rng, m))[0] + rng.randrange(60)
        else:
            at = 1024 + rng.randrange(64)
        image[min(at, len(image) - 1)] = rng.choice((
            0, 1, 0x80, 0xFF, rng.getrandbits(8),
            image[at] ^ 1 << rng.randrange(8)))
    return image
