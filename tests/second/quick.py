"""Runs with quick finds, for the list (T-08 of document 02): names in each
block of short and long directories, names behind and inside entries that check
6 would refuse, unused entries, equal names, images that the other checks
refuse, and quick finds among all the other calls and on wrapped files."""

import random

import chooser
import hall
import maker
import quick_notes
import spelling
import volume

BLOCK = volume.LOGICAL_BLOCK
HEAD = volume.ENTRY_HEAD
LENGTHS = (1, 2, 3, 4, 5, 8, 12)        # of names that stand side by side
WRONG = (0, 1, 2, 511, 512, 513, 1024, 65536, maker.TOP)


def fresh(rng, count, lengths=LENGTHS):
    """So many names of which no two are equal."""
    names = []
    while len(names) < count:
        name = maker.new_name(rng, rng.choice(lengths), names)
        if name is not None:
            names.append(name)
    return names


# Quick finds

def asks(tape, state):
    """For any image: the first, a middle and the last file by their other
    spelling, a name that no file has, and one that is no name."""
    names = state.names
    for name in names[:1] + names[1:-1][:1] + names[1:][-1:]:
        tape.add('Q', spelling.swapped(name))
    tape.add('Q', b'No such name')
    tape.add('Q', b'' if len(names) % 2 else b'n' * 256)


def answer(tape, name, place, looked):
    """A quick find that looks at so many blocks, and finds the name at this
    place; where the place is None it is absent."""
    tape.gives(13 if place is None else 0, 'Q', name)
    words = tape.machine.lines[-1].split()
    told = None if place is None else int(words[2])
    if (told, int(words[-2])) != (place, looked):
        raise SystemExit('quick find of %r: %s' % (name, words))


# Directory blocks of any bytes

def entry(rng, name):
    """The bytes of an entry; all but its name and version is any, and its
    forks are mostly nonsense."""
    file = maker.File(name)
    file.flags = 0x80 | rng.choice((0, 1, rng.getrandbits(7)))
    file.finder = maker.some_bytes(rng, 16)
    file.number, file.created, file.changed = (
        rng.choice((0, 1, rng.getrandbits(32))) for _ in range(3))
    for fork in file.forks:
        fork.start = rng.choice((0, 0, 1, 2, 3, 4095, rng.getrandbits(16)))
        fork.logical = rng.choice(WRONG + (rng.getrandbits(32),))
        fork.physical = rng.choice(WRONG + (rng.getrandbits(32),))
    file.pad = rng.getrandbits(8)
    return file.raw()


class Page:
    """A directory block while it is written; names are those that a reading of
    it meets."""

    def __init__(self, rng):
        self.rng = rng
        self.raw = b''
        self.names = []
        self.ended = False

    def left(self):
        return BLOCK - len(self.raw)

    def add(self, *names):
        """Entries, which are read unless the reading ended before."""
        for name in names:
            self.raw += entry(self.rng, name)
            if not self.ended:
                self.names.append(name)
        return self

    def end(self, raw):
        """Bytes at which the reading ends."""
        self.raw += raw
        self.ended = True
        return self

    def version(self, name):
        raw = entry(self.rng, name)
        version = self.rng.choice((1, 2, 127, 128, 255))
        return self.end(raw[:1] + bytes([version]) + raw[2:])

    def nameless(self, name):
        """Name length 0, and the name's bytes behind it all the same."""
        raw = entry(self.rng, name)
        return self.end(raw[:50] + b'\0' + raw[51:])

    def unused(self, name):
        raw = entry(self.rng, name)
        flags = self.rng.choice((0, 1, 0x40, 0x7F, self.rng.getrandbits(7)))
        return self.end(bytes([flags]) + raw[1:])

    def crossing(self, by, following, *hidden):
        """An entry whose name runs so many bytes into the following block; it
        has the bytes that are there.  Entries with the hidden names lie within
        it.  Gives the name."""
        rng, inside = self.rng, self.left() - HEAD
        text = maker.some_bytes(rng, 1)
        text += b''.join(entry(rng, name) for name in hidden)
        text += bytes([rng.getrandbits(7)]) + maker.some_bytes(rng, 300)
        name = text[:inside] + following[:by]
        self.end(entry(rng, name)[:self.left()])
        return name

    def used(self):
        """A used entry in what is left, where that is less than 51 bytes."""
        return self.end((b'\x80\0' + maker.some_bytes(
            self.rng, 50))[:self.left()])

    def bytes(self):
        """All of the block; behind what was written bit 7 is clear."""
        left = self.left()
        rest = maker.some_bytes(self.rng, left)
        if left:
            rest = bytes([rest[0] & 0x7F]) + rest[1:]
        self.raw, self.ended = self.raw + rest, True
        return self.raw


def filled(rng, used, style='full'):
    """A block with new names in one of maker's styles."""
    page = Page(rng)
    for length in maker.lengths_in_block(rng, style):
        name = maker.new_name(rng, length, used + page.names)
        page.add(name or b'?' * length)
    return page


def disk(rng, pages, beside=None, **want):
    """A small volume with these directory blocks, and where a name is given,
    an entry of that name right before the directory and right behind it."""
    m = maker.make(rng, **{'limit': 9, 'per': 1, 'n': 1, 'names': (),
                           'tight': True, 'dir_length': len(pages), **want})
    raw = b''.join(page.bytes() for page in pages)
    m.patch(BLOCK * m.dir_start, raw)
    if beside is not None:
        for at in (m.dir_start - 1, m.dir_start + m.dir_length):
            m.patch(BLOCK * at, entry(rng, beside))
    return m


def where(pages, name):
    """The place of the first equal name that is read, or None, and the count
    of blocks up to it."""
    place = 0
    for d, page in enumerate(pages):
        for own in page.names:
            if spelling.fold(own) == spelling.fold(name):
                return place, d + 1
            place += 1
    return None, len(pages)


def ask(tape, rng, pages, names):
    """Quick finds of these names, by any spelling."""
    for name in names:
        answer(tape, maker.other_case(rng, name), *where(pages, name))


def together(tape, rng, parts, **want):
    """One directory of several runs of blocks, and quick finds of the names
    that come with each run."""
    pages = [page for run, _ in parts for page in run]
    tape.add('I', disk(rng, pages, **want).image())
    for _, names in parts:
        ask(tape, rng, pages, names)


# HALL

def hall_quick(tape):
    """HALL, then with P11 and P12, then with WEEK1 as version 1."""
    names = (b'WEEK1', b'RATES', b'week1', b'rAtEs', b'WEEK', b'WEEK11',
             b'WEEK\x11', b'\0', b'HALL', b'W' * 255)
    for at, text, gone in ((0, '', ()), (1024 + 34, '0003', ()),
                           (1091, '0020', ()),
                           (2048 + 1, '01', (b'week1', b'rates'))):
        image = hall.hall()
        image[at:at + len(text) // 2] = bytes.fromhex(text)
        tape.add('I', image)
        for name in names:
            place = {b'week1': 0, b'rates': 1}.get(name.lower())
            answer(tape, name, None if name.lower() in gone else place, 1)
        for name in (b'', b'W' * 256, b'W' * 1024):
            tape.gives(12, 'Q', name)


# Bad entries

def around_bad(rng, kind, turn):
    """Three blocks.  In the first stand a bad entry, before it one entry or
    none, and two behind it; then comes a full block, an empty one, or some
    entries.  In the third one of the two names comes again, and by turns that
    of the bad entry.  Gives the blocks and the names to ask for."""
    a, b, c, d, e, f, x = fresh(rng, 7)
    middle = (filled(rng, [a, b, c, d, e, f, x]), Page(rng),
              Page(rng).add(d, e))[turn % 3]
    first = Page(rng)
    if kind == 'crosses':
        a = fresh(rng, 1, range(165, 230))[0]
        first.add(a)
        by = (1, 2, 3, 2, 1, rng.randint(3, 306 - first.left()))[turn % 6]
        x = first.crossing(by, middle.bytes(), b, c)
    else:
        if turn % 4:
            first.add(a)
        if kind == 'version':
            first.version(x)
        else:
            x = fresh(rng, 1, (1,))[0]
            first.nameless(x)
        first.add(b, c)
    third = Page(rng).add(f, c, *[x] * (turn % 3 > 0), *[e] * (turn % 3 < 2))
    return [first, middle, third], [a, b, c, d, e, f, x, *middle.names[-2:]]


def bad_entries(tape, count):
    """Each kind of bad entry, with what stands around it."""
    rng = random.Random(101)
    for turn in range(count):
        kinds = quick_notes.BAD[turn % 3:] + quick_notes.BAD[:turn % 3]
        together(tape, rng, [around_bad(rng, kind, turn) for kind in kinds],
                 dir_start=4 + turn % 2, locked=turn % 3 == 0)


def last_blocks(tape, count):
    """A bad entry in the last block or in the only one."""
    rng = random.Random(102)
    for turn in range(count):
        a, b, x, y = fresh(rng, 4)
        page = Page(rng).add(*[a] * (turn % 2))
        put = page.version if turn % 3 else page.nameless
        put(x).add(b, a)
        pages = [Page(rng).add(y)] * (turn // 2 % 2) + [page]
        tape.add('I', disk(rng, pages, beside=b).image())
        ask(tape, rng, pages, [a, b, x, y])


# Edges of a block

def crossing_page(rng, following, by):
    """A block with short names whose last entry runs so many bytes into the
    following block; and that entry's name."""
    page = Page(rng)
    names = fresh(rng, 8, range(1, 29))
    while names and page.left() > rng.choice((250, 200, 150, 130)):
        page.add(names.pop())
    name = page.crossing(by, following)
    return page, name


def around_crossing(rng, turn):
    """An entry that crosses its block by 1, 2 or more bytes.  The next block
    begins with an entry, or entries stand there only behind the crossing one;
    by turns one of these comes again in a third block, and the crossing one's
    name too.  Gives the blocks and the names to ask for."""
    a, b = fresh(rng, 2, (3, 5, 8, 12))
    by = (1, 2, 1, 2, 3, rng.randint(4, 40))[turn % 6]
    second = Page(rng)
    if turn % 4 > 1:
        second.end(bytes([rng.getrandbits(7)])
                   + maker.some_bytes(rng, volume.even(by) - 1))
    second.add(a, b)
    first, x = crossing_page(rng, second.bytes(), by)
    pages = [first, second]
    if turn % 3:
        pages.append(Page(rng).add(b, *[x] * (turn % 3 == 2)))
    return pages, [a, b, x] + first.names[-2:]


def over_the_end(tape, count):
    """Three such runs of blocks in each directory."""
    rng = random.Random(103)
    for turn in range(0, 3 * count, 3):
        together(tape, rng, [around_crossing(rng, turn + i) for i in range(3)])


def short_ends(tape, count):
    """Blocks that are full to the last byte, or with a used entry that begins
    in their last 51 bytes or in their last two; entries right before and
    behind the directory."""
    rng = random.Random(104)
    for turn in range(count):
        outside = fresh(rng, 1)
        first = filled(rng, outside, ('full', 'nearly', 'nearly')[turn % 3])
        if turn % 3 == 2:
            first = Page(rng)
            first.add(*fresh(rng, 8, (4,)))         # 448 bytes
            first.add(*fresh(rng, 1, (10, 11)))     # 62, and two are left
        if first.left():
            first.used()
        second = filled(rng, outside + first.names,
                        ('full', 'some')[turn // 3 % 2])
        pages = [first, second] if turn % 4 else [first]
        m = disk(rng, pages, beside=outside[0], dir_start=4 + turn % 2,
                 locked=turn % 2 == 0)
        tape.add('I', m.image())
        ask(tape, rng, pages, outside + first.names[-2:] + second.names[-2:]
            + second.names[:1] + [outside[0] + b'.'])


# Unused entries, and equal names

def unused_entries(tape, count):
    """An unused entry of any flags ends a block's reading, first in the block
    or behind others; the names of it and of those behind it come again, or
    do not."""
    rng = random.Random(105)
    for turn in range(count):
        a, b, c, x = fresh(rng, 4)
        first = Page(rng).add(a).unused(x).add(b, c)
        second = Page(rng).add(*[a] * (turn % 2)).unused(c).add(a, b)
        third = Page(rng).add(c, *[x] * (turn % 2), *[b] * (turn % 3 == 1))
        pages = [first, second, third]
        tape.add('I', disk(rng, pages, dir_start=4 + turn % 2).image())
        ask(tape, rng, pages, [a, b, c, x])


def equal_names(tape, count):
    """Names that come three times, of one spelling, of two cases or by
    accents, in one block and in two."""
    rng = random.Random(106)
    for turn in range(count):
        first, second, third = pages = [
            Page(rng).add(name) for name in fresh(rng, 3, (14, 15))]
        names = []
        for pair in (b'wW', rng.choice(spelling.ACCENTS), b'!!'):
            text = fresh(rng, 1)[0]
            one, two = (text + bytes([b]) for b in pair)
            if turn // 2 % 2:
                one, two = two, one
            first.add(one, *[two] * (turn % 2))
            second.add(two)
            third.add(one)
            names += [one, two, spelling.swapped(two)]
        tape.add('I', disk(rng, pages).image())
        for name in names + [page.names[0] for page in pages]:
            answer(tape, name, *where(pages, name))


# By chance

def any_page(rng, pool):
    """Entries of all kinds with names from the pool."""
    page = Page(rng)
    while rng.random() < 0.88:
        name = maker.other_case(rng, rng.choice(pool))
        if volume.entry_size(name) > page.left():
            break
        kind = rng.random()
        put = (page.add if kind < 0.8 else page.version if kind < 0.87 else
               page.nameless if kind < 0.93 else page.unused)
        put(name)
    if page.left() < HEAD and rng.random() < 0.5:
        page.used()
    return page


def any_pages(tape, count):
    """Directories of one to six such blocks."""
    rng = random.Random(107)
    for turn in range(count):
        pool = fresh(rng, 9, LENGTHS + (31, 60, 255))
        pool += [maker.near_name(rng, name) for name in pool[:2]]
        pages = [any_page(rng, pool) for _ in range(1 + turn % 6)]
        m = disk(rng, pages, locked=turn % 5 == 0)
        if turn % 4 == 0:
            m.set_map(2, m.n + 2)
        tape.add('I', m.image())
        ask(tape, rng, pages, pool)


# Accepted images

def stale(rng, m):
    """In each block with room, an unused entry and a used one behind it, with
    the names of files that come later or with new names.  Gives the names."""
    names = [file.name for file in m.files()]
    told = []
    for d, files in enumerate(m.directory):
        at, end = m.tail_at(d)
        later = [file.name for block in m.directory[d + 1:] for file in block]
        pair = [rng.choice(later) if later and rng.random() < 0.6
                else maker.new_name(rng, rng.randint(1, 9), names)
                for _ in range(2)]
        raw = b''.join(entry(rng, name) for name in pair)
        if end - at >= len(raw):
            m.patch(at, bytes([rng.getrandbits(7)]) + raw[1:])
            told += pair
    return told


def pages_of(m):
    """The names in the directory blocks, as where takes them."""
    pages = [Page(None) for _ in m.directory]
    for page, files in zip(pages, m.directory):
        page.names = [file.name for file in files]
    return pages


def as_find(tape, rng, m, names):
    """Finds and quick finds of these names, by turns."""
    pages = pages_of(m)
    for name in names:
        name = maker.other_case(rng, name)
        tape.add('F', name)
        answer(tape, name, *where(pages, name))


def accepted(tape, count):
    """Directories of one to eight blocks, with names from each block, stale
    ones, near ones and missing ones."""
    rng = random.Random(108)
    for turn in range(count):
        m = maker.make(rng, limit=12, per=1, n=2, locked=turn % 4 == 0,
                       dir_length=(1, 3, 2, 5, 4, 8)[turn % 6],
                       dir_start=4 + turn % 3, file_locks=0.3,
                       styles=(('some', 'empty', 'full'), ('full', 'short'),
                               ('some', 'some', 'nearly'))[turn % 3])
        names = stale(rng, m) + fresh(rng, 1)
        outside = fresh(rng, 1, (20, 21))
        for at in (m.dir_start - 1, m.dir_start + m.dir_length):
            m.patch(BLOCK * at, entry(rng, outside[0]))
        for files in m.directory:
            names += [file.name for file in files[:1] + files[1:][-1:]]
        state = chooser.state_of_made(m)
        names.append(chooser.missing_name(rng, state))
        tape.add('I', m.image())
        tape.gives(0, 'C')
        as_find(tape, rng, m, names + outside)
        tape.some(rng, 'QQQ', state)


def near_misses(tape, count):
    """Accented names beside names that a careless folding takes for equal."""
    rng = random.Random(109)
    for _ in range(count):
        m = maker.accented_names(rng, 12)
        names = [file.name for file in m.files()]
        tape.add('I', m.image())
        as_find(tape, rng, m, names
                + [maker.near_name(rng, name) for name in names])


def long_names(tape, count):
    """Old long names and one of 31 bytes, in any order."""
    rng = random.Random(110)
    for _ in range(count):
        names = [maker.any_name(rng, length) for length in rng.sample(
            (1, 31, 32, rng.randint(33, 253), 254, 255), 6)]
        m = maker.make(rng, names=names, limit=9, per=1, n=2, tight=True,
                       dir_length=maker.directory_for(names))
        tape.add('I', m.image())
        as_find(tape, rng, m,
                names + [names[0][:254] + b'.', b'm' * 255, b'm'])


def no_files(tape, count):
    """Empty directories; unused entries lie in them."""
    rng = random.Random(111)
    for turn in range(count):
        pages = [Page(rng) for _ in range(1 + turn % 3)]
        for page in pages[turn % 2:]:
            page.unused(b'A').add(b'B', b'C')
        tape.add('I', disk(rng, pages, locked=False).image())
        tape.gives(0, 'C')
        ask(tape, rng, pages, [b'A', b'B', b'C', b'D', b'E'])


# Long directories

def scattered(rng, names):
    """A directory of 256 blocks, of which few have entries, the first and the
    last among them."""
    m = maker.make(rng, limit=9, per=1, n=2, tight=True, names=names,
                   dir_length=256, locked=False, base='pattern',
                   next_kind='small')
    files = m.files()
    m.directory = [[] for _ in range(256)]
    for i, file in enumerate(files):
        m.directory[(0, 0, 0, 255, 255, 255, 1, 127, 128, 200, 253, 254)[
            i % 12]].append(file)
    return m


def longest(tape):
    """256 blocks, accepted; then with bad entries in some of them."""
    rng = random.Random(112)
    names = fresh(rng, 12)
    m = scattered(rng, names)
    missing = [name for name in fresh(rng, 14) if spelling.fold(name)
               not in map(spelling.fold, names)]
    tape.add('I', m.image())
    as_find(tape, rng, m, missing + names * 2 + names[:6] * 2)
    pages = pages_of(m)
    # of the first block and of the last only the first entry is read, and
    # none of block 129
    for d, i in ((0, 1), (128, 0), (255, 1)):
        at, _ = m.entry_at(m.directory[d][i])
        m.patch(at + 1, [rng.randint(1, 255)])
        del pages[d].names[i:]
    tape.add('I', m.image())
    ask(tape, rng, pages, names * 3 + (names[:1] + names[3:4]) * 10)


def many_files(tape):
    """More than 256 files, accepted, and then with a wrong free count."""
    rng = random.Random(113)
    names = [b'%03d' % i for i in rng.sample(range(1000), 270)]
    m = maker.make(rng, limit=9, per=1, n=2, tight=True, names=names,
                   dir_length=maker.directory_for(names), locked=False)
    for wrong in ({}, {'free': m.free + 1}):
        m.wrong.update(wrong)
        tape.add('I', m.image())
        ask(tape, rng, pages_of(m), names[-15:] + names[252:258] + names[:2]
            + [b'1000', b'00', b'+1'])


# Among the other calls

def mixed(tape, count, turns):
    """Each change is followed by quick finds of the names that it was given;
    finds and other calls come between."""
    rng = random.Random(114)
    for i in range(count):
        m = maker.make(rng, limit=10, per=1, n=3, locked=False,
                       dir_length=1 + i % 3, file_locks=0.1,
                       styles=(('some', 'short', 'nearly'),
                               ('some', 'full', 'empty'))[i % 2])
        tape.add('I', m.image())
        for turn in range(turns):
            call = chooser.choose(rng, tape.state(), 'NNNWWUUDDMMM')
            tape.add(*call)
            for name in call[1:3] if call[0] == 'M' else call[1:2]:
                tape.add('Q', maker.other_case(rng, name))
            if turn % 4 == 3:
                tape.some(rng, 'QFQER')
        tape.gives(0, 'C')


# On wrapped files

def said_to_be_wrapped(tape):
    """Quick find takes only bare images: of a bare image that is said to be
    wrapped it tells what it tells of the image, and find refuses it."""
    rng = random.Random(115)
    for fact, value, number in ((None, 0, 0), ('signature', 0x4244, 2),
                                ('a', 513, 3), ('next_number', 0, 3),
                                ('length', 4095, 1)):
        m = maker.make(rng, limit=9, per=1, n=1, names=[b'A', b'be', b'see'])
        if fact == 'length':
            m.length = value
        elif fact:
            m.wrong[fact] = value
        tape.add('X', m.image())
        for name in (b'A', b'BE', b'See', b'bee', b'', b'A' * 256) * 6:
            tape.gives(number or (12 if not 1 <= len(name) <= 255 else 13
                                  if name == b'bee' else 0), 'Q', name)
        tape.gives(22, 'F', b'A')
    m.length = None
    m.patch(1060, [28])
    tape.add('X', m.image())
    for name in (b'A', b'', b'n' * 256) * 4:
        tape.gives(4, 'Q', name)


def runs(tape):
    hall_quick(tape)
    bad_entries(tape, 14)
    last_blocks(tape, 12)
    over_the_end(tape, 8)
    short_ends(tape, 18)
    unused_entries(tape, 10)
    equal_names(tape, 8)
    any_pages(tape, 24)
    accepted(tape, 18)
    near_misses(tape, 3)
    long_names(tape, 6)
    no_files(tape, 4)
    longest(tape)
    many_files(tape)
    mixed(tape, 10, 24)
    said_to_be_wrapped(tape)
