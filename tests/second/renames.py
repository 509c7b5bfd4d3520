"""Runs with renames, for the list: entries that stay, that move within their
block and to others, full directories, old long names, and refusals in order."""

import random

import hall
import maker
import spelling
import volume
from rename_notes import LANDINGS, landing, rooms

DATE = 2500700000
# the rare ones twice
AIMS = LANDINGS + ['longer, later block', 'longer, earlier block']


def small(rng, **want):
    """A small volume; stale bytes lie behind the directory blocks' last
    entries, and no pad byte is 0."""
    m = maker.make(rng, **{'limit': 9, 'per': 1, 'n': 2, 'base': 'random',
                           'locked': False, 'file_locks': 0, 'tight': True,
                           'next_kind': 'small', **want})
    for file in m.files():
        file.pad = rng.randint(1, 255)
    return m


def rename(tape, rng, own, length):
    """A rename by any case of the name to a new name of this length; then one
    of the two is looked for."""
    new = maker.new_name(rng, length, tape.state().names)
    if new is None:
        return
    old = maker.other_case(rng, own)
    tape.add('M', old, new, rng.getrandbits(32))
    tape.add('F', rng.choice((old, maker.other_case(rng, new))))


def hall_renames(tape):
    """The staff's wish, on HALL, and what lies beside it."""
    tape.add('I', hall.hall())
    tape.gives(0, 'N', b'WEEK30', bytes(range(16)), 1, 2)
    tape.gives(0, 'W', b'WEEK30', 0, 0, b'wrong readings', 3)
    tape.gives(0, 'M', b'WEEK30', b'WEEK30 BAD', DATE)
    tape.gives(0, 'N', b'WEEK30', bytes(16), 4, 5)
    tape.gives(0, 'W', b'WEEK30', 0, 0, b'right readings', 6)
    for name in (b'WEEK30 BAD', b'week30 bad', b'WEEK30', b'RATES', b'WEEK1'):
        tape.gives(0, 'F', name)
        tape.gives(0, 'R', name, 0, 0, 20)
    tape.gives(14, 'M', b'WEEK30', b'Week30 Bad', 7)
    tape.gives(14, 'M', b'WEEK30 BAD', b'week30', 7)
    tape.gives(0, 'D', b'WEEK30 BAD')
    tape.gives(0, 'M', b'WEEK30', b'Week30 Bad', 8)
    tape.gives(13, 'R', b'WEEK30', 0, 0, 20)
    for old, new, number in (
            (b'WEEK1', b'WEEK2', 0), (b'WEEK1', b'WEEK2', 13),
            (b'week2', b'WEEK', 0), (b'Week', b'Week1', 0),
            (b'week1', b'WEEK1', 0), (b'WEEK1', b'WEEK1', 0),
            (b'WEEK1', b'rates', 14), (b'WEEK1', b'', 12),
            (b'', b'WEEK1', 12), (b'WEEK1', b'W' * 256, 12),
            (b'W' * 1024, b'WEEK1', 12), (b'WEEK1', b'W' * 1024, 12),
            (b'WEEK1', b'W' * 255, 21), (b'WEEK1', b'W' * 32, 21),
            (b'WEEK1', b'W' * 31, 0), (b'w' * 31, b'W', 0),
            (b'w', b'WEEK1', 0), (b'RATES', b'RATES 1984', 0),
            (b'RATES 1984', b'Rates', 0)):
        tape.gives(number, 'M', old, new, DATE)
        tape.add('E', 0)
        tape.add('E', 2)
    tape.gives(0, 'C')


def places(tape, rng):
    """Some entries in directory order."""
    count = len(tape.state().names)
    for place in sorted(rng.sample(range(count), min(4, count))):
        tape.add('E', place)


def stays(tape, count):
    """Names of each length get others whose entries have the same size."""
    rng = random.Random(71)
    for _ in range(count):
        names = []
        for length in rng.sample(range(1, 32), 31):
            names.append(maker.new_name(rng, length, names))
        m = small(rng, names=names, dir_length=maker.directory_for(names))
        tape.add('I', m.image())
        for own in names:
            even = len(own) % 2 == 0
            size = maker.File(own).size()
            rename(tape, rng, own, len(own) if even and rng.random() < 0.5
                   else maker.length_for(rng, size))
        places(tape, rng)
        for own in rng.sample(tape.state().names, 8):
            tape.add('M', own, maker.other_case(rng, own), DATE)
        tape.gives(0, 'C')


def ways(v):
    """The names and lengths of new names that lead to each landing, and under
    None those for which there is no room."""
    found = {}
    for placed in v.entries:
        if not placed.entry.flags & 1:
            for length in range(1, 32):
                size = volume.even(volume.ENTRY_HEAD + length)
                where = landing(v, placed, size)
                found.setdefault(where, []).append((placed.entry.name, length))
    return found


def aim(tape, rng, where):
    """A rename with this landing, if there is one."""
    found = ways(tape.volume()).get(where)
    if found:
        rename(tape, rng, *rng.choice(found))


def moves(tape, count, turns):
    """Each landing by turns, in directories of one to four blocks; first into
    blocks where stale bytes lie."""
    rng = random.Random(72)
    for i in range(count):
        m = small(rng, dir_length=(3, 4, 2, 1)[i % 4], n=6, full_disk=True,
                  styles=(('some', 'nearly', 'short'),
                          ('short', 'nearly', 'empty'))[i % 2],
                  file_locks=0.1, next_kind=('small', 'end')[i % 3 == 2])
        tape.add('I', m.image())
        for where in ('longer, later block', 'longer, earlier block',
                      'shorter, earlier block'):
            aim(tape, rng, where)
        for turn in range(turns):
            aim(tape, rng, AIMS[(turn + i) % len(AIMS)])
            if turn % 6 == 5:
                tape.some(rng, rng.choice(('BR', 'WR', 'UF', 'NF', 'DE')))
        places(tape, rng)
        tape.gives(0, 'C')


def lone_entries(tape, count):
    """One short entry in each block but the first, which is full: the first
    longer name stays in its block, the others go there too and leave theirs
    empty.  With room in the first block a shorter name goes there, one stays
    in its block, and one keeps its size."""
    rng = random.Random(73)
    for _ in range(count):
        names = [b'%d' % i + b'.' * 29 for i in range(5)] + [b'old' + b'.' * 48]
        m = small(rng, names=names, dir_length=4)
        for i in (1, 2, 3):
            m.directory[i] = [maker.File(b'%d' % i * i)]
            m.directory[i][0].number = m.next_number
            m.next_number += 1
            m.file_count += 1
        tape.add('I', m.image())
        for name in (b'1', b'22', b'333'):
            tape.gives(0, 'M', name, name * 9, DATE)
        tape.gives(0, 'D', names[rng.randrange(5)])
        tape.gives(0, 'M', b'1' * 9, b'22', DATE)
        tape.gives(0, 'M', b'2' * 18, b'4' * 12, DATE)
        tape.gives(0, 'M', b'3' * 27, b'5' * 26, DATE)
        places(tape, rng)
        tape.gives(0, 'C')


def sizes_of(rng, left):
    """Sizes of entries with new names that fill this many bytes."""
    sizes = []
    while left > 82:
        size = rng.randrange(52, 84, 2)
        if left - size >= 104 or 52 <= left - size <= 82:
            sizes.append(size)
            left -= size
    return sizes + [left]


def crowded(rng, dir_length, empty=0):
    """Directory blocks that are full, or in which one short entry has room,
    and empty ones behind them."""
    lengths = [[maker.length_for(rng, size) for size in sizes_of(
        rng, 512 - rng.choice((0, 0, 2 * rng.randint(26, 40))))]
        for _ in range(dir_length)]
    names = []
    for length in sum(lengths, []):
        names.append(maker.new_name(rng, length, names))
    m = small(rng, names=names, dir_length=dir_length + empty)
    files = m.files()
    m.directory = [[files.pop(0) for _ in block] for block in lengths]
    m.directory += [[] for _ in range(empty)]
    return m


def full_directories(tape, count, turns):
    """Names that need two bytes more than there are once the entry is out, all
    of them, or any number."""
    rng = random.Random(74)
    for i in range(count):
        m = crowded(rng, (1, 2, 4, 3)[i % 4])
        tape.add('I', m.image())
        for turn in range(turns):
            v = tape.volume()
            placed = rng.choice(v.entries)
            most = max(rooms(v, placed))
            size = (most + 2, most, rng.randint(52, 82))[turn % 3]
            if size <= 82:
                rename(tape, rng, placed.entry.name,
                       maker.length_for(rng, size))
            else:
                aim(tape, rng, None)
        tape.some(rng, 'EEFN')
        tape.gives(0, 'C')


def spills(tape, count):
    """Longer names go to the empty block behind, shorter ones come back."""
    rng = random.Random(78)
    for i in range(count):
        m = crowded(rng, 1 + i % 2, 1)
        tape.add('I', m.image())
        for _ in range(4):
            aim(tape, rng, 'longer, later block')
            aim(tape, rng, 'shorter, earlier block')
        places(tape, rng)
        tape.gives(0, 'C')


def old_names(tape, count):
    """Old long names get short ones, and no long one."""
    rng = random.Random(75)
    for i in range(count):
        names = []
        for length in (31, 32, 254, 255, rng.randint(33, 253)):
            names.append(maker.new_name(rng, length, names))
        rng.shuffle(names)
        m = small(rng, names=names, dir_length=maker.directory_for(names))
        tape.add('I', m.image())
        for own in names:
            if len(own) > 31:
                other = maker.other_case(rng, own)
                tape.gives(21, 'M', other, own, DATE)
                tape.gives(21, 'M', own, other[:32], DATE)
                tape.gives(21, 'M', own, maker.some_bytes(
                    rng, maker.long_length(rng)), DATE)
            rename(tape, rng, own, (31, 30, 1, rng.randint(1, 31))[i % 4])
        tape.some(rng, 'EFBR')
        tape.gives(0, 'C')


def orders(tape, count):
    """A full block, in which some files are locked: each refusal where later
    ones would come too; then the same calls on a locked volume."""
    rng = random.Random(76)
    for i in range(count):
        names = []
        for length in (119, 7, 2, 11, 117):     # entries of 512 bytes
            names.append(maker.new_name(rng, length, names))
        order = rng.sample(names, 5)
        old, other, own, locked, old_locked = names
        m = small(rng, names=order, dir_length=1)
        for file in m.files():
            if file.name in (locked, old_locked):
                file.flags |= 1
        missing = maker.new_name(rng, rng.randint(1, 31), names)
        new = maker.new_name(rng, 31, names + [missing])
        most = maker.any_name(rng, 255)
        over = maker.any_name(rng, rng.choice((256, 257, 300)))
        calls = (
            (12, b'', new), (12, over, own), (12, b'', over), (12, over, most),
            (12, own, b''), (12, own, over), (12, missing, over),
            (12, locked, b''), (21, missing, most), (21, locked, new + b'!'),
            (21, old, spelling.swapped(old)), (21, own, old_locked),
            (13, missing, own), (13, missing, spelling.swapped(missing)),
            (13, missing, new), (15, locked, other), (15, locked, new),
            (15, locked, spelling.swapped(locked)), (15, old_locked, missing),
            (14, own, other), (14, own, spelling.swapped(locked)),
            (14, other, own), (14, other, spelling.swapped(own)),
            (14, old, other), (18, own, new), (18, other, new))
        tape.add('I', m.image())
        for number, one, two in calls:
            tape.gives(number, 'M', one, two, DATE)
        tape.gives(0, 'M', other, spelling.swapped(other), DATE)
        if i % 3 == 0:
            m.attributes |= rng.choice((0x80, 0x8000))
            tape.add('I', m.image())
            for number, one, two in calls + ((0, own, own),):
                tape.gives(11, 'M', one, two, DATE)


def random_runs(tape, count, calls):
    """Renames among all the other calls."""
    rng = random.Random(77)
    for i in range(count):
        m = maker.make(rng, limit=(10, 12, 16)[i % 3], per=1, locked=False,
                       dir_length=(1, 2, 3)[i % 3],
                       styles=(('some', 'short', 'nearly'),
                               ('some', 'full'))[i % 2])
        tape.add('I', m.image())
        tape.some(rng, [rng.choice('EFFBRRNNWWUUDDMMMMM')
                        for _ in range(calls)])
        tape.add('C')


def runs(tape):
    hall_renames(tape)
    stays(tape, 3)
    moves(tape, 8, 24)
    lone_entries(tape, 4)
    full_directories(tape, 8, 18)
    spills(tape, 6)
    old_names(tape, 11)
    orders(tape, 11)
    random_runs(tape, 10, 40)
