"""Runs with writes that come in parts, for the list (T-06 of document 02): each
write in one piece and then, on the same image, in 1 to 40 parts, one behind the
other from the same offset with the same date."""

from collections import namedtuple
import random

import chooser
import clump_notes
import hall
import maker
import part_notes
import volume

DATE = 2500700000
MOST_PARTS = 40
MOST_BYTES = 2500
TOP = (1 << 64) - 1                 # the highest offset that a call takes

# The aims of a write: a fork with bytes, with surplus blocks or without blocks,
# and where the write ends, at or beside what the fork can hold at most, at a
# block's end or beside it, inside the fork, where it begins, or anywhere.
FITTING = (
    (('surplus', 'any'), ('empty', "block's end"), ('filled', "block's end"),
     ('filled', 'inside'), ('empty', 'fits')),
    (('surplus', 'last block begun'), ('empty', 'any'), ('filled', 'any'),
     ('filled', 'own blocks'), ('filled', 'fits')),
    (('surplus', "block's end"), ('filled', 'one byte less'),
     ('empty', 'last block begun'), ('filled', 'inside'), ('surplus', 'fits')),
    (('surplus', 'one byte less'), ('empty', "block's end"),
     ('filled', 'fits'), ('surplus', 'nothing'), ('filled', "block's end")))
TOO_LONG = tuple((kind, end)
                 for end in ('one byte more', 'one block more', 'more')
                 for kind in ('filled', 'surplus', 'empty'))

Write = namedtuple('Write', 'tag name fork offset data changed')


# The three sentences

def parts_of(call, lengths):
    """The writes of its parts, which have these lengths."""
    at = 0
    for length in lengths:
        yield call._replace(offset=call.offset + at,
                            data=call.data[at:at + length])
        at += length


def sentences(number, numbers, same):
    """Whether T-06 holds: number is what the single write gave, numbers what
    its parts gave, and same tells whether both left the same image."""
    if number == 0:
        return not any(numbers) and same
    if number == 17:
        return 17 in numbers and not any(numbers[:numbers.index(17)])
    return numbers[0] == number


def behind(number, numbers):
    """What document 01 gives for the other parts: behind 17 each one begins
    above the logical length; behind another refusal nothing has changed."""
    if number == 17:
        return set(numbers[numbers.index(17) + 1:]) <= {16}
    return set(numbers) == {number}


def in_parts(tape, call, lengths, want=None, put_back=None):
    """A write in one piece, then in parts of these lengths.  Between them the
    image is put in its place again where the write has changed it.  The write
    must give the number wanted, if there is one."""
    start = bytes(tape.machine.image)
    tape.add(*call)
    number, whole = tape.number(), bytes(tape.machine.image)
    if whole != start:
        if put_back is None:
            tape.add('I', start)
        else:
            put_back()
    kept = bytes(tape.machine.image) == start
    numbers = []
    for part in parts_of(call, lengths):
        tape.add(*part)
        numbers.append(tape.number())
    same = bytes(tape.machine.image) == whole
    if (want not in (None, number) or not kept
            or not sentences(number, numbers, same)
            or not behind(number, numbers)):
        raise SystemExit('a write at %d in parts of %r: %d and %r' % (
            call.offset, lengths, number, numbers))
    if tape.machine.wrapped:
        texts = part_notes.met_wrapped(number)
    else:
        texts = part_notes.met(start, call, lengths, number, numbers)
    tape.note('parts', texts)
    if number in (0, 17) and not tape.machine.wrapped:
        tape.note('clumps', clump_notes.in_parts(start, call, lengths))


# Writes and their parts

def end_for(rng, a, logical, blocks, free, offset, end):
    """Where a write at this offset ends."""
    most = (blocks + free) * a
    border = a * rng.randint(offset // a + 1, max(offset, most) // a + 1)
    return {'fits': most, 'one byte less': most - 1,
            'last block begun': most - a + 1,
            "block's end": border + rng.randint(-1, 1),
            'own blocks': blocks * a, 'inside': rng.randint(offset, logical),
            'nothing': offset, 'any': offset + rng.randint(0, 3 * a),
            'one byte more': most + 1, 'one block more': most + a,
            'more': most + rng.randint(2, 2 * a)}[end]


def forks_of(state):
    """The name, the fork, its logical length and count of blocks, for all."""
    return [(name, fork, *state.forks[name][fork])
            for name in state.names for fork in (0, 1)]


def some_fork(rng, state, kind):
    """A fork of this kind, or another where there is none."""
    forks = forks_of(state)
    return rng.choice([fork for fork in forks if {
        'filled': fork[2] > 0, 'empty': fork[3] == 0,
        'surplus': spare(state.block_size, *fork[2:]) > 0}[kind]] or forks)


def spare(a, logical, blocks):
    """The blocks that a fork has more than it needs."""
    return blocks - volume.blocks_for(logical, a)


def write_in(rng, state, aim, most=MOST_BYTES):
    """A write with this aim, but not of more bytes than these, and the lengths
    of its parts."""
    kind, end = aim
    own, fork, logical, blocks = some_fork(rng, state, kind)
    a, free = state.block_size, state.free
    offset = rng.choice((0, logical, logical, rng.randint(0, logical),
                         logical // a * a))
    if end == 'inside':
        offset = rng.randint(0, logical // 2)
    end = end_for(rng, a, logical, blocks, free, offset, end)
    offset = max(offset, min(end - most, logical))
    length = min(max(0, end - offset), most)
    call = Write('W', maker.other_case(rng, own), fork, offset,
                 maker.some_bytes(rng, length), rng.getrandbits(32))
    return call, lengths_for(rng, call, a, (blocks + free) * a - offset)


def lengths_for(rng, call, a=512, fits=MOST_BYTES):
    """The lengths of a write's parts, some of them 0; fewer parts where the
    name makes each record long.  The cuts lie before one byte, behind it, or
    on both sides: the first byte that does not fit, if there is one."""
    total = len(call.data)
    count = rng.choice((1, 2, rng.randint(3, 9), rng.randint(3, 39),
                        MOST_PARTS))
    if len(call.name) > 40:
        count = min(count, 5)
    empty = rng.choice(((), ('first',), ('middle',), ('first', 'last'),
                        maker.PLACES))
    if count <= len(empty):
        empty = ()
    points = count - 1 - len(empty)
    byte = fits if fits < total else rng.randint(0, total)
    low, high = (0, byte), (min(byte + 1, total), total)
    spans = rng.choice((
        [low] * points, [high] * points,
        ([low, high] + [(0, total)] * points)[:points]))
    cuts = sorted(cut_within(rng, span, call.offset, a) for span in spans)
    lengths = [to - at for at, to in zip([0] + cuts, cuts + [total])]
    for place in empty:
        at = {'first': 0, 'middle': rng.randint(0, len(lengths)),
              'last': len(lengths)}[place]
        lengths.insert(at, 0)
    return lengths


def cut_within(rng, span, offset, a):
    """A place in this span, often at a block's end or beside it."""
    low, high = span
    at = rng.randint(low, high)
    if rng.random() < 0.4:
        at += -(offset + at) % a + rng.randint(-1, 1)
    return max(low, min(at, high))


def any_write(rng, state, **given):
    """A write, good or not, with the arguments that are given, and the lengths
    of its parts; a call takes the offset of the last one too."""
    call = Write(*chooser.write_call(rng, state, 400))._replace(**given)
    call = call._replace(offset=min(call.offset, TOP - len(call.data)))
    return call, lengths_for(rng, call)


# Runs

def small(rng, free, **want):
    """A small disk of four files with short names, with this many free blocks,
    and a fork with surplus blocks."""
    while True:
        names = []
        for _ in range(4):
            names.append(maker.new_name(rng, rng.randint(2, 12), names))
        m = maker.make(rng, names=names, **{
            'limit': 9, 'per': 1, 'n': rng.randint(4, 7), 'dir_length': 1,
            'tight': True, 'base': 'random', 'locked': False, 'file_locks': 0,
            'surplus': 0.5, 'next_kind': 'small', **want})
        if m.free in free and any(spare(m.a, fork.logical, len(fork.blocks))
                                  for fork in m.forks()):
            return m


def hall_parts(tape):
    """The cases P3 to P6 in parts, and what lies beside them."""
    rng = random.Random(81)
    for number, fork, offset, lengths in (
            (0, 0, 700, [34] * 39 + [22]), (0, 0, 700, [1348]),
            (0, 0, 700, [0] * 38 + [1348, 0]), (0, 0, 700, [324, 512, 512]),
            (0, 0, 700, [200, 0, 200]), (0, 0, 700, [0]), (0, 1, 0, [0] * 3),
            (0, 0, 700, [0] * 40), (0, 0, 0, [512, 188]),
            (0, 0, 512, [512, 512, 0]), (0, 1, 0, [0, 512, 512]),
            (0, 1, 0, [0, 1]), (0, 1, 0, [0, 0, 513, 0]),
            (17, 0, 700, [400, 949]), (17, 0, 700, [1349]),
            (17, 0, 700, [1348, 1, 0]), (17, 0, 700, [0, 1349, 0, 0]),
            (17, 0, 700, [34] * 39 + [23]), (17, 1, 0, [0, 513, 512]),
            (16, 0, 701, [0]), (16, 0, 701, [0, 0]), (16, 0, 701, [1, 0, 1]),
            (16, 1, 1, [0, 700]), (16, 0, TOP, [0] * 3),
            (16, 0, TOP - 40, [1] * 40)):
        if tape.machine.image != hall.hall():
            tape.add('I', hall.hall())
        data = maker.some_bytes(rng, sum(lengths))
        in_parts(tape, Write('W', b'WEEK1', fork, offset, data, DATE), lengths,
                 number)


def aimed_writes(tape, rng, aims, least):
    """Writes with these aims; the longest fork is cut shorter where fewer
    blocks are free than they should be."""
    for aim in aims:
        state = tape.state()
        if state.free < least:
            name, fork, logical, _ = max(forks_of(state), key=lambda f: f[3])
            tape.gives(0, 'U', name, fork, rng.randint(0, logical // 2), DATE)
        in_parts(tape, *write_in(rng, tape.state(), aim))


def some_room(tape, count):
    """Disks with room, and blocks of one to four logical blocks."""
    rng = random.Random(82)
    for i in range(count):
        per, n = ((1, 6), (2, 3), (1, 5), (1, 7), (3, 2), (1, 6), (4, 2))[i % 7]
        m = small(rng, range(n // 2, n), per=per, n=n, surplus=0.8)
        tape.add('I', m.image())
        aimed_writes(tape, rng, FITTING[i % 4], 2)


def little_room(tape, count):
    """Disks with no free block or a few, and writes for which the room is just
    too small."""
    rng = random.Random(83)
    for i in range(count):
        per, n = ((1, 5), (1, 6), (2, 3), (1, 4))[i % 4]
        m = small(rng, ((0,), (1,), (2,), (1, 2, 3))[i // 2 % 4], per=per, n=n,
                  surplus=(0.2, 0.9)[i % 2])
        tape.add('I', m.image())
        aims = TOO_LONG[i % 2:][:8] + FITTING[i % 4][3:4]
        aimed_writes(tape, rng, aims, (0, 0, 1, 2)[i % 4])


def refused_images(tape):
    """Kinds of damage for each number, and two at a time."""
    rng = random.Random(84)
    for number in range(1, 11):
        kinds = [kind for kind in maker.DAMAGES if kind[0] == number]
        for kind in rng.sample(kinds, 2):
            refused(tape, rng, maker.damaged(rng, kind), number)
    for _ in range(2):
        refused(tape, rng, maker.doubly_damaged(rng))


def refused(tape, rng, m, number=None):
    """Writes on an image that gives this number."""
    tape.add('I', m.image())
    for _ in range(5):
        in_parts(tape, *any_write(rng, chooser.state_of_made(m)), number)


def in_order(tape, count):
    """Refusals where later ones may come too; then some of these writes on a
    locked volume."""
    rng = random.Random(85)
    for i in range(count):
        m = small(rng, range(3))
        state = chooser.state_of_made(m)
        file = m.files()[i % 4]
        file.flags |= 1
        others = [name for name in state.names if name != file.name]
        writes = []
        for _ in range(4):
            for number, name in ((12, chooser.bad_name(rng, state)),
                                 (13, chooser.missing_name(rng, state)),
                                 (15, maker.other_case(rng, file.name))):
                writes.append((number, *any_write(rng, state, name=name)))
            for more in {}, {}, {'data': b''}:
                name, fork = rng.choice(others), rng.randrange(2)
                above = state.forks[name][fork][0] + 1
                writes.append((16, *any_write(
                    rng, state, name=name, fork=fork, offset=rng.choice(
                        (above, above, above + 500, 1 << 32, TOP)), **more)))
        tape.add('I', m.image())
        for number, call, lengths in writes:
            in_parts(tape, call, lengths, number)
        m.attributes |= rng.choice((0x80, 0x8000))
        tape.add('I', m.image())
        for _, call, lengths in rng.sample(writes, 5):
            in_parts(tape, call, lengths, 11)


def flips(tape, count):
    """Single bytes changed at random, as in the list's other flips."""
    rng = random.Random(86)
    for _ in range(count):
        m = maker.rich(rng, per=1)
        tape.add('I', maker.flipped(rng, m))
        for _ in range(3):
            in_parts(tape, *any_write(rng, chooser.state_of_made(m)))


# Wrapped files

def in_a_file(tape, call, lengths):
    """In a wrapped file, which is too large to be put in its place again:
    before each of the two, other bytes are written where the write's bytes go,
    and the fork is cut to the length that it had.  It is cut so in the
    beginning too, and has no surplus block then."""
    room = part_notes.Room(tape.inside(), call, lengths)
    other = bytes(255 - b for b in call.data[:room.most - call.offset])

    def cut_back():
        tape.gives(0, 'U', call.name, call.fork, room.logical, DATE)

    def put_back():
        tape.gives(0, *call._replace(data=other, changed=DATE))
        cut_back()

    cut_back()
    put_back()
    in_parts(tape, call, lengths, put_back=put_back)


def open_state(tape):
    """The state with only the files that are not locked and have short
    names."""
    v = tape.volume()
    v.entries = [placed for placed in v.entries
                 if placed.size < 90 and not placed.entry.flags & 1]
    return chooser.state_of_volume(v)


def on_a_disk(tape, aims):
    """Writes with these aims in forks of the files of open_state."""
    rng = random.Random(87)
    for aim in aims:
        in_a_file(tape, *write_in(rng, open_state(tape), aim, 1500))


def refused_file(tape, number, state, count):
    """Writes on a wrapped file that gives this number."""
    rng = random.Random(88)
    for _ in range(count):
        in_parts(tape, *any_write(rng, state), number)


def runs(tape):
    hall_parts(tape)
    some_room(tape, 16)
    little_room(tape, 10)
    refused_images(tape)
    in_order(tape, 4)
    flips(tape, 4)
