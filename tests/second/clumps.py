"""Runs with clumps, for the list (T-07 of document 02): sizes that count and
sizes that do not, writes that round, that just fit or just miss, cuts and
deletes between them, the same in parts, and in a wrapped file."""

import random

import clump_notes
import hall
import maker
import parts
import volume
from parts import DATE

# Kinds of clump size, each with the logical blocks of an allocation block, the
# count of these, and the blocks that the fork written to has in the beginning:
# clumps that fit the disk, clumps of one block or of more than all, and sizes
# that do not count, with A above 512.
FITTING = (('2 A', 1, 8, 4), ('3 A', 1, 9, 5), ('4 A', 1, 9, 5),
           ('8 A', 1, 10, 3), ('N A', 1, 6, 3), ('2 A', 1, 7, 4),
           ('3 A', 1, 8, 4), ('N A', 1, 7, 4), ('2 A', 2, 5, 3),
           ('3 A', 3, 4, 2), ('4 A', 2, 6, 3), ('2 A', 4, 3, 2))
FAR = (('A', 1, 5, 2), ('N+1 times A', 1, 5, 2), ('130 A', 1, 5, 3),
       ('65,535 A', 1, 4, 2), ('last multiple of A', 1, 4, 2), ('A', 2, 3, 1))
ABOVE_512 = (('0', 3, 2, 1), ('A/2', 4, 2, 1), ('512', 2, 3, 1),
             ('A-512', 3, 2, 1), ('A+1', 2, 3, 1), ('A+512', 3, 2, 1),
             ('2 A-1', 4, 2, 1), ('2 A+1', 2, 3, 1), ('2 A+512', 3, 3, 1),
             ('3 A-512', 2, 4, 1))


def with_clump(m, kind):
    """The volume with this kind of clump size."""
    m.clump = clump_notes.sizes(m.a, m.n)[kind]
    return m


def disk(rng, kind, per, n, held):
    """A small disk of four files with this kind of clump size.  One fork has
    so many blocks, one more than it needs; gives its name and fork too."""
    names = []
    for _ in range(4):
        names.append(maker.new_name(rng, rng.randint(1, 5), names))
    m = maker.make(rng, names=names, limit=9, per=per, n=n, dir_length=1,
                   tight=True, base='random', locked=False, file_locks=0,
                   next_kind='small', first=(held,))
    file, which = next((file, which) for file in m.files() for which in (0, 1)
                       if len(file.forks[which].blocks) == held)
    file.forks[which].logical = (held - 1) * m.a
    return with_clump(m, kind), (file.name, which)


# Steps

def set_free(tape, rng, subject, want):
    """Other forks get a block or are cut to nothing, until so many blocks are
    free or no fork is left for it."""
    while tape.state().free != want:
        fill = tape.state().free > want
        found = [fork for fork in parts.forks_of(parts.open_state(tape))
                 if fork[:2] != subject and (fork[3] == 0) == fill]
        if not found:
            return
        name, fork, _, blocks = rng.choice(found)
        if blocks:
            tape.gives(0, 'U', name, fork, 0, DATE)
            continue
        data = maker.some_bytes(rng, rng.randint(1, 5))
        tape.gives(0, 'W', name, fork, 0, data, DATE)
        if tape.state().free < want:
            tape.gives(0, 'U', name, fork, len(data), DATE)


def write(tape, rng, subject, offset, length, turn):
    """A write, and two of the calls that ask, by turns."""
    own, fork = subject
    name = maker.other_case(rng, own)
    tape.add('W', name, fork, offset, maker.some_bytes(rng, length),
             rng.getrandbits(32))
    state = tape.state()
    logical, blocks = state.forks[own][fork]
    calls = (('B', name, fork, max(0, blocks - 1)), ('C',),
             ('B', name, fork, blocks), ('F', name),
             ('R', name, fork, max(0, logical - 90), 100),
             ('E', state.names.index(own)))
    for i in (2 * turn, 2 * turn + 1):
        tape.add(*calls[i % len(calls)])


def unneeded(tape, rng, subject, turn):
    """A write that needs no new block."""
    state = tape.state()
    logical, blocks = state.forks[subject[0]][subject[1]]
    room = blocks * state.block_size
    offset = rng.choice((logical, logical, rng.randint(0, logical),
                         max(0, logical - 9)))
    length = rng.choice((0, logical - offset, logical - offset + 1,
                         rng.randint(1, 30), room - offset, room - offset))
    write(tape, rng, subject, offset, min(length, room - offset, 60), turn)


def needed(tape, rng, subject, need, turn):
    """A write that needs so many new blocks."""
    state = tape.state()
    logical, blocks = state.forks[subject[0]][subject[1]]
    a = state.block_size
    offset = max(0, logical - rng.choice((0, 0, rng.randint(1, 20))))
    end = (blocks + need - 1) * a + rng.choice((1, 1, rng.randint(1, 30)))
    write(tape, rng, subject, offset, end - offset, turn)


def cut_to(tape, rng, subject, keep):
    """A cut of the fork to so many blocks, the last one full or nearly, where
    it has as many bytes."""
    own, fork = subject
    state = tape.state()
    length = keep * state.block_size - rng.choice((0, rng.randint(1, 30)))
    tape.gives(0, 'U', own, fork,
               min(max(0, length), state.forks[own][fork][0]), DATE)


def step(tape, rng, subject, keep, clump, turn):
    """A cut, and writes behind it, with as many blocks free as make the write
    round or miss, or a few more or less."""
    cut_to(tape, rng, subject, keep)
    a = tape.state().block_size
    need = 2 if a == 512 and turn % 3 == 1 else 1
    whole = need + -(keep + need) % clump
    set_free(tape, rng, subject, rng.choice(
        [0] * (2 if a > 512 else 3 * (need - 1))
        + [need - 1, need, whole - 1, whole, whole, whole + 1]))
    if turn % 3:
        unneeded(tape, rng, subject, turn // 3)
    needed(tape, rng, subject, need, turn)
    own, fork = subject
    spare = parts.spare(a, *tape.state().forks[own][fork])
    if turn % 2 == 0 and 0 < spare * a < 1500:
        # the next clump
        set_free(tape, rng, subject, (
            0, clump, clump - 1, clump + 1)[turn // 2 % 4])
        needed(tape, rng, subject, 1, turn)


def after_delete(tape, rng, subject, keep, turn):
    """A cut, the delete of the other file with the most blocks, a write, and a
    new file in the place of the other."""
    cut_to(tape, rng, subject, keep)
    state = tape.state()
    tape.gives(0, 'D', max(
        (name for name in state.names if name != subject[0]),
        key=lambda name: sum(blocks for _, blocks in state.forks[name])))
    needed(tape, rng, subject, 1, turn)
    tape.create_new(rng, rng.randint(1, 5))


# Runs

def one_disk(tape, rng, shape, steps):
    """So many steps for each count of blocks that the fork is cut to.  Where
    no clump is to be filled, they go as if it had 2 or 3 blocks."""
    m, subject = disk(rng, *shape)
    clump = volume.clump_blocks(m.clump, m.a)
    tape.add('I', m.image())
    for turn in range(2):
        unneeded(tape, rng, subject, turn)
    for turn in range(steps * shape[-1]):
        near = clump if 1 < clump <= m.n else rng.choice((2, 3))
        keep = shape[-1] - 1 - turn // steps
        step(tape, rng, subject, keep, near, turn)
        if turn % 4 == 3:
            after_delete(tape, rng, subject, keep, turn)
    tape.gives(0, 'C')


def disks(tape):
    """Each kind of clump size, with blocks of 512 bytes and with larger
    ones."""
    rng = random.Random(91)
    for shape in FITTING + FAR:
        one_disk(tape, rng, shape, 4)
    for kind in clump_notes.idle(512):
        one_disk(tape, rng, (kind, 1, 4, 2), 5)
    for shape in ABOVE_512:
        one_disk(tape, rng, shape, 8)


def hall_clumps(tape):
    """The cases P3 to P8 with other clump sizes, and what lies beside them."""
    new = bytes(range(1, 251)) * 6
    for clump in (1024, 1536, 2560):
        tape.add('I', hall.hall(clump))
        for call in (
                ('W', b'WEEK1', 0, 700, b'', 1),
                ('W', b'WEEK1', 0, 701, b'', 2),
                ('W', b'WEEK1', 0, 700, new[:1349], 3),
                ('W', b'WEEK1', 0, 700, new[:324], 4),
                ('W', b'WEEK1', 0, 700, new[:400], 5),
                ('U', b'WEEK1', 0, 1024, 6), ('W', b'RATES', 1, 0, b'r', 7),
                ('W', b'WEEK1', 0, 1024, b'w', 8), ('U', b'WEEK1', 0, 513, 9),
                ('D', b'RATES'), ('W', b'WEEK1', 0, 513, new[:512], 10),
                ('U', b'WEEK1', 0, 512, 11), ('W', b'WEEK1', 1, 0, b'w', 12),
                ('W', b'WEEK1', 0, 512, new[:513], 13)):
            tape.add(*call)
            tape.add('F', b'WEEK1')
            tape.add('B', b'WEEK1', 0, 3)
            tape.add('C')


# In parts

def bytes_there(v, call):
    """The bytes that lie where a write puts its own, as far as there is
    room."""
    chain = v.file_of(call.name).chains[call.fork] + v.free_blocks()
    room = len(chain) * v.facts.block_size - call.offset
    return b''.join(v.image[at:at + run] for at, run in v.pieces(
        chain, call.offset, min(room, len(call.data))))


def at_borders(rng, call, a):
    """The lengths of a write's parts, of which one ends at each block's end or
    a byte before it."""
    total = len(call.data)
    cuts = [at - rng.randint(0, 1)
            for at in range(a - call.offset % a, total, a)]
    return [to - at for at, to in zip([0] + cuts, cuts + [total])]


def both_ways(tape, rng, subject, need, spill=0):
    """A write that needs so many new blocks, in one piece and in parts.  Its
    bytes are those that lie there already, so that a cut undoes it.  If spill
    is not 0, so many bytes begin a clump before."""
    own, fork = subject
    a, full = tape.state().block_size, tape.state().forks[own][fork][0]

    def put_back():
        tape.gives(0, 'U', own, fork, full, DATE)
        if spill:
            tape.gives(0, 'W', own, fork, full, b'.' * spill, DATE)

    put_back()
    offset, blocks = tape.state().forks[own][fork]
    end = (blocks + need - 1) * a + rng.choice((1, 1, rng.randint(2, 40)))
    data = maker.some_bytes(rng, end - offset)
    call = parts.Write('W', maker.other_case(rng, own), fork, offset, data,
                       rng.getrandbits(32))
    there = bytes_there(tape.volume(), call)
    call = call._replace(data=there + data[len(there):])
    lengths = (parts.lengths_for(rng, call, a, len(there)) if spill else
               at_borders(rng, call, a))
    parts.in_parts(tape, call, lengths, put_back=put_back)


# Writes in parts: the new blocks needed, the bytes that begin a clump before,
# and the free blocks before these.  Then the disks, each with its writes, by
# the blocks that the fork is cut to.
OF_TWO = [(2, 0, 2), (3, 0, 2), (3, 0, 2), (3, 0, 3), (3, 0, 3), (3, 0, 4),
          (3, 0, 4), (1, 5, 2), (1, 5, 3), (1, 5, 5)]
ODD = [(1, 0, 1), (2, 0, 2), (2, 0, 3)]
IN_PARTS = (
    (('2 A', 1, 9, 5), {4: OF_TWO, 3: ODD, 2: OF_TWO, 1: ODD, 0: OF_TWO}),
    (('2 A', 1, 7, 3), {2: OF_TWO, 1: ODD, 0: OF_TWO[1:]}),
    (('3 A', 1, 6, 2), {1: [(1, 0, 1), (1, 0, 2), (2, 0, 2), (2, 0, 5)],
                        0: [(1, 0, 2), (1, 0, 3), (2, 0, 2), (2, 0, 3),
                            (4, 0, 4), (4, 0, 6), (1, 5, 4), (1, 5, 5)]}))


def in_parts(tape):
    """Forks that are cut block by block; most writes begin at a clump's end
    and need more than one clump."""
    rng = random.Random(92)
    for shape, writes in IN_PARTS:
        m, subject = disk(rng, *shape)
        tape.add('I', m.image())
        for keep in writes:
            for need, spill, free in writes[keep]:
                tape.gives(0, 'U', *subject, keep * m.a, DATE)
                set_free(tape, rng, subject, free)
                both_ways(tape, rng, subject, need, spill)
        tape.gives(0, 'C')


# In a wrapped file

def on_a_disk(tape, turns):
    """Empty forks on a disk of large blocks, with no block free or a few."""
    rng = random.Random(93)
    for turn in range(turns):
        own, fork = subject = rng.choice([
            fork[:2] for fork in parts.forks_of(parts.open_state(tape))
            if fork[3] == 0])
        set_free(tape, rng, subject, turn % 6)
        needed(tape, rng, subject, 1, turn)
        logical, _ = tape.state().forks[own][fork]
        if logical:
            unneeded(tape, rng, subject, turn)
            tape.gives(0, 'U', own, fork, rng.choice((0, logical)), DATE)


def runs(tape):
    hall_clumps(tape)
    disks(tape)
    in_parts(tape)
