"""Runs on wrapped files, and of wrap, for the list.

A file takes 409,684 bytes of the list or more, so there are few files and many
calls on each.
"""

import random

import accents
import chooser
import clumps
import diskcopy
import hall
import maker
import parts
import replay
import volume
import water
import wrapper

NINE = replay.NINE
ROOM = diskcopy.TAGS_AT             # the buffer's length that wrap takes
WEEK = b'Week 01'


def wrap_call(rng, name_length=None, length=ROOM):
    if name_length is None:
        name_length = rng.choice((0, 1, 62, 63, rng.randint(2, 61)))
    return ('K', maker.any_name(rng, name_length), rng.getrandbits(8), length)


# Refused files

def refused(tape, rng, number, text, file, m, rounds):
    """The nine calls, each of which gives this number, a write in parts too,
    and a wrap, a rename and quick finds, for which the file is an image of
    wrong length."""
    tape.add('X', file)
    state = chooser.state_of_made(m)
    for tag in NINE * rounds:
        tape.some(rng, tag, state)
        tape.expect(number, text)
    parts.refused_file(tape, number, state, 5)
    tape.add(*wrap_call(rng))
    tape.gives(1, *chooser.choose(rng, state, 'M'))
    for name in (state.names[0], b'No such name', b''):
        tape.gives(1, 'Q', name)


def refused_inside(tape):
    """One kind of damage for each of 2 to 10, for 7 both spellings."""
    rng = random.Random(31)
    for number in range(2, 11):
        kind = rng.choice([k for k in maker.ON_A_DISK if k[0] == number
                           and (number != 7 or 'accents' in k[1])])
        m = maker.damaged_400k(rng, kind)
        file = wrapper.Wrapper(rng, tags=number % 2).file(m.image())
        refused(tape, rng, number, kind[1], file, m, 10)


# the number, what is wrong, whether there are tags, wrong facts inside, and
# the numbers that are changed in the file: where, by how much, their size
OUTSIDE = (
    (22, 'name length 64, data checksum one off', False, {},
     ((0, 64, 1), (72, 1, 4))),
    (23, 'both checksums one off', True, {}, ((72, 1, 4), (76, -1, 4))),
    (23, 'last byte of the data', False, {}, ((diskcopy.TAGS_AT - 1, 1, 1),)),
    (24, 'byte 12 of the tags', True, {}, ((diskcopy.TAGS_AT + 12, 1, 1),)),
    (24, 'a checksum of no tags, and the signature', False,
     {'signature': 0x4244}, ((76, 1, 4),)))


def refused_outside(tape):
    rng = random.Random(32)
    for number, text, tags, facts, changes in OUTSIDE:
        m = maker.disk_400k(rng)
        m.wrong.update(facts)
        file = wrapper.Wrapper(rng, name_length=0, tags=tags).file(m.image())
        for change in changes:
            wrapper.off(file, *change)
        refused(tape, rng, number, text, file, m, 6)


def short_files(tape):
    """A sound file's first bytes."""
    rng = random.Random(33)
    m = maker.disk_400k(rng)
    file = wrapper.Wrapper(rng).file(m.image())
    for length in (0, 1, 83, 84, 85, 596, 2132, 4180):
        refused(tape, rng, 22, 'length %d' % length, file[:length], m, 2)


# Changes

def refused_renames(tape, rng):
    """Rename and quick find take only bare images."""
    for kind in 'MMEMFMR':
        tape.some(rng, kind)
        if kind == 'M':
            tape.expect(1, 'rename in a wrapped file')
    for name in tape.state().names[:6]:
        tape.gives(1, 'Q', name)


def without_tags(tape):
    """A full disk: forks that grow until no block is left, a long run, and
    the directory filled."""
    rng = random.Random(34)
    m = maker.disk_400k(rng, dir_length=3, full_disk=True, base='sparse',
                        file_locks=0.2)
    tape.add('X', wrapper.Wrapper(rng, name_length=62).file(m.image()))
    for turn in range(24):
        tape.fill_fork(rng, turn)
        tape.some(rng, 'BR' + 'UU' * (turn % 6 == 5))
    parts.on_a_disk(tape, parts.TOO_LONG * 2)
    tape.some(rng, [rng.choice('CEFBBBRNNWWWWUUDD') for _ in range(750)])
    refused_renames(tape, rng)
    for turn in range(8):
        for length in rng.sample((31, 31, 31, 1, 30, 20, 1, 2, 27, 24), 7):
            tape.create_new(rng, length)
            tape.fill_last_block(rng)
        tape.some(rng, 'EFDDRC')


def with_tags(tape):
    """A long run over blocks of 512 bytes, and accented names."""
    rng = random.Random(35)
    m = maker.disk_400k_of_640(rng, base='sparse')
    tape.add('X', wrapper.Wrapper(rng, name_length=63, tags=True).file(
        m.image()))
    tape.some(rng, [rng.choice('CEFFBBRRNNNWWWWUUUDD') for _ in range(1000)])
    tape.add('C')
    accents.on_a_disk(tape)
    parts.on_a_disk(tape, parts.FITTING[0] + parts.FITTING[1])
    refused_renames(tape, rng)


def last_numbers(tape):
    """Creates up to the last file number, on a disk of large blocks that is
    full of bytes; a clump has three of them."""
    rng = random.Random(36)
    m = clumps.with_clump(maker.disk_400k(
        rng, per=64, n=12, s=20, next_kind='near', file_locks=0.4), '3 A')
    tape.add('X', wrapper.Wrapper(rng, name_length=0, tags=True).file(
        m.image()))
    for length in (1, 5, 9, 31, 30, 8, 32):
        tape.create_new(rng, length)
        tape.some(rng, 'EFW')
    tape.some(rng, [rng.choice('CEFBRNNWWWUUD') for _ in range(300)])
    parts.on_a_disk(tape, parts.FITTING[3])
    clumps.on_a_disk(tape, 36)
    tape.add('C')


def locked(tape):
    rng = random.Random(37)
    m = maker.disk_400k(rng, locked=True)
    tape.add('X', wrapper.Wrapper(rng, name_length=1).file(m.image()))
    tape.some(rng, 'CNEWFUBDR' * 14 + 'NWUDC')
    parts.refused_file(tape, 11, chooser.state_of_made(m), 12)


# Wrap

def wraps(tape):
    """The disk WATER, which is wrapped between changes; HALL is too short.  A
    bare image said to be wrapped is refused by the nine calls, and wrap,
    rename and quick find take it."""
    rng = random.Random(38)
    tape.add('I', hall.hall())
    for _ in range(12):
        tape.add(*wrap_call(rng))
    disk = water.water()
    tape.add('I', disk)
    for turn in range(12):
        for name_length in (0, 1, 62, 63, None):
            tape.add(*wrap_call(rng, name_length))
        tape.add('W', WEEK, turn % 2, 0, maker.some_bytes(rng, 20), turn)
    for name_length in (64,) * 10 + (65, 127, 128, 255, 256, 319, 1024):
        tape.add(*wrap_call(rng, name_length))
    for length in (0, 1, 83, 84, 85, 512, 65535, 65536, 409600, 409683,
                   409685, 419284, 419328):
        tape.add(*wrap_call(rng, length=length))
    tape.add(*wrap_call(rng, 64, 409685))
    tape.add('X', disk)
    tape.some(rng, NINE, chooser.state_of_volume(volume.Volume(disk)))
    tape.add(*wrap_call(rng))
    for week in range(20, 32):
        tape.gives(0, 'M', b'Week %02d' % week, b'WEEK%02d BAD' % week, week)
        tape.gives(0, 'Q', b'Week%02d bad' % week)
        tape.gives(13, 'Q', b'Week %02d' % week)
    tape.add(*wrap_call(rng))


def refused_wraps(tape, rng, kind):
    """Wraps of a disk with one kind of damage, which are not in the list."""
    tape.add('I', maker.damaged_400k(rng, kind, base='sparse').image())
    for _ in range(5):
        tape.add(*wrap_call(rng))
        tape.expect(*kind[:2])


def runs(tape):
    refused_inside(tape)
    refused_outside(tape)
    short_files(tape)
    without_tags(tape)
    with_tags(tape)
    last_numbers(tape)
    locked(tape)
    wraps(tape)
