"""Writes the sample disks and the programs' tests into a repository.

    generate.py [ROOT] [--check] [--counts] [--calls reading|changing|all]
    generate.py --quick DIR [--counts]
    generate.py --bad DIR

The same bytes come out each time.  With --check nothing is written: each file
that differs gives a line, and the exit code is then 1.  With --counts tables
show how often each call gives each number, how often it succeeds on names of
each length, and what else the list must contain.  With --quick only the list
with quick finds is written, as quick.in and quick.out.  With --bad only the bad
inputs for the programs are written, NAME.in and NAME.out side by side:
list-... for the listing, replay-..., changes-..., wrapped-..., rename-... and
quick-... for replay.
"""

import argparse
import os
import random
import sys

import accents
import chooser
import clumps
import hall
import listing
import maker
import parts
import quick
import renames
import replay
import spelling
import tapes
import water
import wrapped_runs

READING = replay.READING
NINE = replay.NINE
ALL = replay.ALL

# The lists of calls: those that read and those that change, quick find apart;
# and quick find among them.
LISTS = {'reading': READING, 'changing': ALL.replace('Q', ''), 'all': ALL}
# which of them is the repository's, and which --quick writes
CALLS = 'changing'
QUICK = 'all'

# stdin has fewer bytes than this
LARGEST = {'reading': 4000000, 'changing': 20100000, 'all': 21500000}
FEWEST_CALLS = {'reading': 2000, 'changing': 6000, 'all': 6000}
FEWEST_EACH = 10

# the numbers that each call can give
CAN_GIVE = {tag: list(range(11)) + more for tag, more in {
    'C': [], 'E': [13], 'F': [12, 13], 'B': [12, 13, 16], 'R': [12, 13, 16],
    'N': [11, 12, 21, 14, 19, 18], 'W': [11, 12, 13, 15, 16, 17],
    'U': [11, 12, 13, 15, 16], 'D': [11, 12, 13, 15],
    'M': [11, 12, 21, 13, 15, 14, 18]}.items()}
# quick find, which takes a bare image that was said to be wrapped as it is
CAN_GIVE['Q'] = CAN_GIVE['XQ'] = [0, 1, 2, 3, 4, 12, 13]
# on a wrapped file, whose data are always 800 blocks
CAN_GIVE.update({'X' + tag: [n for n in CAN_GIVE[tag] if n != 1]
                 + [22, 23, 24] for tag in NINE})
# for rename a wrapped file is an image of wrong length; 0 comes where a bare
# image was said to be wrapped
CAN_GIVE['XM'] = [0, 1]
# wrap's 2 to 10 want nine more images of 400K, too many bytes for the list:
# damaged_headers.py runs them
CAN_GIVE['K'] = [0, 22]
NUMBERS = sorted(set().union(*CAN_GIVE.values()))

# Reading

def before_the_first_image(tape, tags):
    rng = random.Random(1)
    tape.some(rng, tags, chooser.State(512, 0, {}))


def hall_reading(tape):
    tape.add('I', hall.hall())
    tape.add('C')
    for place in (0, 1, 2, 3, 255, 256, 1 << 32, (1 << 64) - 1):
        tape.add('E', place)
    for name in (b'WEEK1', b'RATES', b'week1', b'rAtEs', b'', b'WEEK',
                 b'WEEK11', b'WEEK\x11', b'\0', b'W' * 255, b'W' * 256,
                 b'W' * 1024):
        tape.add('F', name)
        for fork in (0, 1):
            for place in (0, 1, 2, 3, 1 << 32, (1 << 64) - 1):
                tape.add('B', name, fork, place)
    for name in (b'WEEK1', b'rates', b'none'):
        for fork in (0, 1):
            for offset in (0, 1, 511, 512, 513, 699, 700, 701, 1024, 1 << 32,
                           (1 << 64) - 1):
                for length in (0, 1, 512, 701):
                    tape.add('R', name, fork, offset, length)
    tape.add('R', b'WEEK1', 0, 0, 65535)
    tape.add('R', b'', 0, 0, 65535)


def small_volume(rng, i):
    """Shapes by turns, so that each kind of shape comes up often."""
    if i % 12 == 0:
        return maker.smallest(rng)
    limit = (10, 12, 13, 14, 15, 16, 18, 20, 24)[i % 9]
    want = ({}, {'tight': True}, {'dir_length': 2},
            {'styles': ('full', 'nearly', 'short')}, {'full_disk': True},
            {'surplus': 0.9}, {'next_kind': 'end'}, {'n': 2},
            {'styles': ('some',)}, {'locked': True}, {'dir_length': 3})[i % 11]
    per = (1, 1, None, 1, 2, 1, None)[i % 7]
    return maker.make(rng, limit=limit, per=per, **want)


def middle_volume(rng):
    return maker.make(rng, limit=rng.randint(40, 90), locked=False,
                      per=rng.choice((1, 1, 2, 5)), full_disk=True)


def volumes_reading(tape, count):
    rng = random.Random(2)
    for i in range(count):
        m = small_volume(rng, i)
        tape.add('I', m.image())
        kinds = list('CC' + 'E' * 4 + 'F' * 4 + 'B' * 5 + 'R' * 5)
        rng.shuffle(kinds)
        tape.some(rng, kinds, chooser.state_of_made(m))


def large_reading(tape, shapes, more=''):
    rng = random.Random(3)
    for shape in shapes:
        m = shape(rng)
        state = chooser.state_of_made(m)
        tape.add('I', m.image())
        tape.some(rng, 'C' + 'EFBBRR' * 15 + 'C', state)
        # the longest fork from end to end
        name, forks = max(state.forks.items(),
                          key=lambda item: max(f[1] for f in item[1]))
        fork = max((0, 1), key=lambda which: forks[which][1])
        logical, count = forks[fork]
        for place in (0, count // 2, count - 1, count):
            tape.add('B', name, fork, max(0, place))
        for offset in (0, logical // 2, logical - 1, logical, logical + 1):
            tape.add('R', name, fork, max(0, offset), 65535)
        tape.some(rng, more)


def folding(tape):
    """Every name of one byte, among files that have one name of each two
    equal ones."""
    rng = random.Random(13)
    for left_out in (spelling.LOWER, spelling.UPPER):
        m = maker.every_byte(rng, left_out)
        tape.add('I', m.image())
        tape.add('C')
        for b in spelling.BYTES:
            tape.gives(0, 'F', bytes([b]))
        for name in (b'', b'\0\0', b'AA', b'zz', b'\x83\x83', b'\x8E\x8E'):
            tape.add('F', name)


def long_names_reading(tape, count):
    rng = random.Random(14)
    for _ in range(count):
        m = maker.long_names(rng)
        state = chooser.state_of_made(m)
        tape.add('I', m.image())
        tape.add('C')
        for place, own in enumerate(state.names):
            tape.add('E', place)
            name = maker.other_case(rng, own)
            for near in (name, own[:-1], name + b'A'):
                tape.add('F', near)
            for fork, (logical, blocks) in enumerate(state.forks[own]):
                tape.add('B', name, fork, rng.randrange(blocks))
                tape.add('R', own, fork, rng.randrange(logical), 600)


# Damage

def damage(tape, tags, rounds):
    """Each kind of damage once, and each number often enough."""
    rng = random.Random(4)
    for turn in range(rounds):
        for kind in maker.DAMAGES:
            alike = sum(other[0] == kind[0] for other in maker.DAMAGES)
            if turn > 0 and alike * turn >= FEWEST_EACH:
                continue
            one_bad_image(tape, rng, tags, maker.damaged(rng, kind))
    for _ in range(24):
        one_bad_image(tape, rng, tags, maker.doubly_damaged(rng))
    for number, text, shape in maker.LARGE_DAMAGES:
        one_bad_image(tape, rng, tags, shape(rng))


def one_bad_image(tape, rng, tags, m):
    some_calls(tape, rng, tags, m.image(), chooser.state_of_made(m))


def some_calls(tape, rng, tags, image, state):
    """One call of each kind, and several quick finds."""
    tape.add('I', image)
    tape.some(rng, tags.replace('Q', ''), state)
    if 'Q' in tags:
        quick.asks(tape, state)


def flips(tape, tags, count):
    """Single bytes changed at random; about half are still accepted."""
    rng = random.Random(5)
    for _ in range(count):
        m = maker.rich(rng)
        some_calls(tape, rng, tags, maker.flipped(rng, m),
                   chooser.state_of_made(m))


# Changing

def hall_changes(tape):
    """The cases P3 to P10, and what lies beside them."""
    new = b'0123456789abcdef' * 100
    date = 2500700000
    for calls in (
            [('W', b'WEEK1', 0, 700, new[:400], date)],
            [('W', b'WEEK1', 0, 700, new[:1348], date)],
            [('W', b'WEEK1', 0, 700, new[:1349], date)],
            [('W', b'WEEK1', 0, 700, b'', date)],
            [('W', b'WEEK1', 0, 701, b'', date)],
            [('W', b'WEEK1', 1, 0, b'', date)],
            [('W', b'WEEK1', 1, 0, b'r', date), ('B', b'WEEK1', 1, 0)],
            [('W', b'WEEK1', 1, 0, new[:1024], date)],
            [('W', b'WEEK1', 1, 0, new[:1025], date)],
            [('U', b'WEEK1', 0, 513, date)],
            [('U', b'WEEK1', 0, 512, date)],
            [('U', b'WEEK1', 0, 700, date)],
            [('U', b'WEEK1', 0, 701, date)],
            [('U', b'WEEK1', 0, 0, date), ('B', b'WEEK1', 0, 0)],
            [('D', b'RATES')],
            [('D', b'week1'), ('E', 0), ('E', 1)],
            [('D', b'WEEK1'), ('D', b'WEEK1'), ('D', b'RATES'), ('C',)],
            [('N', b'week1', new[:16], date, date)],
            [('D', b'week1'), ('N', b'week1', new[:16], date, 1), ('E', 1),
             ('W', b'WEEK1', 0, 0, new[:1100], 2), ('B', b'WEEK1', 0, 2),
             ('R', b'WEEK1', 0, 0, 2000)],
            [('N', name, new[:16], date, 2) for name in (
                b'A', b'a', b'B' * 31, b'b' * 32, b'C' * 255, b'', b'D' * 256,
                b'E' * 1024, b'B' * 30, b'F' * 31, b'G' * 31, b'H', b'H' * 32,
                b'b' * 31)],
            [('N', name, new[:16], date, 2) for name in (
                b'A' * 31, b'B' * 31, b'C' * 31, b'D' * 31, b'E' * 22,
                b'E' * 21, b'F', b'F' * 32, b'G' * 255)]):
        tape.add('I', hall.hall())
        for call in calls:
            tape.add(*call)
        tape.add('C')
        tape.add('F', b'WEEK1')
        tape.add('R', b'WEEK1', 0, 0, 1200)


def random_runs(tape, count, calls):
    rng = random.Random(6)
    for i in range(count):
        m = small_volume(rng, i) if i % 9 else maker.make(rng, limit=60)
        tape.add('I', m.image())
        kinds = rng.choice(('CEFBRNNWWWUUDM', 'NNWWWWUUDRM', 'WWWUURM',
                            'NNNDM'))
        tape.some(rng, [rng.choice(kinds) for _ in range(calls)])
        tape.add('C')


def full_directories(tape, count):
    """Creates until nothing fits, deletes, creates again."""
    rng = random.Random(7)
    for i in range(count):
        m = maker.make(rng, limit=12, per=1, locked=False, next_kind='small',
                       file_locks=0, dir_length=rng.randint(1, 2),
                       styles=('empty', 'some', 'full', 'nearly'))
        tape.add('I', m.image())
        for turn in range(3):
            lengths = [31, 31, 31, 1, 30, 20, 1, 2, 27, 24, 12, 1, 1]
            lengths = rng.sample(lengths, 8 if turn else 13)
            if turn == 0 and i % 2:
                lengths.sort(reverse=True)
            for length in lengths:
                tape.create_new(rng, length)
                tape.fill_last_block(rng)
            tape.create_new(rng, maker.long_length(rng))
            tape.some(rng, 'EEFC')
            for name in rng.sample(tape.state().names,
                                   min(3, len(tape.state().names))):
                tape.add('D', maker.other_case(rng, name))
            tape.some(rng, 'EF')


def full_disks(tape, count):
    """Forks that grow until no block is left, some by turns with cuts."""
    rng = random.Random(8)
    for i in range(count):
        m = maker.rich(rng, locked=False, file_locks=0.1)
        tape.add('I', m.image())
        for turn in range(12):
            tape.fill_fork(rng, turn)
            tape.some(rng, 'BR')
            if turn % 3 == 2:
                tape.some(rng, 'UU')
        tape.add('C')


def grow_and_shrink(tape, count):
    """One file that grows at its end and is cut again, many times, while
    others take and give blocks beside it."""
    rng = random.Random(9)
    for i in range(count):
        m = maker.make(rng, limit=rng.choice((16, 20, 40)), locked=False,
                       file_locks=0, free_most=True, styles=('some', 'short'),
                       per=rng.choice((1, 1, 2)))
        if not m.files():
            continue
        tape.add('I', m.image())
        name = rng.choice(m.files()).name
        fork = rng.randrange(2)
        a = m.a
        for turn in range(15):
            logical = tape.state().forks[name][fork][0]
            length = rng.choice((1, a - 1, a, a + 1, rng.randint(1, 2 * a)))
            tape.add('W', name, fork, logical,
                     maker.some_bytes(rng, min(length, 1500)), turn)
            logical, blocks = tape.state().forks[name][fork]
            tape.add('R', name, fork, max(0, logical - 300), 400)
            tape.add('B', name, fork, max(0, blocks - 1))
            tape.some(rng, rng.choice(('', '', 'W', 'U')))
            if turn % 2:
                logical = tape.state().forks[name][fork][0]
                length = rng.choice((0, logical // 2, max(0, logical - a),
                                     logical // a * a, logical))
                tape.add('U', name, fork, length, turn)
                tape.add('F', name)
        tape.add('C')


def last_numbers(tape, count):
    """Creates up to the last file number."""
    rng = random.Random(10)
    for i in range(count):
        m = maker.make(rng, limit=10, per=1, locked=False,
                       next_kind=('near', 'end')[i % 2],
                       styles=('empty', 'some', 'full')[i % 3:][:1])
        tape.add('I', m.image())
        for turn in range((8, 4)[i % 2]):
            name = maker.new_name(rng, rng.randint(1, 9), tape.state().names)
            tape.add('N', name, bytes(16), turn, turn)
        tape.create_new(rng, maker.long_length(rng))
        tape.some(rng, 'NNDNENC')


def locks(tape, count):
    """Locked volumes and locked files, with arguments good and bad."""
    rng = random.Random(11)
    for i in range(count):
        m = maker.make(rng, limit=12, locked=i % 2 == 0, file_locks=0.7,
                       next_kind=('end', 'small')[i // 2 % 2],
                       styles=('some', 'short', 'full'))
        tape.add('I', m.image())
        tape.create_new(rng, maker.long_length(rng))
        tape.some(rng, 'NWUDMWUDNWUDMWUDWUDMC')


def long_names_changes(tape, count):
    """Files with old names are written, cut and deleted; a long name is not
    made again, its first 31 bytes are."""
    rng = random.Random(15)
    for _ in range(count):
        m = maker.long_names(rng, locked=False, file_locks=0)
        tape.add('I', m.image())
        names = [file.name for file in m.files()]
        rng.shuffle(names)
        for own in names:
            name = maker.other_case(rng, own)
            for there in (own, name):
                tape.add(*chooser.creating(rng, there))
            for fork in (0, 1):
                logical = tape.state().forks[own][fork][0]
                tape.add('W', name, fork, rng.randint(0, logical),
                         maker.some_bytes(rng, rng.randint(1, 500)), 1)
                logical, blocks = tape.state().forks[own][fork]
                tape.add('B', own, fork, blocks - 1)
                tape.add('R', own, fork, max(0, logical - 300), 400)
                tape.add('U', name, fork, rng.randint(0, logical), 2)
            tape.add('D', name)
            for again in (own, own[:31]):
                tape.add(*chooser.creating(rng, again))
        tape.some(rng, 'CEF')


def large_changes(tape):
    """The 400K disk: a run over it, with the longest write and read."""
    rng = random.Random(12)
    m = maker.disk_400k(rng)
    tape.add('I', m.image())
    tape.add('N', b'LONG', bytes(16), 1, 2)
    data = bytes(range(256)) * 256
    tape.add('W', b'LONG', 0, 0, data[:65535], 3)
    tape.add('W', b'LONG', 1, 0, data[:5000], 4)
    tape.add('W', b'long', 0, 65535, data[:2000], 5)
    for fork in (0, 1):
        for offset in (0, 1, 4999, 5000, 5001, 67534, 67535, 67536):
            tape.add('R', b'LONG', fork, offset, 65535)
    for place in range(0, 70, 3):
        tape.add('B', b'LONG', 0, place)
    tape.some(rng, 'NWUDMFEBR' * 12)
    tape.add('U', b'LONG', 0, 10000, 6)
    tape.add('D', b'Long')
    tape.some(rng, 'NWUDMFEBR' * 4)
    tape.add('C')
    quick.asks(tape, tape.state())
    m = maker.most_blocks(rng)
    tape.add('I', m.image())
    tape.some(rng, 'CNWWUDMFEBRC' * 5)
    quick.asks(tape, tape.state())
    m = maker.largest_blocks(rng)
    tape.add('I', m.image())
    tape.some(rng, 'CNWWUDMFEBRC' * 4)
    quick.asks(tape, tape.state())


def reading_list():
    tape = tapes.Tape()
    before_the_first_image(tape, READING)
    hall_reading(tape)
    folding(tape)
    volumes_reading(tape, 90)
    long_names_reading(tape, 6)
    large_reading(tape, (maker.disk_400k_of_640, maker.longest_directory,
                         maker.largest_blocks, middle_volume, middle_volume))
    damage(tape, READING, 2)
    flips(tape, READING, 24)
    return tape


def changing_list(quick_finds):
    """Quick finds stand in images of their own and among the other calls, or
    nowhere."""
    tape = tapes.Tape(quick_finds)
    before_the_first_image(tape, ALL)
    hall_reading(tape)
    hall_changes(tape)
    folding(tape)
    volumes_reading(tape, 100)
    long_names_reading(tape, 6)
    large_reading(tape, (maker.disk_400k_of_640, maker.longest_directory,
                         maker.largest_blocks) + (middle_volume,) * 4,
                  'MF' * 4)
    damage(tape, ALL, 2)
    flips(tape, ALL, 30)
    random_runs(tape, 70, 30)
    full_directories(tape, 12)
    full_disks(tape, 14)
    grow_and_shrink(tape, 14)
    last_numbers(tape, 12)
    locks(tape, 20)
    long_names_changes(tape, 10)
    accents.runs(tape)
    renames.runs(tape)
    parts.runs(tape)
    clumps.runs(tape)
    if quick_finds:
        quick.runs(tape)
    large_changes(tape)
    wrapped_runs.runs(tape)
    return tape


def hold(text, count):
    if count < FEWEST_EACH:
        raise SystemExit('%s only %d times' % (text, count))


def on_wrapped(tags):
    """These calls on a wrapped file, and wrap."""
    return ['X' + tag for tag in tags] + ['K']


def make_list(calls):
    """The list, held to what it must contain."""
    tags = LISTS[calls]
    changing = calls != 'reading'
    tape = changing_list('Q' in tags) if changing else reading_list()
    counts = tape.machine.counts
    kinds = list(tags) + (on_wrapped(tags) if changing else [])
    for tag in kinds:
        for number in CAN_GIVE[tag]:
            hold('%s gives %d' % (tag, number), counts[tag, number])
    if set(counts) - {(t, n) for t in kinds for n in CAN_GIVE[t]}:
        raise SystemExit('a call gives a number that it never may')
    for tag in 'I' + tags[1:]:
        for kind in tapes.LENGTHS if tag != 'N' else ('31',):
            hold('%s on a name of %s' % (tag, kind),
                 tape.by_length[tag, kind])
    if any(tape.by_length['N', kind] for kind in tapes.LONG):
        raise SystemExit('create makes a long name')
    if changing:
        for text in tapes.must_meet(tags):
            hold(text, tape.met[text])
        tape.accents.hold_ways(tags)
    if sum(counts.values()) < FEWEST_CALLS[calls]:
        raise SystemExit('too few calls')
    if len(tape.input()) >= LARGEST[calls]:
        raise SystemExit('too many bytes: %d' % len(tape.input()))
    return tape


def show_table(title, tags, rows, counts):
    print('%-10s' % title + ''.join('%6s' % tag for tag in tags))
    for row in rows:
        print('%-10s' % row + ''.join(
            '%6s' % (counts[tag, row] or '.') for tag in tags))


def show_counts(tape, tags, sizes):
    counts = tape.machine.counts
    for kinds in (tags, on_wrapped(tags)):
        show_table('number', kinds, NUMBERS, counts)
        print('%-10s' % 'all' + ''.join(
            '%6d' % sum(counts[tag, number] for number in NUMBERS)
            for tag in kinds))
    print('%d calls' % sum(counts.values()))
    show_table('length', 'I' + tags[1:], tapes.LENGTHS, tape.by_length)
    for text in tapes.must_meet(tags):
        print('%6d %s' % (tape.met[text], text))
    for count, text in tape.accents.fewest(tags):
        print('%6d %s, at least' % (count, text))
    for path, data in sizes.items():
        print('%9d %s' % (len(data), path))


def all_files(tape):
    """Each file's path below the root and its bytes."""
    disk = bytes(hall.hall())
    return {
        'samples/hall.img': disk,
        'samples/water.img': bytes(water.water()),
        'crates/list/stdin': disk,
        'crates/list/stdout': listing.listing(disk),
        'crates/replay/stdin': tape.input(),
        'crates/replay/stdout': tape.output(),
    }


def quick_files(tape):
    return {'quick.in': tape.input(), 'quick.out': tape.output()}


# Bad inputs

def cut_off(tag, record):
    """A record that ends too early, in four ways."""
    for text, part in (('tag', record[:1]), ('two', record[:2]),
                       ('half', record[:len(record) // 2]),
                       ('last', record[:-1])):
        yield 'cut-off-%s-%s' % (tag, text), part


SOUND = {'I': replay.image(bytes(600)), 'X': replay.wrapped(bytes(600)),
         'E': replay.entry(0), 'F': replay.find(b'WEEK1'),
         'B': replay.block(b'WEEK1', 0, 1), 'R': replay.read(b'WEEK1', 0, 0, 10),
         'N': replay.create(b'NEW', bytes(16), 1, 2),
         'W': replay.write(b'WEEK1', 0, 0, b'0123456789', 3),
         'U': replay.cut(b'WEEK1', 0, 0, 4), 'D': replay.delete(b'WEEK1'),
         'K': replay.wrap(b'HALL', 0, 1000),
         'M': replay.rename(b'WEEK1', b'WEEK30 BAD', 5),
         'Q': replay.quick_find(b'WEEK1')}


def long_names(name):
    """A record with this name for each call that takes one."""
    return {'replay-': {'F': replay.find(name), 'B': replay.block(name, 0, 0),
                        'R': replay.read(name, 0, 0, 5)},
            'changes-': {'N': replay.create(name, bytes(16), 1, 2),
                         'W': replay.write(name, 0, 0, b'new', 3),
                         'U': replay.cut(name, 0, 0, 4),
                         'D': replay.delete(name)},
            'wrapped-': {'K': replay.wrap(name, 0, 1000)},
            'rename-': {'M-old': replay.rename(name, b'NEW', 5),
                        'M-new': replay.rename(b'WEEK1', name, 5),
                        'M-both': replay.rename(name, name, 5)},
            'quick-': {'Q': replay.quick_find(name)}}


def at_the_room():
    """Records that fill the room of their field, and too long ones."""
    for text, more in (('room', 0), ('too-long', 1)):
        yield 'replay-image-' + text, replay.image(bytes(419328 + more))
        yield 'wrapped-file-' + text, replay.wrapped(bytes(419328 + more))
        yield 'wrapped-buffer-' + text, replay.wrap(b'HALL', 1, 419328 + more)
        yield 'replay-read-' + text, replay.read(b'WEEK1', 0, 0, 65535 + more)
        yield 'changes-write-' + text, replay.write(b'WEEK1', 0, 0,
                                                    bytes(65535 + more), 3)
        for family, records in long_names(b'N' * (1024 + more)).items():
            for tag, record in records.items():
                yield '%sname-%s-%s' % (family, tag, text), record


def bad_renames(start):
    """Renames that are cut off, too long, or on no image."""
    old = b'M' + replay.name_field(b'WEEK1')
    return {'rename-no-image': SOUND['M'] + replay.rename(b'', b'', 0),
            'rename-unknown-tag-small': start + b'm' + SOUND['M'][1:],
            'rename-twice': start + SOUND['M'] * 2 + replay.check(),
            'rename-hall-wrapped': (replay.wrapped(hall.hall())
                                    + replay.check() + SOUND['M'] * 2),
            'rename-one-name': start + old,
            'rename-half-length': start + old + b'\0',
            'rename-length-alone': start + old + b'\0\3',
            'rename-no-date': start + SOUND['M'][:-4],
            'rename-half-date': start + SOUND['M'][:-2],
            'rename-old-cut-off-1024': start + b'M\4\0' + bytes(1023),
            'rename-new-cut-off-1024': start + old + b'\4\0' + bytes(1023),
            'rename-old-only-length': start + b'M\4\1',
            'rename-new-only-length': start + old + b'\4\1',
            'rename-old-largest': start + b'M\xFF\xFF',
            'rename-new-largest': start + old + b'\xFF\xFF',
            'rename-one-byte-more': start + SOUND['M'] + b'\0'}


def bad_quick_finds(start):
    """Quick finds that are cut off, too long, or on no image."""
    one = SOUND['Q']
    return {'quick-no-image': one + replay.quick_find(b''),
            'quick-unknown-tag-small': start + b'q' + one[1:],
            'quick-twice': start + one * 2 + replay.check(),
            'quick-empty-name': start + replay.quick_find(b'') + one,
            'quick-hall-wrapped': (replay.wrapped(hall.hall())
                                   + replay.check() + one * 2),
            'quick-half-length': start + b'Q\0',
            'quick-length-alone': start + b'Q\0\5',
            'quick-cut-off-1024': start + b'Q\4\0' + bytes(1023),
            'quick-only-length': start + b'Q\4\1',
            'quick-largest': start + b'Q\xFF\xFF',
            'quick-one-byte-more': start + one + b'\0'}


def bad_for_replay(rng):
    """Inputs for replay by name.  Those whose name starts with changes- hold
    records of the calls that change the image, those with wrapped- records of
    wrapped files, those with rename- renames, those with quick- quick
    finds."""
    start = replay.image(hall.hall()) + replay.check()
    inputs = {'replay-empty': b'',
              'replay-unknown-tag': start + b'Z' + replay.check(),
              'replay-unknown-tag-small': start + b'c',
              'replay-unknown-tag-zero': b'\0',
              'replay-line-feed': start + b'\n',
              'replay-no-image': replay.check() + replay.find(b'A'),
              'replay-random': b'\xD2' + maker.some_bytes(rng, 5000),
              'wrapped-no-image': SOUND['K'] + replay.wrap(b'', 1, 409684),
              'wrapped-unknown-tag-small': start + b'x',
              'wrapped-hall': replay.wrapped(hall.hall()) + SOUND['E'] + start,
              'wrapped-only-length': start + b'X' + replay.u32(419329),
              'wrapped-largest-length': start + b'X' + b'\xFF' * 4,
              'wrapped-largest-buffer': start + SOUND['K'][:-4] + b'\xFF' * 4,
              **bad_renames(start),
              **bad_quick_finds(start)}
    for family, tags in (('replay-', 'IEFBR'), ('changes-', 'NWUD'),
                         ('wrapped-', 'XK'), ('rename-', 'M'),
                         ('quick-', 'Q')):
        for tag in tags:
            for text, part in cut_off(tag, SOUND[tag]):
                inputs[family + text] = start + part
    for text, record in at_the_room():
        inputs[text] = start + record + replay.check()
    return inputs


def bad_for_list(rng):
    """Inputs for the listing by name, among them some good volumes."""
    largest = maker.make(rng, limit=127, per=1, size=127, dir_length=4,
                         styles=('full', 'some'), base='random')
    inputs = {'list-empty': b'',
              'list-one-byte': b'\xD2',
              'list-65024-zeros': bytes(65024),
              'list-65025-zeros': bytes(65025),
              'list-65024-volume': largest.image(),
              'list-65025-volume': largest.image() + b'\0',
              'list-400k': maker.disk_400k(rng).image(),
              'list-random': maker.some_bytes(rng, 10 * 512),
              'list-random-65024': maker.some_bytes(rng, 65024),
              'list-random-odd': maker.some_bytes(rng, 10 * 512 + 1),
              'list-hall': hall.hall(),
              'list-hall-and-one': hall.hall() + b'\0'}
    for i in range(40):
        inputs['list-volume-%02d' % i] = small_volume(rng, i).image()
    for i, couple in enumerate(accents.WORDS):
        for count in (2, 12):
            inputs['list-both-spellings-%02d-%d' % (i, count)] = (
                accents.together(rng, couple, count).image())
        inputs['list-near-misses-%02d' % i] = accents.roomy(
            rng, [couple[0], accents.beside(couple[0], i)]).image()
    for number in range(1, 11):
        kinds = [kind for kind in maker.DAMAGES if kind[0] == number]
        for i, kind in enumerate(rng.sample(kinds, 3)):
            inputs['list-damage-%02d-%d' % (number, i)] = (
                maker.damaged(rng, kind).image())
    return inputs


def write_bad_inputs(folder):
    os.makedirs(folder, exist_ok=True)
    rng = random.Random(20)
    for program, inputs in ((replay.replay, bad_for_replay(rng)),
                            (listing.listing, bad_for_list(rng))):
        for name, data in inputs.items():
            data = bytes(data)
            for ending, content in (('.in', data), ('.out', program(data))):
                with open(os.path.join(folder, name + ending), 'wb') as file:
                    file.write(content)
        print('%d inputs for %s' % (len(inputs), program.__name__))


def differing(root, files):
    """A line for each file that is not as it would be written."""
    for path, data in files.items():
        try:
            with open(os.path.join(root, path), 'rb') as file:
                there = file.read()
        except OSError:
            yield 'missing: ' + path
            continue
        if there != data:
            yield 'differs: ' + path


def main():
    here = os.path.dirname(os.path.abspath(__file__))
    parser = argparse.ArgumentParser(
        description='Writes the sample disks and the programs\' tests.')
    parser.add_argument('root', nargs='?',
                        default=os.path.dirname(os.path.dirname(here)),
                        help='the repository (default: the one of this file)')
    parser.add_argument('--check', action='store_true',
                        help='write nothing; say which files differ')
    parser.add_argument('--counts', action='store_true',
                        help='show how often each call gives each number')
    parser.add_argument('--calls', choices=list(LISTS), default=CALLS)
    parser.add_argument('--quick', metavar='DIR',
                        help='only write the list with quick finds to this'
                        ' folder')
    parser.add_argument('--bad', metavar='DIR',
                        help='only write bad inputs to this folder')
    options = parser.parse_args()
    if options.bad:
        write_bad_inputs(options.bad)
        return 0
    calls = QUICK if options.quick else options.calls
    tape = make_list(calls)
    root = options.quick or options.root
    files = quick_files(tape) if options.quick else all_files(tape)
    if options.counts:
        show_counts(tape, LISTS[calls], files)
    if options.check:
        lines = list(differing(root, files))
        for line in lines:
            print(line)
        return 1 if lines else 0
    for path, data in files.items():
        path = os.path.join(root, path)
        os.makedirs(os.path.dirname(path), exist_ok=True)
        with open(path, 'wb') as file:
            file.write(data)
    return 0


if __name__ == '__main__':
    sys.exit(main())
