"""Runs the built replay on damaged wrapped files, and on wraps of damaged
disks, and compares what it prints with the second program.

    damaged_headers.py BIN

BIN holds replay.  The inputs are made here and not stored.  The last line
counts those that passed and those that did not; the exit code is 1 where one
did not.
"""

from collections import Counter
import os
import random
import sys

import bad_inputs
import diskcopy
import generate
import maker
import tapes
import wrapped_runs
import wrapper

TAGS_AT = diskcopy.TAGS_AT
LATER = 'EFBNUDKMQ'         # one of these follows, by turns


class Start:
    """A sound file, and calls on it: the nine succeed, for wrap, rename and
    quick find it is an image of wrong length."""

    def __init__(self, rng, tags):
        self.rng = rng
        self.text = 'with tags' if tags else 'without tags'
        self.m = maker.disk_400k(rng, base='sparse', file_locks=0)
        self.wrapper = wrapper.Wrapper(rng, 5, tags)
        self.file = self.wrapper.file(self.m.image())
        file = max(self.m.files(), key=lambda f: len(f.forks[0].blocks))
        name, length = file.name, file.forks[0].logical
        self.first = [('C',), ('R', name, 0, length // 3, 700),
                      ('W', name, 0, length // 2, b'new bytes' * 70, 1)]
        self.later = {'E': ('E', len(self.m.files()) - 1), 'F': ('F', name),
                      'B': ('B', name, 0, 1), 'U': ('U', name, 0, 700, 2),
                      'N': ('N', b'NEW', bytes(range(16)), 3, 4),
                      'D': ('D', name), 'K': ('K', b'NEW', 5, TAGS_AT),
                      'M': ('M', name, b'WEEK30 BAD', 6), 'Q': ('Q', name)}
        self.turn = 0

    def case(self, text, file):
        """The calls on a file made from this one."""
        tape = tapes.Tape()
        later = self.later[LATER[self.turn % len(LATER)]]
        self.turn += 1
        for call in [('X', file)] + self.first + [later, ('C',)]:
            tape.add(*call)
        return '%s, %s' % (self.text, text), tape

    def with_byte(self, at, value, what):
        file = bytearray(self.file)
        file[at] = value % 256
        return self.case('%s %d as %d' % (what, at, value % 256), file)


def values(old):
    """What a byte is changed to."""
    return sorted({n % 256 for n in (old + 1, old - 1, old + 128, 0, 255)}
                  - {old})


def headers(start):
    for value in (0, 1, 62, 63, 64, 65, 128):
        yield start.with_byte(0, value, 'header byte')
    for at in range(diskcopy.DATA_AT):
        for value in values(start.file[at]):
            yield start.with_byte(at, value, 'header byte')


def contents(start):
    """Single bytes of the data and of the tags."""
    m, rng = start.m, start.rng
    edges = [0, 1, 511, 512, 1023, 1024, 1025, 1060, 1088, 1672, 2048, 2098,
             m.byte_of(2), m.byte_of(m.n + 1) + m.a - 1, 408575, 408576,
             409088, 409598, 409599]
    for at in edges + [rng.randrange(409600) for _ in range(20)]:
        at += diskcopy.DATA_AT
        yield start.with_byte(at, start.file[at] + rng.randint(1, 255), 'byte')
    if start.wrapper.tags:
        for at in list(range(16)) + [4800, 9598, 9599]:
            at += TAGS_AT
            yield start.with_byte(at, start.file[at] + 1, 'byte')


def lengths(start):
    """The file cut or padded, its header as it was; then the tag size and the
    data size wrong, the rest as that size wants it."""
    file = start.file
    for length in (0, 1, 83, 84, 85, 409599, 409600, 409601, 409683, 409684,
                   409685, 414484, 419283, 419284, 419285, 419328):
        if length != len(file):
            cut = (file + bytes(10000))[:length]
            yield start.case('length %d' % length, cut)
    image = start.m.image()
    for size in (0, 512, 409088, 409598):
        yield start.case('%d data bytes' % size,
                         start.wrapper.file(image[:size]))
    other = wrapper.Wrapper(start.rng)
    for size in (2, 12, 4800, 9588, 9602):
        other.tags = maker.some_bytes(start.rng, size)
        yield start.case('%d tag bytes' % size, other.file(image))


def orders(start):
    """Two or more things wrong."""
    for bad in ((0, 72), (80, 76), (72, 76), (83, 72, 76), (72, 84 + 1024),
                (76, 84 + 1024)):
        file = bytearray(start.file)
        for at in bad:
            file[at] ^= 0x80
        yield start.case('bytes %s' % (bad,), file)


def sizes_alone(without, with_tags):
    """The tag size of the other kind, and the file otherwise as it is."""
    file = bytearray(without.file)
    wrapper.off(file, 68, 9600)
    yield without.case('tag size 9600', file)
    file = bytearray(with_tags.file)
    file[68:72] = file[76:80] = bytes(4)
    yield with_tags.case('tag size 0', file)


def bare_and_wrapped(start):
    """A wrapped file as a bare image, and a bare image as a wrapped file."""
    for letter, file in (('I', start.file), ('X', start.m.image())):
        tape = tapes.Tape()
        for call in [(letter, file)] + start.first + [
                start.later['K'], start.later['Q'], start.later['M'],
                start.later['Q']]:
            tape.add(*call)
        yield 'record %s' % letter, tape


def wraps(rng):
    for kind in maker.ON_A_DISK:
        tape = tapes.Tape()
        wrapped_runs.refused_wraps(tape, rng, kind)
        yield 'wrap, %d %s' % kind[:2], tape


def cases():
    rng = random.Random(40)
    starts = [Start(rng, tags) for tags in (False, True)]
    for start in starts:
        for kind in (headers, contents, lengths, orders, bare_and_wrapped):
            yield from kind(start)
    yield from sizes_alone(*starts)
    yield from wraps(rng)


def main():
    binary = os.path.join(sys.argv[1], 'replay')
    passed, failed, counts = 0, [], Counter()
    for text, tape in cases():
        counts.update(tape.machine.counts)
        if bad_inputs.passes(binary, tape.input(), tape.output()):
            passed += 1
        else:
            failed.append(text)
    for number in range(2, 11):
        generate.hold('K gives %d' % number, counts['K', number])
    return bad_inputs.tell('damaged wrapped files', passed, failed)


if __name__ == '__main__':
    sys.exit(main())
