"""The replay program's records and lines, both ways.

The functions image(), check(), ... build one record each.  A Machine carries
records out by volume.py and diskcopy.py and keeps the lines that are expected
for them.
"""

from collections import Counter
import operator
import struct
import sys

import diskcopy
import volume

# the letters of the nine calls: those that change nothing, those that change
READING = 'CEFBR'
CHANGING = 'NWUD'
NINE = READING + CHANGING
ALL = NINE + 'MQ'               # rename and quick find: bare images only

IMAGE_ROOM = 419328             # also for the buffer of K
WRITE_ROOM = 65535
READ_ROOM = 65535
NAME_ROOM = 1024


# Records

def u16(value):
    return struct.pack('>H', value)


def u32(value):
    return struct.pack('>I', value)


def u64(value):
    return struct.pack('>Q', value)


def name_field(name):
    return u16(len(name)) + bytes(name)


def bytes_field(data):
    return u32(len(data)) + bytes(data)


def image(data):
    return b'I' + bytes_field(data)


def wrapped(data):
    return b'X' + bytes_field(data)


def check():
    return b'C'


def entry(place):
    return b'E' + u64(place)


def find(name):
    return b'F' + name_field(name)


def block(name, fork, place):
    return b'B' + name_field(name) + bytes([fork]) + u64(place)


def read(name, fork, offset, length):
    return (b'R' + name_field(name) + bytes([fork]) + u64(offset)
            + u32(length))


def create(name, finder, created, changed):
    return b'N' + name_field(name) + bytes(finder) + u32(created) + u32(changed)


def write(name, fork, offset, data, changed):
    return (b'W' + name_field(name) + bytes([fork]) + u64(offset)
            + bytes_field(data) + u32(changed))


def cut(name, fork, length, changed):
    return (b'U' + name_field(name) + bytes([fork]) + u64(length)
            + u32(changed))


def delete(name):
    return b'D' + name_field(name)


def wrap(name, format_byte, length):
    return b'K' + name_field(name) + bytes([format_byte]) + u32(length)


def rename(old, new, changed):
    return b'M' + name_field(old) + name_field(new) + u32(changed)


def quick_find(name):
    return b'Q' + name_field(name)


RECORDS = {'I': image, 'X': wrapped, 'C': check, 'E': entry, 'F': find,
           'B': block, 'R': read, 'N': create, 'W': write, 'U': cut,
           'D': delete, 'K': wrap, 'M': rename, 'Q': quick_find}


def record(call):
    """The record of a call given as a tuple: its letter and its arguments."""
    return RECORDS[call[0]](*call[1:])


# Lines

PIECE = 512
# 31^512 down to 31^0
POWERS = [pow(31, n, 1 << 32) for n in range(PIECE, -1, -1)]
piece_sums = {}                 # sums of runs seen before, for speed


def piece_sum(piece):
    return sum(map(operator.mul, piece, POWERS[PIECE + 1 - len(piece):]))


def total(data):
    """SUM: from 0, for each byte s becomes (31 s + byte) mod 2^32.  It goes
    by runs of 512 bytes: a run of n bytes turns s into 31^n s + its own sum,
    where each byte counts 31^k times if k bytes follow it.
    """
    data = bytes(data)
    s = 0
    for at in range(0, len(data), PIECE):
        piece = data[at:at + PIECE]
        own = piece_sums.get(piece)
        if own is None:
            own = piece_sums[piece] = piece_sum(piece)
        s = (s * POWERS[PIECE - len(piece)] + own) & 0xFFFFFFFF
    return s


def facts_text(facts):
    numbers = ' '.join(str(value) for value in facts[:-1])
    return numbers + ' ' + (facts.name.hex() or '-')


def entry_text(entry):
    data, resource = entry.forks
    return '%d %s %d %d %d %d %d %d %d %d %d %s' % (
        entry.flags, entry.finder.hex(), entry.number,
        data.start, data.logical, data.physical,
        resource.start, resource.logical, resource.physical,
        entry.created, entry.changed, entry.name.hex())


class BadRecord(Exception):
    pass


class TooLong(Exception):
    pass


class Fields:
    """Takes fields from a run of bytes, one after another."""

    def __init__(self, data):
        self.data = data
        self.at = 0

    def more(self):
        return self.at < len(self.data)

    def take(self, count):
        if self.at + count > len(self.data):
            raise BadRecord
        part = self.data[self.at:self.at + count]
        self.at += count
        return part

    def number(self, size):
        return int.from_bytes(self.take(size), 'big')

    def long(self, size, room):
        """A length, judged as soon as it is read."""
        length = self.number(size)
        if length > room:
            raise TooLong
        return length

    def name(self):
        return self.take(self.long(2, NAME_ROOM))

    def bytes(self, room):
        return self.take(self.long(4, room))

    def fork(self):
        fork = self.number(1)
        if fork > 1:
            raise BadRecord
        return fork


class Machine:
    """Holds the image from record to record and whether it is a wrapped file,
    the lines so far, and how often each call gave each number; a call on a
    wrapped file is counted with an X before its letter."""

    def __init__(self):
        self.image = bytearray()
        self.wrapped = False
        self.lines = []
        self.counts = Counter()
        self.image_sum = 0

    def serve(self, call, *arguments):
        """A call of volume.py on the image or on the data inside."""
        if self.wrapped:
            return diskcopy.serve(call, self.image, *arguments)
        return call(self.image, *arguments)

    def line(self, tag, number, *texts):
        self.counts[('X' if self.wrapped and tag != 'K' else '') + tag,
                    number] += 1
        if tag in CHANGING + 'M' and number == 0:
            self.image_sum = total(self.image)
        words = [tag, str(number), *texts, str(self.image_sum)]
        self.lines.append(' '.join(words) + '\n')
        return number

    def run(self, data):
        """Carries out all records; gives False where the run ends early."""
        fields = Fields(data)
        try:
            while fields.more():
                self.one(fields)
        except BadRecord:
            self.lines.append('bad record\n')
            return False
        except TooLong:
            self.lines.append('too long\n')
            return False
        return True

    def one(self, fields):
        tag = chr(fields.number(1))
        if tag in 'IX':
            self.image = bytearray(fields.bytes(IMAGE_ROOM))
            self.wrapped = tag == 'X'
            self.image_sum = total(self.image)
        elif tag in READING:
            self.ask(tag, fields)
        elif tag in CHANGING:
            self.change(tag, fields)
        elif tag == 'K':
            self.wrap(fields)
        elif tag == 'M':
            self.rename(fields)
        elif tag == 'Q':
            self.quick_find(fields)
        else:
            raise BadRecord

    def ask(self, tag, fields):
        if tag == 'C':
            number, facts = self.serve(volume.check)
            self.line('C', number, *[facts_text(facts)] * (number == 0))
            return
        if tag == 'E':
            place = fields.number(8)
            number, found = self.serve(volume.entry, place)
            self.line('E', number, *[entry_text(found)] * (number == 0))
            return
        name = fields.name()
        if tag == 'F':
            number, place, found = self.serve(volume.find, name)
            texts = [str(place), entry_text(found)] * (number == 0)
            self.line('F', number, *texts)
            return
        fork, at = fields.fork(), fields.number(8)
        if tag == 'B':
            number, b = self.serve(volume.block, name, fork, at)
            self.line('B', number, *[str(b)] * (number == 0))
        else:
            buffer = bytearray(b'\xEE' * fields.long(4, READ_ROOM))
            number, count = self.serve(volume.read, name, fork, at, buffer)
            self.line('R', number, str(count), str(total(buffer)))

    def change(self, tag, fields):
        name = fields.name()
        if tag == 'N':
            finder = fields.take(16)
            created, changed = fields.number(4), fields.number(4)
            number = self.serve(volume.create, name, finder, created, changed)
        elif tag == 'D':
            number = self.serve(volume.delete, name)
        else:
            fork, at = fields.fork(), fields.number(8)
            if tag == 'W':
                data = fields.bytes(WRITE_ROOM)
                changed = fields.number(4)
                number = self.serve(volume.write, name, fork, at, data,
                                    changed)
            else:
                changed = fields.number(4)
                number = self.serve(volume.cut, name, fork, at, changed)
        self.line(tag, number)

    def wrap(self, fields):
        name, format_byte = fields.name(), fields.number(1)
        buffer = bytearray(b'\xEE' * fields.long(4, IMAGE_ROOM))
        number = diskcopy.wrap(self.image, name, format_byte, buffer)
        self.line('K', number, str(total(buffer)))

    def rename(self, fields):
        """On the bytes that are there, also where they are a wrapped file."""
        old, new, changed = fields.name(), fields.name(), fields.number(4)
        self.line('M', volume.rename(self.image, old, new, changed))

    def quick_find(self, fields):
        """As rename, on the bytes that are there."""
        number, place, found, looked = volume.quick_find(
            self.image, fields.name())
        texts = [str(place), entry_text(found)] * (number == 0)
        self.line('Q', number, *texts, *[str(looked)] * (number in (0, 13)))

    def output(self):
        return ''.join(self.lines).encode('ascii')


def replay(data):
    """The bytes that the program prints for these input bytes."""
    machine = Machine()
    machine.run(data)
    return machine.output()


if __name__ == '__main__':
    sys.stdout.buffer.write(replay(sys.stdin.buffer.read()))
