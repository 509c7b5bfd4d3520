"""Tells what calls met of clumps (T-07 of document 02): which clump size there
was, what a write needed and took, and what came behind one that rounded."""

import struct

import maker
import part_notes
import replay
import spelling
import volume


def counting(a, n):
    """Clump sizes that count, for N blocks of A bytes."""
    return {'A': a, '2 A': 2 * a, '3 A': 3 * a, '4 A': 4 * a, '8 A': 8 * a,
            'N A': n * a, 'N+1 times A': (n + 1) * a,
            '130 A': 130 * a,               # its low 16 bits are those of 2 A
            '65,535 A': 65535 * a, 'last multiple of A': maker.TOP // a * a}


def idle(a):
    """Clump sizes that do not count."""
    found = {'0': 0, '1': 1, '2': 2, 'A/2': a // 2, 'A-1': a - 1, 'A+1': a + 1,
             '2 A-1': 2 * a - 1, '2 A+1': 2 * a + 1, '3 A-1': 3 * a - 1,
             'last number': maker.TOP}
    if a > 512:
        found.update({'512': 512, 'A-512': a - 512, 'A+512': a + 512,
                      '2 A+512': 2 * a + 512, '3 A-512': 3 * a - 512})
    return found


def sizes(a, n):
    """All these clump sizes."""
    return {**counting(a, n), **idle(a)}


KINDS = list(sizes(1024, 1))

# what a write meets
OUTCOMES = ['none needed', 'whole clumps', 'rounds',
            'rounds, takes all free blocks', 'misses by one', 'misses by more',
            'one too many', 'too many']
(NONE, WHOLE, ROUNDS, FITS, BY_ONE, BY_MORE, ONE_TOO_MANY,
 TOO_MANY) = OUTCOMES

FORKS = part_notes.FORKS + ['part of a clump before', 'whole clumps before',
                            'needs more than one clump']
ROUNDED = FORKS + [
    'no power of two', 'new blocks not side by side', 'one block stays free',
    'other bytes than 0 in the rest', 'behind a cut', 'behind a delete']
MISSED = FORKS + ['takes all free blocks']
UNNEEDED = ['0 bytes', 'inside', 'behind the end', 'surplus blocks']
REFUSED = FORKS + ['no block free']
CUTS = ['into a clump', 'between clumps', 'to nothing', 'own length']
BEHIND = ['C', 'E', 'F', 'B, last block', 'B, one behind', 'R']
PARTS = ['rounds', 'misses', '17', 'surplus blocks',
         'a part rounds and a later one needs none',
         'more than one part rounds', 'a part rounds and the whole misses',
         '17 behind a part that rounds']
WRAPPED = [NONE, ROUNDS, FITS, BY_ONE, BY_MORE, ONE_TOO_MANY, 'U, to nothing',
           'U, own length']

TEXTS = ['0, clump of ' + kind for kind in KINDS]
TEXTS += ['17, one too many, clump of one block',
          '0, takes all free blocks, clump of one block']
TEXTS += OUTCOMES
TEXTS += ['rounds, ' + text for text in ROUNDED]
TEXTS += ['misses, ' + text for text in MISSED]
TEXTS += ['none needed, room to round, ' + text for text in UNNEEDED]
TEXTS += ['none needed, ' + text for text in ('no block free', 'empty fork')]
TEXTS += ['17, ' + text for text in REFUSED]
TEXTS += ['U, ' + text for text in CUTS] + ['D, surplus blocks']
TEXTS += ['behind rounding, ' + text for text in BEHIND]
TEXTS += ['parts, ' + text for text in PARTS]
TEXTS += ['wrapped, ' + text for text in WRAPPED]


def outcome(have, needed, free, clump):
    """What a write meets that needs so many new blocks, as one of OUTCOMES."""
    more = -(have + needed) % clump             # what rounding adds
    left = free - needed - more
    if needed > free:
        return ONE_TOO_MANY if needed == free + 1 else TOO_MANY
    if needed == 0:
        return NONE
    if more == 0:
        return WHOLE
    if left < 0:
        return BY_ONE if left == -1 else BY_MORE
    return ROUNDS if left else FITS


def kinds(image):
    """What the clump size of an accepted image is, as texts of KINDS, and the
    blocks in a clump."""
    n, a, size = struct.unpack_from('>HII', image, volume.INFO_AT + 18)
    return ([kind for kind, other in sizes(a, n).items() if other == size],
            volume.clump_blocks(size, a))


class Growth(part_notes.Room):
    """A fork before a write, and what the write needs."""

    def __init__(self, image, call):
        super().__init__(image, call, [len(call[4])])
        self.outcome = outcome(self.blocks, self.needed, self.free, self.clump)
        self.key = which_fork(call)

    def fork(self):
        yield from super().fork()
        if self.blocks % self.clump:
            yield 'part of a clump before'
        elif self.blocks:
            yield 'whole clumps before'
        last = self.blocks + self.needed - 1
        if self.blocks // self.clump < last // self.clump:
            yield 'needs more than one clump'

    def met(self, last):
        """The write's outcome and more about it; last is the letter of the
        last change and the fork that it changed."""
        yield self.outcome
        if self.outcome == NONE:
            found = self.unneeded()
        elif self.needed > self.free:
            found = self.refused()
        elif self.outcome in (BY_ONE, BY_MORE):
            found = self.missed()
        elif self.outcome in (ROUNDS, FITS):
            found = self.rounded(last)
        else:
            found = ()
        yield from found

    def unneeded(self):
        if self.free == 0:
            yield 'none needed, no block free'
        if self.blocks == 0:
            yield 'none needed, empty fork'
        if 0 < -self.blocks % self.clump <= self.free:
            before = 'none needed, room to round, '
            yield before + (
                '0 bytes' if self.end == self.offset else
                'behind the end' if self.end > self.logical else 'inside')
            if self.surplus():
                yield before + 'surplus blocks'

    def refused(self):
        for text in self.fork():
            yield '17, ' + text
        if self.free == 0:
            yield '17, no block free'

    def missed(self):
        for text in self.fork():
            yield 'misses, ' + text
        if self.needed == self.free:
            yield 'misses, takes all free blocks'

    def rounded(self, last):
        taken = self.new[0]
        found = [*self.fork(), *self.grown()]
        if self.clump & self.clump - 1:
            found.append('no power of two')
        if taken == self.free - 1:
            found.append('one block stays free')
        if any(self.rest()):
            found.append('other bytes than 0 in the rest')
        if last == ('U', self.key):
            found.append('behind a cut')
        if last[0] == 'D':
            found.append('behind a delete')
        for text in found:
            if text in ROUNDED:
                yield 'rounds, ' + text

    def rest(self):
        """The bytes of the new blocks that are not needed."""
        for b in self.v.free_blocks()[self.needed:self.new[0]]:
            at = self.v.byte_of(b)
            yield from self.v.image[at:at + self.a]


def in_parts(image, call, lengths):
    """What a write and its parts met that gave 0 or 17."""
    room = part_notes.Room(image, call, lengths)
    if room.clump == 1:
        return
    whole = outcome(room.blocks, room.needed, room.free, room.clump)
    rounds = [i for i, (new, need) in enumerate(zip(room.new, room.needs))
              if new > need]
    if whole in (ROUNDS, FITS):
        yield 'parts, rounds'
    if whole in (BY_ONE, BY_MORE):
        yield 'parts, misses'
        if rounds:
            yield 'parts, a part rounds and the whole misses'
    if room.needed > room.free:
        yield 'parts, 17'
        if rounds:
            yield 'parts, 17 behind a part that rounds'
    if room.surplus() and room.needed:
        yield 'parts, surplus blocks'
    if len(rounds) > 1:
        yield 'parts, more than one part rounds'
    if rounds and any(length and not need for length, need
                      in list(zip(lengths, room.needs))[rounds[0] + 1:]):
        yield 'parts, a part rounds and a later one needs none'


def key(call):
    return spelling.fold(call[1])


def which_fork(call):
    return key(call), call[2]


class Notes:
    """Remembers the last change: its letter and, of a write and a cut, which
    fork of which file; and that fork again where the write rounded."""

    def __init__(self):
        self.new_image()

    def new_image(self):
        self.last = self.rounded = (None, None)

    def call(self, image, call, number, wrapped):
        """What a call met, as texts of TEXTS; image is what it found, or the
        data inside a wrapped file."""
        tag, rounded = call[0], False
        if tag == 'W' and number in (0, 17):
            found, rounded = self.write(image, call)
        elif tag in 'UD' and number == 0:
            found = list(given_back(image, call))
        elif tag in replay.READING and self.rounded[0]:
            found = list(self.behind(image, call))
        else:
            found = []
        if number == 0 and tag in replay.CHANGING + 'M':
            self.last = (tag, which_fork(call) if tag in 'WU' else None)
            self.rounded = which_fork(call) if rounded else (None, None)
        if wrapped:
            return ['wrapped, ' + text for text in found if text in WRAPPED]
        return found

    def write(self, image, call):
        """What a write met, and whether it rounded."""
        names, clump = kinds(image)
        if not names and clump == 1:
            return [], False
        growth = Growth(image, call)
        found = []
        if 0 < growth.needed <= growth.free:
            found += ['0, clump of ' + kind for kind in names]
        if clump > 1:
            found += growth.met(self.last)
        elif growth.outcome == ONE_TOO_MANY:
            found.append('17, one too many, clump of one block')
        elif growth.needed == growth.free > 0:
            found.append('0, takes all free blocks, clump of one block')
        return found, growth.outcome in (ROUNDS, FITS)

    def behind(self, image, call):
        """What a call met that asks behind a write that rounded."""
        tag = call[0]
        if (tag in 'CE' or tag == 'F' and key(call) == self.rounded[0]
                or tag == 'R' and which_fork(call) == self.rounded):
            yield 'behind rounding, ' + tag
        elif tag == 'B' and which_fork(call) == self.rounded:
            chain = volume.Volume(image).file_of(call[1]).chains[call[2]]
            if call[3] == len(chain) - 1:
                yield 'behind rounding, B, last block'
            elif call[3] == len(chain):
                yield 'behind rounding, B, one behind'


def given_back(image, call):
    """What a cut or a delete met."""
    if kinds(image)[1] == 1:
        return
    v = volume.Volume(image)
    placed, facts = v.file_of(call[1]), v.facts
    if call[0] == 'D':
        if any(len(chain) > volume.blocks_for(fork.logical, facts.block_size)
               for chain, fork in zip(placed.chains, placed.entry.forks)):
            yield 'D, surplus blocks'
        return
    kept = volume.blocks_for(call[3], facts.block_size)
    clump = volume.clump_blocks(facts.clump, facts.block_size)
    if kept < len(placed.chains[call[2]]):
        yield ('U, to nothing' if kept == 0 else
               'U, into a clump' if kept % clump else 'U, between clumps')
        if call[3] == placed.entry.forks[call[2]].logical:
            yield 'U, own length'
