"""Tells what a write in parts met: how its bytes were cut, where they lay in
the fork, which parts took new blocks, and at which part the room ended."""

from itertools import accumulate

import volume

OTHERS = list(range(1, 14)) + [15, 16]      # refused, and not for room

COUNTS = ['1 part', '2 parts', '3 to 39 parts', '40 parts']
EMPTY = ['first part empty', 'middle part empty', 'last part empty',
         'several parts, all empty']
FORKS = ['data fork', 'resource fork', 'A of 512', 'A above 512', 'empty fork',
         'surplus blocks', 'over the end', 'at the end']

TEXTS = ['0, ' + text for text in COUNTS + EMPTY + FORKS + [
    'inside', 'no new block', 'new blocks by more than one part',
    'new blocks by the first of several parts',
    'new blocks by the last of several parts',
    'two or more new blocks by one part', 'new blocks not side by side',
    'surplus blocks and new ones', 'empty fork, first part empty',
    "a part ends at a block's end", 'fills its last block',
    "one byte before a block's end", "one byte behind a block's end",
    'takes all free blocks', 'just fits', 'no block free before']]
TEXTS += ['17, ' + text for text in COUNTS + FORKS + [
    'only part', 'first of several parts', 'middle part',
    'last of several parts', 'one byte too long', 'one block too long',
    'no block free', 'new blocks by parts before it',
    'only empty parts before it', 'empty part behind it']]
TEXTS += ['%d, by the first part' % number for number in OTHERS]
TEXTS += ['16, first part empty', '16, several parts, all empty']
TEXTS += ['wrapped, ' + text for text in (
    '0', '17', '2 to 10', '11 to 16', '22', '23', '24')]


def met(image, call, lengths, number, numbers):
    """What a write on a bare image met, as texts of TEXTS: number is what it
    gave in one piece, numbers what its parts of these lengths gave."""
    if number in (0, 17):
        found = Room(image, call, lengths).met(numbers)
    else:
        found = ['by the first part', *how_empty(lengths)]
    for text in found:
        yield '%d, %s' % (number, text)


def met_wrapped(number):
    """The same on a wrapped file."""
    for low, high in ((2, 10), (11, 16)):
        if low <= number <= high:
            return ['wrapped, %d to %d' % (low, high)]
    return ['wrapped, %d' % number]


def how_many(lengths):
    count = len(lengths)
    return COUNTS[(count > 1) + (count > 2) + (count > 39)]


def how_empty(lengths):
    filled = [i for i, length in enumerate(lengths) if length]
    if not filled:
        if len(lengths) > 1:
            yield 'several parts, all empty'
        return
    if lengths[0] == 0:
        yield 'first part empty'
    if filled[-1] - filled[0] >= len(filled):
        yield 'middle part empty'
    if lengths[-1] == 0:
        yield 'last part empty'


class Room:
    """A fork before the write, and what the write and its parts need."""

    def __init__(self, image, call, lengths):
        _, name, self.which, self.offset, data, _ = call
        self.v = volume.Volume(image)
        self.a, self.free = self.v.facts.block_size, self.v.facts.free
        placed = self.v.file_of(name)
        self.logical = placed.entry.forks[self.which].logical
        self.blocks = len(placed.chains[self.which])
        self.most = (self.blocks + self.free) * self.a  # it can hold so much
        self.lengths = lengths
        self.end = self.offset + len(data)
        self.ends = [self.offset + n for n in accumulate(lengths)]
        self.clump = volume.clump_blocks(self.v.facts.clump, self.a)
        self.needed = volume.blocks_needed(self.blocks, self.end, self.a)
        self.needs, self.new = [], []   # blocks that each part needs and takes
        for end in self.ends:
            self.grow(end)

    def grow(self, end):
        """What the part that ends here needs and takes."""
        taken = sum(self.new)
        held = self.blocks + taken
        self.needs.append(volume.blocks_needed(held, end, self.a))
        self.new.append(volume.blocks_taken(
            held, self.needs[-1], self.free - taken, self.clump))

    def met(self, numbers):
        yield how_many(self.lengths)
        yield from self.fork()
        yield from self.refused(numbers) if any(numbers) else self.done()

    def surplus(self):
        return self.blocks > volume.blocks_for(self.logical, self.a)

    def fork(self):
        yield FORKS[self.which]
        yield 'A of 512' if self.a == 512 else 'A above 512'
        if self.blocks == 0:
            yield 'empty fork'
        if self.surplus():
            yield 'surplus blocks'
        if self.offset < self.logical < self.end:
            yield 'over the end'
        elif self.offset == self.logical > 0:
            yield 'at the end'
        elif self.offset < self.end <= self.logical:
            yield 'inside'

    def done(self):
        empty = list(how_empty(self.lengths))
        yield from empty
        if self.blocks == 0 and 'first part empty' in empty:
            yield 'empty fork, first part empty'
        if self.free == 0:
            yield 'no block free before'
        if any(self.new):
            yield from self.grown()
        else:
            yield 'no new block'
        for text, by in (('fills its last block', 0),
                         ("one byte before a block's end", -1),
                         ("one byte behind a block's end", 1)):
            if self.end > self.logical and (self.end - by) % self.a == 0:
                yield text
        if any(end % self.a == 0 and self.offset < end < self.end
               for end in self.ends):
            yield "a part ends at a block's end"

    def grown(self):
        new = self.new
        if sum(map(bool, new)) > 1:
            yield 'new blocks by more than one part'
        if len(new) > 1 and new[0]:
            yield 'new blocks by the first of several parts'
        if len(new) > 1 and new[-1]:
            yield 'new blocks by the last of several parts'
        if max(new) > 1:
            yield 'two or more new blocks by one part'
        free = self.v.free_blocks()
        if free[sum(new) - 1] - free[0] >= sum(new):
            yield 'new blocks not side by side'
        if self.surplus():
            yield 'surplus blocks and new ones'
        if sum(new) == self.free:
            yield 'takes all free blocks'
        if self.end == self.most:
            yield 'just fits'

    def refused(self, numbers):
        at, last = numbers.index(17), len(numbers) - 1
        if last == 0:
            yield 'only part'
        else:
            yield ('first of several parts' if at == 0 else
                   'last of several parts' if at == last else 'middle part')
        if self.end - self.most == 1:
            yield 'one byte too long'
        if self.end - self.most == self.a:
            yield 'one block too long'
        if self.free == 0:
            yield 'no block free'
        if any(self.new[:at]):
            yield 'new blocks by parts before it'
        if at > 0 and not any(self.lengths[:at]):
            yield 'only empty parts before it'
        if 0 in self.lengths[at + 1:]:
            yield 'empty part behind it'
