"""Tells what a quick find met (T-08 of document 02): in which directory block
the name stood, what ended the readings before it, which entries were not read,
what the checks 5 to 10 say of the image, and which change came before."""

import struct

import spelling
import volume

BLOCK = volume.LOGICAL_BLOCK
HEAD = volume.ENTRY_HEAD
# the file number and the fields of both forks, from byte 18 of an entry
NUMBERS_AT = 18
NUMBERS = struct.Struct('>IHIIHII')
FILES = {409684: 'file without tags', 419284: 'file with tags'}

BAD = ['version', 'name length 0', 'crosses']       # what check 6 refuses
CROSSINGS = ['crosses by 1', 'crosses by 2', 'crosses by more',
             'in the last 51 bytes', 'in the last two bytes']
CHECKS = (0, 5, 6, 7, 8, 9, 10)
FOUND = ['in the only block', 'in the first block', 'in a middle block',
         'in the last block', 'first in its block', 'last of a full block',
         'behind a full block', 'behind an empty block',
         'behind an empty block and entries', 'place above 255', 'name of 1',
         'name of 255', 'other case', 'other accents', 'locked volume',
         'locked file', 'more bits in the flags', 'gap before the directory',
         '256 blocks, first', '256 blocks, middle', '256 blocks, last',
         'unused entry has the name', 'behind an unused entry too',
         'past an unused byte that is not 0']
ABSENT = ['from one block', 'from more blocks', 'from 256 blocks',
          'near miss', 'name of 1', 'name of 255', 'last block full',
          'no entry at all', 'entry before the directory',
          'entry behind the directory', 'locked volume',
          'unused entry has the name', 'behind an unused entry']
# before a kind of bad entry: it was passed, the name is behind it, it has it
FOUND_PAST = ['found, past ', 'found, behind another ',
              'found, other with the name, ']
ABSENT_PAST = ['absent, past ', 'absent, behind ', 'absent, with the name, ']
TWICE = ['one block', 'two blocks', 'the same spelling', 'other case',
         'other accents', 'asked by the later spelling']
TOLD = ['file number 0', 'file number not below the next',
        'place not below the number of files', 'start 0 and a length',
        'start 1', 'start above N+1', 'physical length 0',
        'physical length no multiple of A', 'logical above physical']
CHANGED = ['N, found', 'W, found', 'U, found', 'D, absent',
           'M, new name found', 'M, old name absent']

TEXTS = ['%d, bad name' % number for number in (1, 2, 3, 4)]
TEXTS += ['%d, check gives %d' % (number, check)
          for number in (0, 12, 13) for check in CHECKS]
TEXTS += ['12, name of 0', '12, name of 256', '12, name above 256']
TEXTS += ['%s, found, %s' % (image, text)
          for image in ('accepted', 'refused') for text in FOUND]
TEXTS += ['%s, absent, %s' % (image, text)
          for image in ('accepted', 'refused') for text in ABSENT]
TEXTS += [text + kind for kind in BAD for text in [
    'found, before '] + FOUND_PAST]
TEXTS += [text + kind for kind in BAD for text in ABSENT_PAST]
TEXTS += [past + text for past in (FOUND_PAST[0], ABSENT_PAST[0])
          for text in CROSSINGS + ['a bad entry first in its block']]
TEXTS += ['found, a later one behind a bad entry',
          'absent, where a crossing entry ends']
TEXTS += ['twice, ' + text for text in TWICE]
TEXTS += ['told, ' + text for text in TOLD]
TEXTS += ['behind ' + text for text in CHANGED]
TEXTS += ['wrapped, ' + text for text in FILES.values()]


def kind_at(raw, at):
    """What a directory block has at a byte: 'entry', or what ends its reading
    there: 'full', 'unused' or one of BAD."""
    if at == BLOCK:
        return 'full'
    if not raw[at] & 0x80:
        return 'unused'
    if at + HEAD > BLOCK or at + HEAD + raw[at + 50] > BLOCK:
        return 'crosses'
    if raw[at + 50] == 0:
        return 'name length 0'
    return 'version' if raw[at + 1] else 'entry'


def name_at(raw, at):
    return bytes(raw[at + HEAD:at + HEAD + raw[at + 50]])


def entries_from(raw, at):
    """The entries one after another from a byte of a block: each with its
    place and its name."""
    while kind_at(raw, at) == 'entry':
        name = name_at(raw, at)
        yield at, name
        at += volume.entry_size(name)


def names_behind(raw, at):
    """The names of all entries behind one that ends the reading, each of those
    passed over by its own size, or by 52 bytes where it crosses the block."""
    while at < BLOCK:
        kind = kind_at(raw, at)
        name = name_at(raw, at) if at + HEAD <= BLOCK else b''
        if kind == 'entry':
            yield name
        at += volume.entry_size(b'' if kind == 'crosses' else name)


class Block:
    """A directory block: its entries, where its reading ends and why, which
    names stand behind, and the name of what ended it.  The bytes are those of
    this block and the next."""

    def __init__(self, raw):
        self.raw = raw
        self.entries = list(entries_from(raw, 0))
        self.folded = [spelling.fold(name) for _, name in self.entries]
        self.end = sum(volume.entry_size(name) for _, name in self.entries)
        self.kind = kind_at(raw, self.end)
        ended = self.kind != 'full'
        self.behind = {spelling.fold(name) for name in names_behind(
            raw, self.end)} if ended else set()

    def ended_by(self, name):
        """Whether what ended the reading has this name.  Where its name length
        is 0, the bytes behind are looked at."""
        if self.kind == 'full' or self.end + HEAD > len(self.raw):
            return False
        own = name_at(self.raw, self.end)
        if self.kind == 'name length 0':
            at = self.end + HEAD
            own = self.raw[at:at + len(name)]
        return spelling.fold(own) == spelling.fold(name)

    def crossings(self):
        """How the reading's end crosses the block, as texts of CROSSINGS."""
        left = BLOCK - self.end
        if self.kind != 'crosses':
            return
        if left < HEAD:
            yield 'in the last 51 bytes'
            if left == 2:
                yield 'in the last two bytes'
            return
        by = HEAD + self.raw[self.end + 50] - left
        yield 'crosses by %s' % (by if by < 3 else 'more')

    def over(self):
        """The names in the next block, read from where the entry ends that
        crosses this one."""
        if self.kind != 'crosses' or self.end + HEAD > BLOCK:
            return []
        at = self.end + volume.entry_size(name_at(self.raw, self.end)) - BLOCK
        return [name for _, name in entries_from(self.raw[BLOCK:], at)]


class Scan:
    """The directory of an image that passes the checks 1 to 4."""

    def __init__(self, image):
        self.facts = facts = volume.Directory(image).facts
        self.check = volume.check(image)[0]
        self.blocks = [self.block(image, facts.dir_start + d)
                       for d in range(facts.dir_length)]
        self.before = self.block(image, facts.dir_start - 1)
        self.after = self.block(image, facts.dir_start + facts.dir_length)
        self.text = 'refused' if self.check else 'accepted'

    def block(self, image, number):
        return Block(image[BLOCK * number:BLOCK * (number + 2)])

    def equal(self, name):
        """The place of each equal name: its block and its entry there."""
        wanted = spelling.fold(name)
        return [(d, i) for d, block in enumerate(self.blocks)
                for i, own in enumerate(block.folded) if own == wanted]

    def names(self):
        return [name for block in self.blocks for _, name in block.entries]

    def met(self, name, number):
        yield '%d, check gives %d' % (number, self.check)
        if number == 13:
            for text in self.absent(name):
                yield '%s, absent, %s' % (self.text, text)
            yield from self.not_read(name)
        elif number == 0:
            places = self.equal(name)
            for text in self.found(name, *places[0]):
                yield '%s, found, %s' % (self.text, text)
            yield from self.passed(name, *places[0])
            yield from self.told(*places[0])
            if len(places) > 1:
                yield from self.twice(name, *places[:2])

    # where the name stands

    def found(self, name, d, i):
        block, blocks = self.blocks[d], self.blocks
        count = len(blocks)
        where = ('the only block' if count == 1 else 'the first block' if d == 0
                 else 'the last block' if d == count - 1 else 'a middle block')
        yield 'in ' + where
        if count == 256:
            yield '256 blocks, ' + where.split()[1]
        if i == 0:
            yield 'first in its block'
        if block.kind == 'full' and i == len(block.entries) - 1:
            yield 'last of a full block'
        if any(other.kind == 'full' for other in blocks[:d]):
            yield 'behind a full block'
        empty = [e for e in range(d) if not blocks[e].entries]
        if empty:
            yield 'behind an empty block'
            if any(other.entries for other in blocks[:max(empty)]):
                yield 'behind an empty block and entries'
        if sum(len(other.entries) for other in blocks[:d]) + i > 255:
            yield 'place above 255'
        if self.facts.dir_start > 4:
            yield 'gap before the directory'
        yield from self.named(name)
        yield from self.spelt(name, block.entries[i][1])
        yield from self.flagged(block.raw[block.entries[i][0]])
        yield from self.unused(name, d)

    def named(self, name):
        if len(name) in (1, 255):
            yield 'name of %d' % len(name)
        if self.facts.attributes & 0x8080:
            yield 'locked volume'

    def spelt(self, name, own):
        if name.upper() != own.upper():
            yield 'other accents'
        elif name != own:
            yield 'other case'

    def flagged(self, flags):
        if flags & 1:
            yield 'locked file'
        if flags & 0x7E:
            yield 'more bits in the flags'

    def unused(self, name, d):
        """What unused entries in the blocks before have."""
        wanted = spelling.fold(name)
        ended = [b for b in self.blocks[:d] if b.kind == 'unused']
        if any(block.ended_by(name) for block in ended):
            yield 'unused entry has the name'
        if any(wanted in block.behind for block in ended):
            yield 'behind an unused entry too'
        if any(block.raw[block.end] for block in ended):
            yield 'past an unused byte that is not 0'

    def absent(self, name):
        wanted, names = spelling.fold(name), self.names()
        count = len(self.blocks)
        yield 'from one block' if count == 1 else 'from more blocks'
        if count == 256:
            yield 'from 256 blocks'
        yield from self.named(name)
        if self.blocks[-1].kind == 'full':
            yield 'last block full'
        if not names:
            yield 'no entry at all'
        if any(spelling.near_miss(name, own) for own in names):
            yield 'near miss'
        for text, block in (('before', self.before), ('behind', self.after)):
            if wanted in block.folded:
                yield 'entry %s the directory' % text
        for block in self.blocks:
            if block.kind == 'unused' and block.ended_by(name):
                yield 'unused entry has the name'
            if block.kind == 'unused' and wanted in block.behind:
                yield 'behind an unused entry'

    # bad entries

    def passed(self, name, d, i):
        """What the bad entries are that a found name has before and behind
        it."""
        wanted = spelling.fold(name)
        if self.blocks[d].kind in BAD:
            yield 'found, before ' + self.blocks[d].kind
        yield from self.ends(name, self.blocks[:d], FOUND_PAST)
        if any(block.kind in BAD and wanted in block.behind
               for block in self.blocks[d:]):
            yield 'found, a later one behind a bad entry'

    def not_read(self, name):
        """The same for a name that is absent."""
        wanted = spelling.fold(name)
        yield from self.ends(name, self.blocks, ABSENT_PAST)
        if any(wanted in map(spelling.fold, block.over())
               for block in self.blocks[:-1]):
            yield 'absent, where a crossing entry ends'

    def ends(self, name, blocks, texts):
        """What the bad entries are that ended the reading of these blocks."""
        wanted = spelling.fold(name)
        past, behind, ended_by = texts
        for kind in BAD:
            ended = [b for b in blocks if b.kind == kind]
            if ended:
                yield past + kind
            if any(wanted in block.behind for block in ended):
                yield behind + kind
            if any(block.ended_by(name) for block in ended):
                yield ended_by + kind
        if any(b.kind in BAD and b.end == 0 for b in blocks):
            yield past + 'a bad entry first in its block'
        for text in sorted({text for b in blocks for text in b.crossings()}):
            yield past + text

    # what is told

    def twice(self, name, one, two):
        yield 'twice, ' + ('one' if one[0] == two[0] else 'two') + (
            ' block' if one[0] == two[0] else ' blocks')
        first, later = (self.blocks[d].entries[i][1] for d, i in (one, two))
        if first == later:
            yield 'twice, the same spelling'
            return
        for text in self.spelt(first, later):
            yield 'twice, ' + text
        if name == later:
            yield 'twice, asked by the later spelling'

    def told(self, d, i):
        block, facts = self.blocks[d], self.facts
        number, *fields = NUMBERS.unpack_from(
            block.raw, block.entries[i][0] + NUMBERS_AT)
        found = {'file number 0': number == 0,
                 'file number not below the next': number >= facts.next_number,
                 'place not below the number of files': sum(
                     len(b.entries) for b in self.blocks[:d]) + i
                 >= facts.files}
        for start, logical, physical in (fields[:3], fields[3:6]):
            for text, holds in (
                    ('start 0 and a length', not start and logical + physical),
                    ('start 1', start == 1),
                    ('start above N+1', start > facts.blocks + 1),
                    ('physical length 0', start and physical == 0),
                    ('physical length no multiple of A',
                     physical % facts.block_size),
                    ('logical above physical', logical > physical)):
                found[text] = found.get(text) or holds
        for text, holds in found.items():
            if holds:
                yield 'told, ' + text


class Notes:
    """Remembers the last directory that was scanned, and the last change: its
    letter and the names that it was given."""

    def __init__(self):
        self.scanned = None
        self.new_image()

    def new_image(self):
        self.last = None

    def change(self, call):
        """After a call that changed the image."""
        self.last = call

    def scan(self, image):
        if self.scanned is None or self.scanned[0] != image:
            self.scanned = image, Scan(image)
        return self.scanned[1]

    def call(self, image, name, number, wrapped):
        """What a quick find met, as texts of TEXTS."""
        if wrapped:
            return {'wrapped, ' + text for length, text in FILES.items()
                    if length == len(image)}
        if number in (1, 2, 3, 4):
            return [] if 1 <= len(name) <= 255 else ['%d, bad name' % number]
        found = set(self.scan(image).met(name, number))
        if number == 12:
            found.add('12, name ' + (
                'of %d' % len(name) if len(name) <= 256 else 'above 256'))
        elif self.last:
            found.update(self.behind(name, number))
        return found

    def behind(self, name, number):
        """What a quick find behind a change met."""
        tag, own = self.last[0], self.last[1]
        same = spelling.fold(name) == spelling.fold(own)
        if tag == 'M':
            new = spelling.fold(name) == spelling.fold(self.last[2])
            if new and number == 0:
                yield 'behind M, new name found'
            elif same and number == 13:
                yield 'behind M, old name absent'
        elif same and number == (13 if tag == 'D' else 0):
            yield 'behind %s, %s' % (tag, 'absent' if number else 'found')
