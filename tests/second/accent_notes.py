"""Counts what a list's images and calls meet of accented names."""

from collections import Counter

import maker
import replay
import spelling
import volume

BY_NAME = 'FBRWUD'              # the calls on a file that is there
FEW = 5                         # files that count as few, in these notes

CALLS = ['%s 7, both spellings' % tag for tag in replay.NINE]
CALLS += ['%s %s' % (tag, text) for tag in BY_NAME for text in (
    '0, other spelling', '13, accented name', '13, near miss')]
CALLS += ['N ' + text for text in (
    '14, other spelling', '21, other spelling', '0, accented name',
    '0, near miss')]
RENAMES = ['M ' + text for text in (
    '7, both spellings', '0, other spelling', '13, accented name',
    '13, near miss', '14, other spelling', '0, own name in other spelling',
    '0, accented name', '0, near miss')]
QUICK = ['Q ' + text for text in (
    '0, other spelling', '13, accented name', '13, near miss')]
IMAGES = ['7, both spellings, ' + text for text in (
    'few files', 'many files', 'neighbours', 'apart', 'one block',
    'two blocks')]
IMAGES += ['0, near misses, ' + text for text in ('few files', 'many files')]

# on every list; QUICK beside these on one with quick finds
TEXTS = CALLS + ['X' + text for text in CALLS if ' 21' not in text] + (
    RENAMES + ['image ' + text for text in IMAGES])

# the byte stored and the byte given, for each pair both ways
WAYS = [way for one, two in spelling.ACCENTS
        for way in ((one, two), (two, one))]


class Before(volume.Volume):
    """A volume as document 01 alone reads it."""

    fold = staticmethod(bytes.upper)


def before(image):
    """The volume that was accepted before, or None."""
    try:
        return Before(image)
    except volume.Refused:
        return None


def differing(one, two):
    """Where two names differ by the two halves of a pair, and these bytes."""
    for i, way in enumerate(zip(one, two)):
        if way in WAYS:
            place = 1 if 0 < i < len(one) - 1 else 2 if i else 0
            yield (maker.PLACES[place], *way)


class Notes:
    """spelt counts the successes of each call, and the 14 of create, by where
    and by which bytes the name given differs from the name stored; together
    counts the images with two such names, by whether the files are few or
    many, and by these bytes."""

    def __init__(self):
        self.spelt = Counter()
        self.together = Counter()
        self.both = False       # whether the image holds both spellings
        self.stored = {}        # folded name -> name as it is stored

    def fewest(self, tags):
        """How often each of these calls meets that way that it meets least,
        and each kind of image."""
        for tag in BY_NAME + 'NM' + 'Q' * ('Q' in tags):
            yield min(self.spelt[(tag, place, *way)] for place in maker.PLACES
                      for way in WAYS), tag + ' by each pair at each place'
        for size in ('few', 'many'):
            yield min(self.together[(size, *way)] for way in WAYS), (
                'each pair among %s files' % size)

    def hold_ways(self, tags):
        for count, text in self.fewest(tags):
            if count == 0:
                raise SystemExit('not ' + text)

    def image(self, image):
        """What an image is, as texts of TEXTS."""
        self.both, self.stored = False, {}
        v = before(image)
        if v is None:
            return
        names = [placed.entry.name for placed in v.entries]
        size = 'few' if len(names) <= FEW else 'many'
        for place, name in enumerate(names):
            first = self.stored.setdefault(spelling.fold(name), name)
            if first is not name and not self.both:
                self.both = True
                other = names.index(first)
                yield from self.couple(size, v.entries[other],
                                       v.entries[place], place - other)
        if not self.both and any(
                spelling.near_miss(one, two) for i, one in enumerate(names)
                for two in names[:i]):
            yield 'image 0, near misses, %s files' % size

    def couple(self, size, one, two, distance):
        blocks = 'one block' if one.dir_block == two.dir_block else 'two blocks'
        for text in (size + ' files', blocks,
                     'neighbours' if distance == 1 else 'apart'):
            yield 'image 7, both spellings, ' + text
        for _, *way in differing(one.entry.name, two.entry.name):
            self.together[(size, *way)] += 1

    def call(self, call, number):
        """What a call met, as texts of TEXTS or QUICK without an X."""
        tag = call[0]
        if self.both and number == 7:
            yield tag + ' 7, both spellings'
        elif tag == 'M':
            yield from self.renamed(*call[1:3], number)
        elif tag in BY_NAME + 'NQ' and number in (0, 13, 14, 21):
            yield from self.named(tag, call[1], number)
            if tag == 'N' and number == 0:
                self.stored[spelling.fold(call[1])] = call[1]
            elif tag == 'D' and number == 0:
                del self.stored[spelling.fold(call[1])]

    def renamed(self, old, new, number):
        if number in (0, 13):
            yield from self.named('M', old, number)
        there = self.stored.get(spelling.fold(new))
        if there is not None and there.upper() != new.upper():
            if number == 14:
                yield 'M 14, other spelling'
            elif number == 0:
                yield 'M 0, own name in other spelling'
        if number == 0:
            del self.stored[spelling.fold(old)]
            if spelling.accented(new):
                yield 'M 0, accented name'
            if any(spelling.near_miss(new, other)
                   for other in self.stored.values()):
                yield 'M 0, near miss'
            self.stored[spelling.fold(new)] = new

    def named(self, tag, name, number):
        own = self.stored.get(spelling.fold(name))
        if own is not None and own.upper() != name.upper():
            yield '%s %d, other spelling' % (tag, number)
            if number in (0, 14):
                self.spelt.update((tag, *way) for way in differing(own, name))
        if own is None:
            if spelling.accented(name) and number != 21:
                yield '%s %d, accented name' % (tag, number)
            if any(spelling.near_miss(name, other)
                   for other in self.stored.values()):
                yield '%s %d, near miss' % (tag, number)
