"""A tape: a list of records for replay, with the lines expected for them and
counts of what the calls met."""

from collections import Counter

import accent_notes
import chooser
import clump_notes
import diskcopy
import maker
import part_notes
import quick_notes
import rename_notes
import replay
import volume

# the lengths of names that must come up, the longest new one first
LENGTHS = {'31': (31,), '32': (32,), '33 to 253': range(33, 254),
           '254': (254,), '255': (255,)}
LONG = list(LENGTHS)[1:]

# what create must meet, beside each number that it can give
CREATES = ['0, fills its block', '0, passes a block with room for less',
           '1 to 10, long name', '11, long name', '14, name of 31',
           '18, two bytes short', '21, next number the last', '21, no room',
           '21, old name', '21, old name in other case']
CREATES += ['21, %s name of %s' % (text, kind)
            for text in ('new', 'old') for kind in LONG]

# what wrap must meet, and the calls on a wrapped file
WRAPS = ['0, name of 0', '0, name of 1', '0, name of 62', '0, name of 63',
         '22, only the image', '22, only the buffer', '22, only the name',
         '22, name of 64']
CHANGES = ['%s %s tags' % (tag, text) for tag in replay.CHANGING
           for text in ('with', 'without')]

MUST_MEET = (['create: ' + text for text in CREATES]
             + ['wrap: ' + text for text in WRAPS]
             + ['changed: ' + text for text in CHANGES]
             + ['rename: ' + text for text in rename_notes.TEXTS]
             + ['parts: ' + text for text in part_notes.TEXTS]
             + ['clumps: ' + text for text in clump_notes.TEXTS]
             + ['accents: ' + text for text in accent_notes.TEXTS])
# and what a list with quick finds must meet beside these
MUST_MEET_QUICK = (['quick find: ' + text for text in quick_notes.TEXTS]
                   + ['accents: ' + text for text in accent_notes.QUICK])


def must_meet(tags):
    """What a list with these calls must meet."""
    return MUST_MEET + MUST_MEET_QUICK * ('Q' in tags)


def length_kind(name):
    for kind, lengths in LENGTHS.items():
        if len(name) in lengths:
            return kind
    return None


def create_met(read, name, number):
    """What a create met, as texts of CREATES; read gives the volume after
    it."""
    kind = length_kind(name)
    if number == 11 and kind in LONG:
        yield '11, long name'
    elif number == 14 and kind == '31':
        yield '14, name of 31'
    elif number in (0, 18, 21):
        yield from room_met(read(), name, number)


def room_met(v, name, number):
    kind = length_kind(name)
    size = volume.entry_size(name)
    most = max(rename_notes.rooms(v))
    place = v.places.get(v.fold(name))
    if number == 0:
        d = v.entries[place].dir_block
        if rename_notes.rooms(v)[d] == 0:
            yield '0, fills its block'
        if any(room > volume.ENTRY_HEAD for room in rename_notes.rooms(v)[:d]):
            yield '0, passes a block with room for less'
    elif number == 18 and most == size - 2:
        yield '18, two bytes short'
    elif number == 21:
        if v.facts.next_number == volume.LAST_NUMBER:
            yield '21, next number the last'
        if most < size:
            yield '21, no room'
        if place is None:
            yield '21, new name of ' + kind
        else:
            yield '21, old name of ' + kind
            same = v.entries[place].entry.name == name
            yield '21, old name' + ('' if same else ' in other case')


def wrap_met(image, name, length, number):
    """What a wrap met, as texts of WRAPS."""
    if number == 0:
        yield '0, name of %d' % len(name)
    if number == 22:
        wrong = {'image': len(image) != diskcopy.DATA_SIZE,
                 'buffer': length != diskcopy.TAGS_AT, 'name': len(name) > 63}
        if sum(wrong.values()) == 1:
            yield '22, only the ' + max(wrong, key=wrong.get)
            yield '22, name of %d' % len(name)


class Tape:
    """A list of records with the lines expected for them.  by_length counts,
    for each kind of length, the successes of each call on such a name and,
    under I, the accepted volumes that hold one, all on bare images; met counts
    what the calls met, by the texts of must_meet; accents has more counts of
    accented names; clumps and quick know what came before a call.

    Where quick_finds is False quick finds are left out.  They change nothing,
    so the other records and lines stay the same."""

    def __init__(self, quick_finds=True):
        self.quick_finds = quick_finds
        self.records = []
        self.machine = replay.Machine()
        self.by_length = Counter()
        self.met = Counter()
        self.accents = accent_notes.Notes()
        self.clumps = clump_notes.Notes()
        self.quick = quick_notes.Notes()

    def takes(self, call):
        return self.quick_finds or call[0] != 'Q'

    def add(self, *call):
        if not self.takes(call):
            return
        record = replay.record(call)
        self.records.append(record)
        before = self.snapshot() if call[0] == 'M' else None
        image = bytes(self.inside())
        self.machine.run(record)
        self.note_accents(call)
        self.note_clumps(image, call)
        self.note_quick(call)
        if before is not None:
            self.note('rename', rename_notes.met(before, self.volume, call,
                                                 self.number()))
        if call[0] == 'I':
            self.note_volume()
        elif call[0] == 'K':
            self.note('wrap', wrap_met(self.machine.image, call[1], call[3],
                                       self.number()))
        elif self.machine.wrapped:
            self.note_change(call[0])
        elif call[0] != 'C':
            self.note_call(call, self.machine.lines[-1].split())

    def number(self):
        """What the last call gave back."""
        return int(self.machine.lines[-1].split()[1])

    def note(self, what, texts):
        self.met.update('%s: %s' % (what, text) for text in texts)

    def note_accents(self, call):
        if call[0] in 'IX':
            self.note('accents', self.accents.image(self.inside()))
        elif call[0] in (replay.NINE if self.machine.wrapped else replay.ALL):
            before = 'X' if self.machine.wrapped else ''
            self.note('accents', [before + text for text in self.accents.call(
                call, self.number())])

    def note_clumps(self, image, call):
        """Image is what the call found."""
        if call[0] in 'IX':
            self.clumps.new_image()
        else:
            self.note('clumps', self.clumps.call(
                image, call, self.number(), self.machine.wrapped))

    def note_quick(self, call):
        if call[0] in 'IX':
            self.quick.new_image()
        elif call[0] == 'Q':
            self.note('quick find', self.quick.call(
                bytes(self.machine.image), call[1], self.number(),
                self.machine.wrapped))
        elif call[0] in replay.CHANGING + 'M' and self.number() == 0:
            self.quick.change(call)

    def note_change(self, tag):
        if tag in replay.CHANGING and self.number() == 0:
            tags = len(self.machine.image) > diskcopy.TAGS_AT
            self.note('changed', ['%s %s tags' % (
                tag, 'with' if tags else 'without')])

    def note_volume(self):
        try:
            names = self.state().names
        except volume.Refused:
            return
        self.by_length.update({('I', length_kind(name)) for name in names})

    def note_call(self, call, words):
        tag, number = call[0], int(words[1])
        # a read or a write of no bytes shows little
        idle = tag == 'R' and words[2] == '0' or tag == 'W' and not call[4]
        if number == 0 and not idle:
            name = bytes.fromhex(words[-2]) if tag == 'E' else call[1]
            self.by_length[tag, length_kind(name)] += 1
        if tag == 'N' and 1 <= number <= 10:
            if length_kind(call[1]) in LONG:
                self.note('create', ['1 to 10, long name'])
        elif tag == 'N':
            self.note('create', create_met(self.volume, call[1], number))

    def expect(self, number, text):
        if self.number() != number:
            raise SystemExit('%s: %d for %d' % (text, self.number(), number))

    def gives(self, number, *call):
        """Adds a call that must give this number."""
        self.add(*call)
        if self.takes(call):
            self.expect(number, call)

    def inside(self):
        """The image, or the data inside where it is a wrapped file."""
        image = self.machine.image
        return diskcopy.inside(image) if self.machine.wrapped else image

    def volume(self):
        """The volume as it is."""
        return volume.Volume(self.inside())

    def snapshot(self):
        """The volume as it is, with an image of its own; None where it is
        refused or in a wrapped file."""
        try:
            if not self.machine.wrapped:
                return volume.Volume(bytes(self.machine.image))
        except volume.Refused:
            pass
        return None

    def state(self):
        return chooser.state_of_volume(self.volume())

    def some(self, rng, kinds, state=None):
        """A call of each kind in this order; the arguments fit the state of
        the image, which is read again for each call unless it is given."""
        for kind in kinds:
            self.add(*chooser.choose(rng, state or self.state(), kind))

    def create_new(self, rng, length):
        name = maker.new_name(rng, length, self.state().names)
        if name is not None:
            self.add(*chooser.creating(rng, name))

    def fill_last_block(self, rng):
        """Where no block has room for more than one new entry: a name that
        needs two bytes too many, then one that needs all of them."""
        room = max(rename_notes.rooms(self.volume()))
        if 52 <= room <= 82:
            self.create_new(rng, maker.length_for(rng, room + 2))
            self.create_new(rng, maker.length_for(rng, room))

    def fill_fork(self, rng, changed):
        """A write at a fork's end, often of all that it can still take, or of
        one byte more."""
        state = self.state()
        name = rng.choice(state.names)
        fork = rng.randrange(2)
        logical, blocks = state.forks[name][fork]
        room = (blocks + state.free) * state.block_size - logical
        length = rng.choice((room, room + 1, room + 1, room // 2, 1))
        self.add('W', name, fork, logical,
                 maker.some_bytes(rng, min(length, 6000)), changed)

    def input(self):
        return b''.join(self.records)

    def output(self):
        return self.machine.output()
