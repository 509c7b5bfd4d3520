"""Tells what a rename met: where the entry went, which bytes lay around it, and
which later refusals another order of checks would have given."""

import spelling
import volume

LANDINGS = ['stays', 'longer, own block', 'longer, earlier block',
            'longer, later block', 'shorter, own block',
            'shorter, earlier block']

TEXTS = ['0, ' + text for text in LANDINGS + [
    'stays, entries behind it', 'stays, stale bytes behind the last entry',
    'stays, pad byte not 0 before', 'stays, name byte becomes the pad byte',
    'stays, pad byte becomes a name byte',
    'longer, own block, entries behind it',
    'shorter, own block, entries behind it',
    'room only once it is out', 'passes a block with room for less',
    'fills its block', 'leaves its block empty', 'moves, locked file beside it',
    'moves, pad byte not 0 before', 'moves, stale bytes in the block it leaves',
    'moves, stale bytes in the block it goes to',
    'own name', 'own name in other case', 'by another case',
    'new name of 1', 'new name of 31', 'more bits in the flags',
    'two forks', 'next number the last']]
TEXTS += ['11, bad name', '11, long name', '11, no such file',
          '12, only the old', '12, only the new', '12, both',
          '12, old bad, new too long', '12, new bad, no such file',
          '12, new bad, file locked', '12, old above 255', '12, new above 255',
          '21, no such file', '21, file locked', '21, own name',
          "21, another's name", '21, new name of 32', '21, new name of 255',
          "13, another's name", '13, the same name', '13, no room',
          "15, another's name", '15, own name', '15, no room', '15, new name',
          '14, the same spelling', '14, other case', '14, no room',
          '14, file before it', '14, file behind it',
          '18, one block', '18, more blocks', '18, two bytes short',
          '18, room for less elsewhere']


def rooms(v, placed=None):
    """The bytes behind the last entry of each directory block, once this entry
    is out."""
    found = [v.dir_block_end(d) - at for d, at in enumerate(v.ends)]
    if placed is not None:
        found[placed.dir_block] += placed.size
    return found


def landing(v, placed, size):
    """Where a new entry of this size goes, as one of LANDINGS, or None where
    no block has room."""
    if size == placed.size:
        return 'stays'
    for d, room in enumerate(rooms(v, placed)):
        if room >= size:
            own = placed.dir_block
            return '%s, %s block' % (
                'longer' if size > placed.size else 'shorter',
                'own' if d == own else 'earlier' if d < own else 'later')
    return None


def file_named(v, name):
    place = v.places.get(spelling.fold(name))
    return None if place is None else v.entries[place]


def stale(v, d):
    """Whether bytes other than 0 lie behind a block's last entry."""
    return any(v.image[v.ends[d]:v.dir_block_end(d)])


def bad(name):
    return not 1 <= len(name) <= 255


def met(before, after, call, number):
    """What a rename met, as texts of TEXTS; before is the volume before it,
    and after gives the volume after it."""
    _, old, new, _ = call
    if number == 0:
        found = done(before, after(), old, new)
    else:
        found = refused(before, old, new, number)
    for text in found:
        yield '%d, %s' % (number, text)


def done(before, after, old, new):
    was, now = file_named(before, old), file_named(after, new)
    name, d = was.entry.name, was.dir_block
    way = landing(before, was, now.size)
    yield way
    behind = was.at + was.size < before.ends[d]
    pad = len(name) % 2 == 0 and before.image[was.at + was.size - 1] != 0
    if pad and len(new) % 2 == 0:
        yield '%s, pad byte not 0 before' % (
            'stays' if way == 'stays' else 'moves')
    if behind and (way == 'stays' or 'own' in way):
        yield way + ', entries behind it'
    if way == 'stays':
        yield from in_place(name, new)
        if stale(before, d):
            yield 'stays, stale bytes behind the last entry'
    else:
        yield from moved(before, after, was, now)
    if new == name:
        yield 'own name'
    elif spelling.fold(new) == spelling.fold(name):
        yield 'own name in other case'
    if old != name:
        yield 'by another case'
    if len(new) in (1, 31):
        yield 'new name of %d' % len(new)
    if was.entry.flags & 0x7E:
        yield 'more bits in the flags'
    if all(was.chains):
        yield 'two forks'
    if before.facts.next_number == volume.LAST_NUMBER:
        yield 'next number the last'


def in_place(name, new):
    if len(name) > len(new):
        yield 'stays, name byte becomes the pad byte'
    elif len(name) < len(new):
        yield 'stays, pad byte becomes a name byte'


def moved(before, after, was, now):
    if max(rooms(before)) < now.size:
        yield 'room only once it is out'
    if any(room > volume.ENTRY_HEAD for room in
           rooms(before, was)[:now.dir_block]):
        yield 'passes a block with room for less'
    if rooms(after)[now.dir_block] == 0:
        yield 'fills its block'
    if all(placed.dir_block != was.dir_block for placed in after.entries):
        yield 'leaves its block empty'
    if any(placed.entry.flags & 1 and placed.dir_block == was.dir_block
           for placed in before.entries):
        yield 'moves, locked file beside it'
    if stale(before, was.dir_block):
        yield 'moves, stale bytes in the block it leaves'
    if now.dir_block != was.dir_block and stale(before, now.dir_block):
        yield 'moves, stale bytes in the block it goes to'


def refused(v, old, new, number):
    """What else would have refused it, or where the room was missing."""
    file, other = file_named(v, old), file_named(v, new)
    size = volume.entry_size(new)
    locked = file is not None and file.entry.flags & 1
    elsewhere = other is not None and other is not file
    room = max(rooms(v, file)) >= size or file is not None and size == file.size
    if number == 11:
        if bad(old) or bad(new):
            yield 'bad name'
        elif len(new) > 31:
            yield 'long name'
        elif file is None:
            yield 'no such file'
    elif number == 12:
        yield from no_names(old, new, file, locked)
    elif number == 21:
        if len(new) in (32, 255):
            yield 'new name of %d' % len(new)
        if file is None:
            yield 'no such file'
        elif locked:
            yield 'file locked'
        elif other is not None:
            yield "another's name" if elsewhere else 'own name'
    elif number in (13, 15):
        if elsewhere:
            yield "another's name"
        elif other is not None:
            yield 'own name'
        elif spelling.fold(old) == spelling.fold(new):
            yield 'the same name'
        elif not room:
            yield 'no room'
        elif number == 15:
            yield 'new name'
    elif number == 14:
        yield 'other case' if other.entry.name != new else 'the same spelling'
        yield 'file before it' if other.at < file.at else 'file behind it'
        if not room:
            yield 'no room'
    elif number == 18:
        yield 'one block' if len(v.ends) == 1 else 'more blocks'
        if max(rooms(v, file)) == size - 2:
            yield 'two bytes short'
        if any(room > volume.ENTRY_HEAD for room in rooms(v)):
            yield 'room for less elsewhere'


def no_names(old, new, file, locked):
    if bad(old):
        yield 'both' if bad(new) else 'only the old'
        if len(old) > 255:
            yield 'old above 255'
        if 31 < len(new) <= 255:
            yield 'old bad, new too long'
    else:
        yield 'only the new'
        if len(new) > 255:
            yield 'new above 255'
        if file is None:
            yield 'new bad, no such file'
        elif locked:
            yield 'new bad, file locked'
