"""Runs with accented names, for the list: each pair of T-03 in document 02
both ways, near misses, and both spellings in one directory."""

import random

import chooser
import hall
import maker
import spelling

DATE = 2500700000
FINDER = b'TEXTMACA' + bytes(8)

# texts around an accent; the second makes a name of 31 bytes
TEXTS = (b'12', b'abcdefghijklmnopqrstuvwxyz0123')

# two spellings of a word
WORDS = [tuple(word.encode('mac_roman') for word in words.split('/'))
         for words in (
             'Été/été', 'été/ÉTÉ', 'Relevés/RELEVÉS', 'À payer/à payer',
             'Ça va/ça va', 'Œuvres/œuvres', 'Mañana/MAÑANA', 'Øre/øre',
             'Lektüre/LEKTÜRE', 'São João/SÃO JOÃO', 'Kärnten/KÄRNTEN',
             'Åre/åre', 'Lições/LIÇÕES', 'Ærø/æRØ', 'Schön/SCHÖN')]
# two accents, and no other letter in another case
WORDS.append((b'\x8et\x8e', b'\x83t\x83'))


def create(name):
    return 'N', name, FINDER, DATE, DATE


def roomy(rng, names, **want):
    """A volume with these names, room for more files, and free blocks."""
    blocks = maker.directory_for(names)
    return maker.make(rng, names=names, **{
        'limit': 10, 'per': 1, 'n': 6, 'dir_length': blocks + 1,
        'locked': False, 'file_locks': 0, 'next_kind': 'small',
        'free_most': True, **want})


# Each pair

def by_other(tape, own, other, fork):
    """Each call by name on a file, by another spelling than its own; in the
    end the file is made anew with that spelling."""
    tape.gives(0, 'F', other)
    tape.gives(0, 'W', other, fork, 0, b'written by ' + other, DATE)
    tape.gives(0, 'B', other, fork, 0)
    tape.gives(0, 'R', other, fork, 3, 50)
    tape.gives(14, *create(other))
    tape.gives(0, 'U', other, fork, 7, DATE)
    tape.gives(0, 'D', other)
    tape.gives(13, 'F', own)
    tape.gives(0, *create(other))
    tape.gives(0, 'F', own)


def renamed(tape, own, other):
    """A file gets its own name, its other spelling, and its own again."""
    tape.gives(0, 'M', other, own, DATE)
    tape.gives(0, 'M', own, other, DATE)
    tape.gives(0, 'M', own, own, DATE)
    tape.gives(0, 'F', other)
    tape.gives(0, 'Q', other)


def each_pair(tape):
    """Each pair at each place of a name, both ways."""
    rng = random.Random(51)
    for half, text in enumerate(TEXTS):
        names = [maker.put(place, pair[half], text)
                 for place in maker.PLACES for pair in spelling.ACCENTS]
        rng.shuffle(names)
        tape.add('I', roomy(rng, names).image())
        tape.gives(0, 'C')
        for name in names:
            renamed(tape, name, spelling.swapped(name))
            by_other(tape, name, spelling.swapped(name), half)
        for name in names:
            by_other(tape, spelling.swapped(name), name, 1 - half)
        tape.gives(0, 'C')


def old_names(tape):
    """Names of 32 to 255 bytes, which are served by each spelling and made by
    none."""
    rng = random.Random(52)
    for half in (0, 1):
        names = [maker.put('last', pair[half], maker.any_name(rng, length))
                 for pair, length in zip(spelling.ACCENTS, (
                     31, 254, 32, 253, 60, 61, 99, 254, 127, 128, 31, 32, 200))]
        tape.add('I', roomy(rng, names).image())
        for turn, own in enumerate(names):
            other = spelling.swapped(own)
            tape.gives(0, 'F', other)
            tape.gives(21, *create(other))
            tape.gives(0, 'W', other, turn % 2, 0, b'old', turn)
            tape.gives(0, 'R', own, turn % 2, 0, 9)
            tape.gives(13, 'F', other[:-1] + b'!')
            tape.gives(0, 'D', other)
            tape.gives(13, 'D', own)
        tape.add('C')


# Near misses

def by_missing(tape, name, turn):
    """Calls by a name that no file has, and a file made with it."""
    tape.gives(13, 'F', name)
    tape.gives(13, 'Q', name)
    if turn % 12 == 0:
        tape.gives(13, 'M', name, b'New', DATE)
    tape.gives(13, *(('B', name, 0, 0), ('R', name, 1, 0, 9), ('D', name),
                     ('W', name, 0, 0, b'none', DATE),
                     ('U', name, 1, 0, DATE))[turn % 5])
    tape.gives(0, *create(name))
    tape.gives(0, 'D', spelling.swapped(name))


def near_misses(tape):
    """Beside each half of each pair, names with a near byte in its place, and
    shorter and longer ones."""
    rng = random.Random(53)
    for number, place in enumerate(maker.PLACES):
        names = {maker.put(place, b, b'%d%d' % (half, number)): b
                 for pair in spelling.ACCENTS for half, b in enumerate(pair)}
        tape.add('I', roomy(rng, list(names)).image())
        taken = {spelling.fold(name) for name in names}
        turn = number
        for own, b in names.items():
            missing = [maker.put(place, near, own.replace(bytes([b]), b''))
                       for near in spelling.NEAR[b]]
            missing += [own[:-1], own + own[-1:], own[1:], own + b'\0']
            for name in missing:
                turn += 1
                if spelling.fold(name) in taken:
                    tape.gives(14, *create(name))
                else:
                    by_missing(tape, name, turn)
        tape.add('C')


def every_byte(tape):
    """Names that differ in one byte, of each two equal ones one: none can be
    made again, and each can once it is deleted."""
    rng = random.Random(54)
    edges = bytes(sorted(spelling.HIGH | set(maker.EDGE_BYTES)))
    for place, text, left_out, there in (
            ('first', b'', spelling.UPPER, spelling.BYTES),
            ('middle', b'ab', spelling.LOWER, edges),
            ('last', b'a1', spelling.UPPER, edges)):
        m = maker.every_byte(rng, left_out, place, text)
        tape.add('I', m.image())
        tape.gives(0, 'C')
        for b in there:
            tape.gives(14, *create(maker.put(place, b, text)))
            tape.gives(0, 'Q', maker.put(place, b, text))
        for b in edges.translate(None, left_out):
            name = maker.put(place, b, text)
            tape.gives(0, 'D', spelling.swapped(name))
            tape.gives(0, *create(spelling.swapped(name)))
        tape.gives(0, 'C')


def alike(tape):
    """Few files with names that are near to each other; all are accepted."""
    rng = random.Random(55)
    groups = [[b] + rng.sample(spelling.NEAR[b], min(4, len(spelling.NEAR[b])))
              for pair in spelling.ACCENTS for b in pair]
    groups += [one + two for one, two in zip(spelling.OTHERS[::2],
                                             spelling.OTHERS[1::2])]
    for turn, group in enumerate(groups):
        place, text = maker.PLACES[turn % 3], rng.choice((b'', b'No', b'Noz'))
        names = [maker.put(place, b, text) for b in group]
        names = list({spelling.fold(name): name for name in names}.values())
        rng.shuffle(names)
        m = maker.make(rng, limit=8, per=1, n=1, tight=True, names=names,
                       locked=False)
        tape.add('I', m.image())
        tape.gives(0, 'C')
        for name in names:
            tape.gives(0, 'F', spelling.swapped(name))
        tape.some(rng, 'EN')


# Both spellings

def two_spellings(rng, way, length=None):
    """Two names that are equal by this pair, and otherwise by case."""
    text = maker.any_name(rng, length or rng.choice((0, 1, 2, 2, 4, 7)))
    place = rng.choice(maker.PLACES)
    return (maker.put(place, way[0], text),
            maker.put(place, way[1], maker.other_case(rng, text)))


def together(rng, couple, count):
    """A volume of this many files, two of which have these names: next to each
    other, or first and last.  Few files lie in one directory block or in two,
    the second of which may start between the neighbours."""
    used = list(couple[:1])
    while len(used) < count - 1:
        name = maker.new_name(rng, rng.randint(1, 3), used)
        if name is not None:
            used.append(name)
    others = used[1:]
    at = rng.randint(1, count - 1)
    names = others[:at - 1] + list(couple) + others[at - 1:]
    if rng.random() < 0.5:
        names = [couple[0]] + others + [couple[1]]
    split = (at <= 9 and count - at <= 9 and len(couple[0]) < 9
             and rng.random() < 0.5)
    m = maker.make(rng, limit=8, per=1, n=1, tight=True, names=names,
                   dir_length=2 if split else maker.directory_for(names),
                   locked=False)
    if split:
        files = m.files()
        m.directory = [files[:at], files[at:]]
    return m


def refused(tape, rng, m, tags, number=7):
    tape.add('I', m.image())
    for tag in tags:
        tape.some(rng, tag, chooser.state_of_made(m))
        tape.expect(number, 'both spellings')


TURNS = ('CFN', 'CER', 'CBW', 'CUDM')


def both(tape, rng, couple, count, tags):
    """Only quick find serves both, and tells of the first."""
    refused(tape, rng, together(rng, couple, count), tags)
    for name in couple:
        tape.gives(0, 'Q', name)


def both_spellings(tape):
    """Each pair both ways, among few files and among many, and words."""
    rng = random.Random(56)
    turn = 0
    ways = [way for pair in spelling.ACCENTS for way in (pair, pair[::-1])]
    for counts in ((2, 3, 4, 5), (6, 7, 9, 18, 6, 8, 20, 12)):
        couples = [two_spellings(rng, way) for way in ways]
        couples += rng.sample(WORDS, 2) + WORDS[-1:]
        for couple in couples:
            both(tape, rng, couple, counts[turn % len(counts)],
                 TURNS[turn % len(TURNS)])
            turn += 1
    for couple, count in zip(WORDS, (45, 120, 200)):
        both(tape, rng, couple, count, 'CFN')
    for way, length, count in zip(ways[9:], (30, 254, 100, 254),
                                  (3, 2, 6, 7)):
        both(tape, rng, two_spellings(rng, way, length), count, 'CFD')


def other_damage(tape):
    """Both spellings and one more damage: the lower number counts."""
    rng = random.Random(57)
    both, = (kind for kind in maker.DAMAGES if 'accents' in kind[1])
    for text, number in (('version', 6), ('start 1', 7),
                         ('a last block of no fork', 7)):
        other, = (kind for kind in maker.DAMAGES if kind[1] == text)
        m = maker.rich(rng)
        for kind in (both, other):
            kind[3](rng, m)
        refused(tape, rng, m, 'CFN', number)


# Histories

def beside(name, turn):
    """The name with a near byte for its first accented one."""
    b = next(b for b in name if b in spelling.ACCENTED)
    near = spelling.NEAR[b]
    return name.replace(bytes([b]), bytes([near[turn % len(near)]]), 1)


def on_a_disk(tape):
    """Each word is made, served by its other spelling, made anew by it and
    deleted; between come calls by a name that no file has."""
    for name in tape.state().names[:6]:
        tape.add('D', name)             # for room; a locked one stays
    for turn, (own, other) in enumerate(WORDS[5:]):
        tape.gives(0, *create(own))
        by_other(tape, own, other, turn % 2)
        near = beside(own, turn)
        for call in (('F', near), ('B', near, 0, 0), ('R', near, 1, 0, 9),
                     ('W', near, 0, 0, b'none', DATE), ('U', near, 1, 0, DATE),
                     ('D', near)):
            tape.gives(13, *call)
        long = (near * 256)[:256]
        for call in (('F', long), ('R', long, 0, 0, 9), ('D', long)):
            tape.gives(12, *call)
        tape.gives(0, 'D', own)
    tape.gives(0, 'C')


def mac(text):
    return text.encode('mac_roman')


def twinned_school(tape):
    """The desk's story, on HALL."""
    tape.add('I', hall.hall())
    tape.gives(0, *create(mac('Été')))
    for name, number in (('été', 14), ('ÉTÉ', 14), ('éTé', 14), ('Ete', 0),
                         ('Étè', 0), ('étÈ', 0), ('Êté', 0), ('ÉtÈ', 14)):
        tape.gives(number, *create(mac(name)))
    tape.gives(0, 'W', mac('été'), 0, 0, b'1985', 1)
    tape.gives(0, 'R', mac('éTÉ'), 0, 0, 9)
    for old, new, number in (
            ('ete', 'éTÉ', 14), ('été', 'étÈ', 14), ('Êté', 'ÉTè', 14),
            ('êté', 'ÊTÉ', 13), ('éTé', 'Eté', 0), ('été', 'Été', 13),
            ('eTé', 'Été', 0)):
        tape.gives(number, 'M', mac(old), mac(new), 2)
    for name, number in (('été', 0), ('ete', 0), ('ÉTè', 0), ('ÉTÈ', 0),
                         ('êTÉ', 13), ('ÊtÉ', 0), ('eté', 13), ('ét', 13),
                         ('étéé', 13), ('étë', 13), ('', 12)):
        tape.gives(number, 'F', mac(name))
    for name, number in (('ÉTÉ', 0), ('été', 13), ('étè', 0), ('étè', 13),
                         ('étÈ', 0), ('êté', 13), ('Êté', 0), ('ETE', 0)):
        tape.gives(number, 'D', mac(name))
    tape.gives(0, 'C')


def tariff(tape):
    """A file renamed by delete and create, its bytes carried by read and
    write, again and again."""
    tape.add('I', hall.hall())
    names = [mac(name) for name in ('Tarif été', 'TARIF ÉTÉ', 'tarif Été')]
    lines = b'212 by day, 148 by night\r' * 22
    tape.gives(0, *create(names[0]))
    for turn in range(6):
        own, other = names[turn % 3], names[(turn + 1) % 3]
        tape.gives(0, 'W', other, turn % 2, 0, lines, turn)
        tape.gives(0, 'R', own, turn % 2, 0, 600)
        tape.gives(0, 'B', other, turn % 2, 1)
        tape.gives(14, *create(other))
        tape.gives(0, 'D', other)
        tape.gives(13, 'R', own, turn % 2, 0, 600)
        tape.gives(0, *create(other))
        tape.gives(0, 'F', own)
        tape.gives(0, 'E', 2)
    tape.gives(0, 'C')


def unlisted(tape):
    """The other pairs of Mac OS Roman lie side by side; so do letters that
    become two when they are made upper."""
    rng = random.Random(58)
    tape.add('I', roomy(rng, [], dir_length=5).image())
    names = [bytes([b]) for pair in spelling.OTHERS for b in pair]
    names += [mac(name) for name in ('Straße', 'STRASSE', 'ﬁn', 'FIN', 'ﬂot',
                                     'FLOT', 'ı', 'i')]
    for name in names:
        tape.gives(0, *create(name))
    for name in names:
        tape.gives(0, 'F', name)
        tape.gives(14, *create(spelling.swapped(name)))
    for name in names[::2]:
        tape.gives(0, 'D', name)
        tape.gives(13, 'F', name)
    for name in names[1::2]:
        tape.gives(0, 'F', name)
    tape.gives(0, 'C')


def orders(tape):
    """Other refusals around 13 and 14, by another spelling and by a near
    miss."""
    rng = random.Random(59)
    own, other, near = mac('Relevé'), mac('RELEVÉ'), mac('RelevÈ')
    full = [own] + [b'%d' % i + b'.' * 25 for i in range(5)] + [b'L' * 9]
    for names, want, numbers in (
            ([own], {'locked': True}, (11, 11, 11, 11, 11, 11)),
            ([own], {'file_locks': 1}, (14, 0, 15, 15, 13, 15)),
            ([own], {'next_kind': 'end'}, (14, 19, 0, 0, 13, 0)),
            (full, {'dir_length': 1}, (14, 18, 0, 0, 13, 0))):
        tape.add('I', roomy(rng, names, **want).image())
        tape.gives(numbers[0], *create(other))
        tape.gives(numbers[1], *create(near))
        tape.gives(numbers[2], 'W', other, 0, 0, b'new', DATE)
        tape.gives(numbers[3], 'U', other, 0, 0, DATE)
        tape.gives(numbers[4], 'D', other[:-1])
        tape.gives(numbers[5], 'M', other, other, DATE)
        tape.gives(0, 'F', other)
        tape.gives(16, 'B', other, 0, 9)
        tape.add('D', other)
        tape.gives(12, 'F', other * 43)
        tape.add('C')


def random_runs(tape, count, calls):
    rng = random.Random(60)
    for i in range(count):
        m = maker.accented_names(rng, (2, 5, 6, 12, 3, 9)[i % 6])
        tape.add('I', m.image())
        tape.some(rng, [rng.choice('EFFBRRNNNWWUUDDMM') for _ in range(calls)])
        tape.add('C')


def runs(tape):
    each_pair(tape)
    old_names(tape)
    near_misses(tape)
    every_byte(tape)
    alike(tape)
    both_spellings(tape)
    other_damage(tape)
    twinned_school(tape)
    tariff(tape)
    unlisted(tape)
    orders(tape)
    random_runs(tape, 12, 50)
