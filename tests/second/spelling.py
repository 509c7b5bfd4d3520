"""Which bytes of names are equal: a to z equal A to Z (document 01), and the
pairs of T-03 in document 02 are equal too.  Every other byte equals only
itself."""

import unicodedata

# lower then upper in hex, as document 02 lists them
LISTED = ('88 CB, 8A 80, 8B CC, 8C 81, 8D 82, 8E 83, 96 84, 9A 85, 9B CD, '
          '9F 86, BE AE, BF AF, CF CE')

# the other pairs of Mac OS Roman, which stay different
UNLISTED = ('87 E7, 89 E5, 8F E9, 90 E6, 91 E8, 92 EA, 93 ED, 94 EB, 95 EC, '
            '97 EE, 98 F1, 99 EF, 9C F2, 9D F4, 9E F3, D8 D9')


def pairs(text):
    return [tuple(bytes.fromhex(pair)) for pair in text.split(', ')]


ACCENTS = pairs(LISTED)
OTHERS = pairs(UNLISTED)
EQUAL = list(zip(b'abcdefghijklmnopqrstuvwxyz',
                 b'ABCDEFGHIJKLMNOPQRSTUVWXYZ')) + ACCENTS

BYTES = bytes(range(256))
LOWER, UPPER = (bytes(half) for half in zip(*EQUAL))
FOLD = bytes.maketrans(LOWER, UPPER)
# each byte's other spelling, or the byte itself
SWAP = bytes.maketrans(LOWER + UPPER, UPPER + LOWER)

ACCENTED = {b for pair in ACCENTS for b in pair}
HIGH = ACCENTED | {b for pair in OTHERS for b in pair}


def fold(name):
    return bytes(name).translate(FOLD)


def swapped(name):
    """The name with every byte in its other spelling."""
    return bytes(name).translate(SWAP)


def accented(name):
    return not ACCENTED.isdisjoint(name)


# Near misses, for the lists

def plain(b):
    """The byte of a letter without its accent."""
    letter = unicodedata.normalize('NFD', bytes([b]).decode('mac_roman'))[0]
    return letter.encode('mac_roman', 'ignore')


def near(b):
    """Bytes that a wrong table might take for b: one bit or one number away,
    the other half of an unlisted pair, the letter without its accent, and a
    dotless i for an I."""
    wrong = {b ^ 0x20, b ^ 0x80, b - 1 & 255, b + 1 & 255, *plain(b)}
    for pair in OTHERS + [(0xF5, 0x49), (0xF5, 0x69)]:
        if b in pair:
            wrong.update(pair)
    return sorted(wrong - {b, SWAP[b]})


NEAR = [near(b) for b in BYTES]


def near_miss(one, two):
    """Whether two names differ in one place only, there by near bytes of which
    one is half of a pair above 7F hex."""
    if len(one) != len(two):
        return False
    places = [(a, b) for a, b in zip(fold(one), fold(two)) if a != b]
    if len(places) != 1:
        return False
    (a, b), = places
    likes = {a, SWAP[a]}, {b, SWAP[b]}
    return (not HIGH.isdisjoint(likes[0] | likes[1])
            and any(y in NEAR[x] or x in NEAR[y]
                    for x in likes[0] for y in likes[1]))
