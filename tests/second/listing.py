"""The listing program: an image on standard input, its files as lines."""

import sys

import volume

ROOM = 65024


def shown(name):
    return bytes(b if 0x20 <= b <= 0x7E else 0x3F for b in name)


def listing(image):
    """The bytes that the program prints for these input bytes."""
    if len(image) > ROOM:
        return b'too long\n'
    number, facts = volume.check(image)
    if number:
        return b'refused %d\n' % number
    lines = [b'volume %s files %d free %d of %d\n' % (
        shown(facts.name), facts.files, facts.free, facts.blocks)]
    for place in range(facts.files):
        _, entry = volume.entry(image, place)
        lines.append(b'%d %d %d %d %d %s\n' % (
            entry.number, entry.forks[volume.DATA].logical,
            entry.forks[volume.RESOURCE].logical,
            entry.created, entry.changed, shown(entry.name)))
    return b''.join(lines)


if __name__ == '__main__':
    sys.stdout.buffer.write(listing(sys.stdin.buffer.read()))
