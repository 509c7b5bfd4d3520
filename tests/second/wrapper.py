"""Makes Disk Copy 4.2 files around an image, with all that document 02 leaves
free filled with garbage: the field behind the name, the format byte, and the
first 12 bytes of the tags.

The header is written here by itself; of diskcopy.py only the checksum is used.
"""

import diskcopy
import maker

TAG_SIZE = 9600


class Wrapper:
    """A header's fields and the tags.  file() puts them around the data."""

    def __init__(self, rng, name_length=None, tags=False):
        if name_length is None:
            name_length = rng.choice((0, 1, 62, 63, rng.randint(2, 61)))
        self.name_length = name_length
        self.field = maker.some_bytes(rng, 63)
        self.format_byte = rng.getrandbits(8)
        self.tags = maker.some_bytes(rng, TAG_SIZE) if tags else b''

    def file(self, data):
        data = bytes(data)
        numbers = (len(data), len(self.tags), diskcopy.checksum(data),
                   diskcopy.checksum(self.tags[12:]))
        header = (bytes([self.name_length]) + self.field
                  + b''.join(n.to_bytes(4, 'big') for n in numbers)
                  + bytes([0, self.format_byte, 1, 0]))
        return bytearray(header + data + self.tags)


def off(file, at, by=1, size=4):
    """Changes the number stored at a byte of the file."""
    number = int.from_bytes(file[at:at + size], 'big') + by
    file[at:at + size] = (number % 256 ** size).to_bytes(size, 'big')
    return file
