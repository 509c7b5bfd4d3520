"""Disk Copy 4.2 files, straight from T-02 of document 02: the nine calls on
the data inside one, and wrap.

    refusal(file)                              0, 22, 23 or 24
    serve(call, file, ...)                     what that call of volume.py gives
    wrap(image, name, format_byte, buffer)     number

The file is a bytearray, as volume.py's image is; a refusal changes no byte.
"""

import functools
import struct

import volume

DATA_AT = 84
DATA_SIZE = 409600
TAGS_AT = DATA_AT + DATA_SIZE
TAGS_SIZE = 9600
TAGS_LEFT_OUT = 12          # bytes of the tags that their sum leaves out
NAME_FIELD = 63             # bytes behind the name's length byte
SUM_AT = 72

# name's length, name field, data size, tag size, data and tag checksums,
# encoding, format byte, 0100 hex
HEADER = struct.Struct('>B63sIIIIBBH')

TURN = 512                  # bytes whose words turn the sum right round
ZEROS = bytes(TURN)

# what the calls that change nothing give beside a refusal's number
NOTHING = {volume.check: (volume.NO_FACTS,), volume.entry: (volume.NO_ENTRY,),
           volume.find: (0, volume.NO_ENTRY), volume.block: (0,),
           volume.read: (0,)}


@functools.lru_cache(maxsize=32)
def checksum(data):
    """From 0, each 16-bit word is added to a 32-bit sum that wraps, and the
    sum turns right by one bit.  A run of zeros that turns it right round
    leaves it as it is, and is passed over for speed."""
    s = 0
    for at in range(0, len(data), TURN):
        piece = data[at:at + TURN]
        if piece == ZEROS:
            continue
        for word in struct.unpack('>%dH' % (len(piece) // 2), piece):
            s = s + word & 0xFFFFFFFF
            s = s >> 1 | (s & 1) << 31
    return s


def inside(file):
    return file[DATA_AT:TAGS_AT]


def refusal(file):
    if len(file) < DATA_AT:
        return 22
    (name_length, _, data_size, tag_size, data_sum, tag_sum, encoding, _,
     ending) = HEADER.unpack_from(file)
    if (name_length > NAME_FIELD or data_size != DATA_SIZE
            or tag_size not in (0, TAGS_SIZE) or encoding != 0
            or ending != 0x0100 or len(file) != TAGS_AT + tag_size):
        return 22
    if checksum(bytes(inside(file))) != data_sum:
        return 23
    if checksum(bytes(file[TAGS_AT + TAGS_LEFT_OUT:])) != tag_sum:
        return 24
    return 0


def serve(call, file, *arguments):
    """One of volume.py's nine calls on the data inside."""
    number = refusal(file)
    if number:
        return (number, *NOTHING[call]) if call in NOTHING else number
    data = inside(file)
    result = call(data, *arguments)
    if call not in NOTHING and result == 0:
        file[DATA_AT:TAGS_AT] = data
        struct.pack_into('>I', file, SUM_AT, checksum(bytes(data)))
    return result


def wrap(image, name, format_byte, buffer):
    if (len(image) != DATA_SIZE or len(buffer) != TAGS_AT
            or len(name) > NAME_FIELD):
        return 22
    number, _ = volume.check(image)
    if number == 0:
        HEADER.pack_into(buffer, 0, len(name), bytes(name), DATA_SIZE, 0,
                         checksum(bytes(image)), 0, 0, format_byte, 0x0100)
        buffer[DATA_AT:] = image
    return number
