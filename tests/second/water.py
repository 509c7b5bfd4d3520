"""The sample disk WATER: a desk's 400K disk of 1985.

Thirty weeks of hourly readings, a tariff, a log that grows by the day, a list
of meters that is locked, a program for the hall's display with a resource
fork.  All files are made by the second program's own calls, in the order in
which a desk would make them: the log grows between the weeks' days, and two
weeks were deleted before the tariff came, so that files lie scattered.  The
clump size is stored last, as no desk rounded to clumps then (T-07).
"""

import datetime
import struct

import volume
from volume import DATA, RESOURCE

MONDAY = datetime.datetime(1985, 1, 7)
WEEKS = 32
DELETED = (3, 17)
SCHOOLS = 19
CLUMP = 8192


def seconds(moment):
    return int((moment - datetime.datetime(1904, 1, 1)).total_seconds())


def formatted():
    """An empty disk: 800 blocks, S = 16, A = 1,024, N = 391."""
    image = bytearray(800 * 512)
    struct.pack_into('>HIIHHHHHIIHIH6s', image, 1024, 0xD2D7,
                     seconds(MONDAY), seconds(MONDAY), 0, 0, 4, 12, 391,
                     1024, 0, 16, 1, 391, b'\5WATER')
    return image


class Desk:
    """The disk in its drive, and the meter on the wall."""

    def __init__(self):
        self.image = formatted()
        self.litres = 4182600

    def done(self, number):
        if number:
            raise SystemExit('WATER: refused %d' % number)

    def create(self, name, kind, moment):
        self.done(volume.create(self.image, name, kind + bytes(8),
                                seconds(moment), seconds(moment)))

    def append(self, name, fork, data, moment):
        _, _, entry = volume.find(self.image, name)
        self.done(volume.write(self.image, name, fork,
                               entry.forks[fork].logical, data,
                               seconds(moment)))

    def put(self, name, kind, data, moment):
        self.create(name, kind, moment)
        self.append(name, DATA, data, moment)

    def day(self, name, day):
        """A day's readings into its week, and a line into the log."""
        first = self.litres
        lines = [day.strftime('%Y-%m-%d\r').encode()]
        for hour in range(24):
            at_school = day.weekday() < 5 and 7 <= hour < 17
            self.litres += 12 + (day.day * 7 + hour * 13) % 41 * (
                6 if at_school else 1)
            lines.append(b'%02d %d.%03d\r' % (hour, *divmod(self.litres, 1000)))
        night = day + datetime.timedelta(hours=23, minutes=59)
        self.append(name, DATA, b''.join(lines), night)
        self.append(b'Log', DATA, b'%s: %d litres used, read by the desk, '
                    b'no leak seen\r' % (day.strftime('%a %d %b').encode(),
                                         self.litres - first), night)

    def lock(self, name):
        """Document 01 has no call for this: bit 0 of the entry's flags."""
        placed = volume.Volume(self.image).file_of(name)
        self.image[placed.at] |= 1


def meters():
    return b''.join(b'School %02d: meter %05d, %d mm\r' % (
        school, 30011 + 367 * school, (15, 20, 25)[school % 3])
        for school in range(1, SCHOOLS + 1))


def tariff():
    lines = [b'Tariff from 1 July 1985, in cents for a cubic metre\r']
    for school in range(1, SCHOOLS + 1):
        for season in (b'summer', b'winter'):
            lines.append(b'School %02d, %s: %d by day, %d by night, %d above '
                         b'400 cubic metres\r' % (
                             school, season, 212 + school % 4, 148,
                             265 + 3 * (school % 5)))
    return b''.join(lines)


def water():
    desk = Desk()
    text, program = b'TEXTMACA', b'APPLWATR'
    morning = MONDAY + datetime.timedelta(hours=8)
    desk.put(b'Meters', text, meters(), morning)
    desk.put(b'Relev\x8es 1984', text, b''.join(
        b'1984-%02d %d\r' % (month, 118000 + 5170 * (month * 5 % 12))
        for month in range(1, 13)), morning)
    desk.create(b'Hall display', program, morning)
    desk.append(b'Hall display', RESOURCE, bytes(
        i * i // 7 % 256 for i in range(9300)), morning)
    desk.create(b'Log', text, morning)
    for week in range(1, WEEKS + 1):
        name = b'Week %02d' % week
        monday = MONDAY + datetime.timedelta(weeks=week - 1)
        desk.create(name, text, monday + datetime.timedelta(hours=8))
        for day in range(7):
            desk.day(name, monday + datetime.timedelta(days=day))
        if week == 24:
            for old in DELETED:
                desk.done(volume.delete(desk.image, b'Week %02d' % old))
            desk.put(b'Tariff', text, tariff(),
                     datetime.datetime(1985, 6, 24, 9, 30))
    desk.lock(b'Meters')
    struct.pack_into('>I', desk.image, 1024 + 24, CLUMP)
    # the backup copy in the last two blocks
    desk.image[798 * 512:] = desk.image[2 * 512:4 * 512]
    desk.done(volume.check(desk.image)[0])
    return desk.image
