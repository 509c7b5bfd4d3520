/*
 * The calls of the archive on known answers: document 01's disk HALL, its P cases, each number that a call can give, and writes
 * in parts. Each test is made on the image by itself and on it in wrapped files. Then the tests of clumps.c, rename.c, quick.c
 * and wrapped.c.
 * usage: calls HALL-IMAGE. A line for each test; exit status 1 where one fails.
 */
#include "support.h"

#define LARGE MFS_IMAGE_400K

/* ---- images and answers */

/* An 800-block volume with no files, S = 16, A = 1,024. */
static void large(unsigned blocks)
{
    memset(image, 0, LARGE);
    put16(image + 1024, 0xd2d7);
    put16(image + 1038, 4);
    put16(image + 1040, 12);
    put16(image + 1042, blocks);
    put32(image + 1044, 1024);
    put16(image + 1052, 16);
    put32(image + 1054, 1);
    put16(image + 1058, blocks);
}

/* A directory entry for a file of 1,025 data bytes in two blocks of 1,024. */
static void put_file(uint8_t *at, uint32_t number, unsigned first, const void *name, size_t size)
{
    at[0] = 0x80;
    put32(at + 18, number);
    put16(at + 22, first);
    put32(at + 24, 1025);
    put32(at + 28, 2048);
    at[50] = (uint8_t)size;
    memcpy(at + 51, name, size);
}

/* An 800-block volume of one file, in blocks 2 and 3, with a name of this size: create makes none above 31. */
static void old_file(size_t size)
{
    large(391);
    put16(image + 1036, 1);
    put32(image + 1054, 2);
    put16(image + 1058, 389);
    memcpy(image + 1088, "\x00\x30\x01", 3);
    put_file(image + 2048, 1, 2, letters, size);
}

/* HALL with four more entries of 82 bytes, the largest that create makes: 72 of 400 bytes are left. */
static void fill_directory(void)
{
    uint8_t name[31];
    uint8_t i;

    memcpy(name, letters, sizeof name);
    for (i = 0; i < 4; i++) {
        name[0] = (uint8_t)('0' + i);
        EXPECT(form->call.create(LENT(HALL), name, sizeof name, finder, 1, 2) == MFS_SUCCESS);
    }
    keep(HALL);
}

static const mfs_directory_entry week1 = {
    0x80, 0, {0}, 1, {2, 700, 1024}, {0, 0, 0}, 2500000000u, 2500600000u, 5, {'W', 'E', 'E', 'K', '1'}};
static const mfs_directory_entry rates = {
    0x80, 0, {0}, 2, {3, 512, 512}, {0, 0, 0}, 2500000000u, 2500000000u, 5, {'R', 'A', 'T', 'E', 'S'}};

/* ---- refusals */

/* Write, cut and delete refuse to change this file. */
static void no_change(const uint8_t *name, size_t size, uint8_t number)
{
    refuses_write(HALL, name, size, 0, number);
    refuses_cut(HALL, name, size, 0, number);
    refuses_delete(HALL, name, size, number);
}

/* Every call refuses this image. */
static void all_refuse(size_t length, uint8_t number)
{
    keep(length);
    each_refuses(length, number);
}

/* HALL with another byte is refused by every call. */
static void byte_refused(size_t at, uint8_t byte, uint8_t number)
{
    start();
    image[at] = byte;
    all_refuse(HALL, number);
}

/* ---- the tests: known answers of each call */

static void check_facts(void)
{
    mfs_facts f = {0xd2d7, 0, 0, 0, 2, 4, 1, 5, 512, 0, 5, 3, 2, 4, {'H', 'A', 'L', 'L'}};
    mfs_check_answer r = form->call.check(LENT(HALL));

    EXPECT(r.number == MFS_SUCCESS && same_facts(r.facts, f) && as_wanted(HALL));
}

static void check_every_field(void)
{
    mfs_facts f = {0xd2d7, 0x11223344, 0x55667788, 0x1234, 2, 4, 1, 5, 512, 0x99aabbcc, 5, 0xddeeff01, 2, 27,
                   {1, 2, 3, 4, 5, 6, 7, 8, 9, 10, 11, 12, 13, 14, 15, 16, 17, 18, 19, 20, 21, 22, 23, 24, 25, 26, 27}};
    mfs_check_answer r;
    uint8_t i;

    put32(image + 1026, f.created);
    put32(image + 1030, f.backup);
    put16(image + 1034, f.attributes);
    put32(image + 1048, f.clump_size);
    put32(image + 1054, f.next_number);
    for (i = 0; i < 28; i++)
        image[1060 + i] = i == 0 ? 27 : i;
    keep(HALL);
    r = form->call.check(LENT(HALL));
    EXPECT(r.number == MFS_SUCCESS && same_facts(r.facts, f) && as_wanted(HALL));
}

static void entry_and_find(void)
{
    mfs_entry_answer e = form->call.entry(LENT(HALL), 0);
    mfs_find_answer f = form->call.find(LENT(HALL), RATES);

    EXPECT(e.number == MFS_SUCCESS && same_entry(e.entry, week1));
    EXPECT(f.number == MFS_SUCCESS && f.place == 1 && same_entry(f.entry, rates));
    e = form->call.entry(LENT(HALL), 1);
    EXPECT(e.number == MFS_SUCCESS && same_entry(e.entry, rates));
    f = form->call.find(LENT(HALL), WEEK1);
    EXPECT(f.number == MFS_SUCCESS && f.place == 0 && same_entry(f.entry, week1) && as_wanted(HALL));
}

/* RATES with another value in each field of its entry, and a resource fork of 300 bytes in block 5. */
static void entry_every_field(void)
{
    mfs_directory_entry d = {0xff, 0, {0}, 0x11223344, {3, 500, 512}, {5, 300, 512}, 0x55667788, 0x99aabbcc, 5,
                             {'r', 0xe9, 't', 0, ' '}};
    mfs_entry_answer e;
    mfs_find_answer f;

    memcpy(d.finder, finder, 16);
    image[ENTRY2] = d.flags;
    memcpy(image + ENTRY2 + 2, finder, 16);
    put32(image + ENTRY2 + 18, d.number);
    put32(image + ENTRY2 + 24, 500);
    put16(image + ENTRY2 + 32, 5);
    put32(image + ENTRY2 + 34, 300);
    put32(image + ENTRY2 + 38, 512);
    put32(image + ENTRY2 + 42, d.created);
    put32(image + ENTRY2 + 46, d.changed);
    memcpy(image + ENTRY2 + 51, d.name, 5);
    memcpy(image + 1088, "\x00\x40\x01\x00\x10\x01", 6);
    put16(image + 1058, 1);
    put32(image + 1054, 0x11223345);
    keep(HALL);
    e = form->call.entry(LENT(HALL), 1);
    EXPECT(e.number == MFS_SUCCESS && same_entry(e.entry, d));
    f = form->call.find(LENT(HALL), (const uint8_t *)"R\xe9T\0 ", 5);
    EXPECT(f.number == MFS_SUCCESS && f.place == 1 && same_entry(f.entry, d) && as_wanted(HALL));
}

static void blocks(void)
{
    mfs_block_answer a = form->call.block(LENT(HALL), WEEK1, MFS_DATA_FORK, 0);
    mfs_block_answer b = form->call.block(LENT(HALL), WEEK1, MFS_DATA_FORK, 1);
    mfs_block_answer c = form->call.block(LENT(HALL), RATES, MFS_DATA_FORK, 0);

    EXPECT(a.number == MFS_SUCCESS && a.block == 2);
    EXPECT(b.number == MFS_SUCCESS && b.block == 4);
    EXPECT(c.number == MFS_SUCCESS && c.block == 3 && as_wanted(HALL));
}

/* The allocation blocks hold other bytes each, and the buffer is longer or shorter than what is left. */
static void reads(void)
{
    uint8_t buffer[1000];
    mfs_read_answer r;
    size_t i;

    for (i = BLOCK(2); i < HALL; i++)
        image[i] = (uint8_t)(i * 7 + i / 256);
    keep(HALL);
    memset(buffer, 0xee, sizeof buffer);
    r = form->call.read(LENT(HALL), WEEK1, MFS_DATA_FORK, 0, buffer, sizeof buffer);
    EXPECT(r.number == MFS_SUCCESS && r.count == 700);
    EXPECT(memcmp(buffer, want + BLOCK(2), 512) == 0 && memcmp(buffer + 512, want + BLOCK(4), 188) == 0);
    EXPECT(buffer[700] == 0xee && memcmp(buffer + 700, buffer + 701, 299) == 0);
    memset(buffer, 0xee, sizeof buffer);
    r = form->call.read(LENT(HALL), WEEK1, MFS_DATA_FORK, 510, buffer, 5);
    EXPECT(r.number == MFS_SUCCESS && r.count == 5 && buffer[5] == 0xee);
    EXPECT(memcmp(buffer, want + BLOCK(2) + 510, 2) == 0 && memcmp(buffer + 2, want + BLOCK(4), 3) == 0);
    r = form->call.read(LENT(HALL), WEEK1, MFS_DATA_FORK, 700, buffer, 5);
    EXPECT(r.number == MFS_SUCCESS && r.count == 0 && as_wanted(HALL));
    r = form->call.read(LENT(HALL), WEEK1, MFS_DATA_FORK, 0, buffer, 0);
    EXPECT(r.number == MFS_SUCCESS && r.count == 0 && as_wanted(HALL));
}

/* A name of 4 bytes, and one of 31, the most that a new file may have. */
static void creates(void)
{
    static const char *const names[2] = {"FOUR", "The longest name of a new file."};
    int i;

    for (i = 0; i < 2; i++) {
        size_t size = strlen(names[i]);

        start();
        EXPECT(form->call.create(LENT(HALL), (const uint8_t *)names[i], size, finder, 0x01020304, 0x05060708) == MFS_SUCCESS);
        want[ENTRY3] = 0x80;
        memcpy(want + ENTRY3 + 2, finder, 16);
        put32(want + ENTRY3 + 18, 3);
        put32(want + ENTRY3 + 42, 0x01020304);
        put32(want + ENTRY3 + 46, 0x05060708);
        want[ENTRY3 + 50] = (uint8_t)size;
        memcpy(want + ENTRY3 + 51, names[i], size);
        put16(want + 1036, 3);
        put32(want + 1054, 4);
        EXPECT(as_wanted(HALL));
    }
}

/* Old names above 31: told, found in another case, read, written, cut and deleted. */
static void old_names(void)
{
    static const size_t sizes[3] = {32, 254, 255};
    uint8_t capitals[255], buffer[1025];
    int i;

    memset(capitals, 'N', sizeof capitals);
    for (i = 0; i < 3; i++) {
        size_t size = sizes[i];
        mfs_directory_entry d = {0x80, 0, {0}, 1, {2, 1025, 2048}, {0, 0, 0}, 0, 0, (uint8_t)size, {0}};
        mfs_entry_answer e;
        mfs_find_answer f;
        mfs_read_answer r;

        old_file(size);
        memset(image + 8192, 0xa5, 2048);
        keep(LARGE);
        memcpy(d.name, letters, size);
        EXPECT(form->call.check(LENT(LARGE)).facts.files == 1);
        e = form->call.entry(LENT(LARGE), 0);
        EXPECT(e.number == MFS_SUCCESS && same_entry(e.entry, d));
        f = form->call.find(LENT(LARGE), capitals, size);
        EXPECT(f.number == MFS_SUCCESS && f.place == 0 && same_entry(f.entry, d));
        refuses_find(LARGE, letters, size - 1, MFS_NOT_FOUND);
        EXPECT(form->call.block(LENT(LARGE), letters, size, MFS_DATA_FORK, 1).block == 3);
        r = form->call.read(LENT(LARGE), letters, size, MFS_DATA_FORK, 0, buffer, sizeof buffer);
        EXPECT(r.number == MFS_SUCCESS && r.count == 1025 && memcmp(buffer, want + 8192, 1025) == 0 && as_wanted(LARGE));

        EXPECT(form->call.write(LENT(LARGE), letters, size, MFS_DATA_FORK, 1023, finder, 2, 5) == MFS_SUCCESS);
        memcpy(want + 8192 + 1023, finder, 2);
        put32(want + 2048 + 46, 5);
        EXPECT(as_wanted(LARGE));
        EXPECT(form->call.cut(LENT(LARGE), capitals, size, MFS_DATA_FORK, 1024, 6) == MFS_SUCCESS);
        memcpy(want + 1088, "\x00\x10\x00", 3);
        put16(want + 1058, 390);
        put32(want + 2048 + 24, 1024);
        put32(want + 2048 + 28, 1024);
        put32(want + 2048 + 46, 6);
        EXPECT(as_wanted(LARGE));
        EXPECT(form->call.delete(LENT(LARGE), letters, size) == MFS_SUCCESS);
        memset(want + 1088, 0, 3);
        put16(want + 1036, 0);
        put16(want + 1058, 391);
        memset(want + 2048, 0, 512);
        EXPECT(as_wanted(LARGE));
    }
}

/* "Ete" with both its accents, in two spellings, and a name that only looks like it. */
static void accents(void)
{
    static const uint8_t name[3] = {0x83, 't', 0x8e}, other[3] = {0x8e, 'T', 0x83}, near[3] = {0x83, 't', 0x8f};
    mfs_find_answer f;

    EXPECT(form->call.create(LENT(HALL), name, 3, finder, 1, 2) == MFS_SUCCESS);
    keep(HALL);
    f = form->call.find(LENT(HALL), other, 3);
    EXPECT(f.number == MFS_SUCCESS && f.place == 2 && memcmp(f.entry.name, name, 3) == 0 && as_wanted(HALL));
    refuses_create(HALL, other, 3, MFS_NAME_EXISTS);
    refuses_find(HALL, near, 3, MFS_NOT_FOUND);
    EXPECT(form->call.create(LENT(HALL), near, 3, finder, 1, 2) == MFS_SUCCESS);
    EXPECT(form->call.check(LENT(HALL)).facts.files == 4 && form->call.find(LENT(HALL), near, 3).place == 3);
    memcpy(image + ENTRY3 + 54 + 51, other, 3);
    all_refuse(HALL, MFS_BAD_DIRECTORY);
}

/* 0 is the data fork; 1 and every number above it is the resource fork. */
static void fork_numbers(void)
{
    static const uint8_t numbers[3] = {MFS_RESOURCE_FORK, 2, 255};
    uint8_t buffer[4];
    mfs_find_answer f;
    int i;

    for (i = 0; i < 3; i++) {
        uint8_t n = numbers[i];

        start();
        EXPECT(form->call.write(LENT(HALL), RATES, n, 0, (const uint8_t *)"tariff", 6, 9) == MFS_SUCCESS);
        memcpy(want + BLOCK(5), "tariff", 6);
        put16(want + ENTRY2 + 32, 5);
        put32(want + ENTRY2 + 34, 6);
        put32(want + ENTRY2 + 38, 512);
        put32(want + ENTRY2 + 46, 9);
        want_map("\x00\x40\x01\x00\x10\x01", 1);
        EXPECT(as_wanted(HALL));
        EXPECT(form->call.block(LENT(HALL), RATES, n, 0).block == 5 && form->call.block(LENT(HALL), RATES, 0, 0).block == 3);
        EXPECT(form->call.read(LENT(HALL), RATES, n, 2, buffer, 4).count == 4 && memcmp(buffer, "riff", 4) == 0);
        EXPECT(form->call.read(LENT(HALL), RATES, 0, 0, buffer, 4).count == 4 && memcmp(buffer, "\0\0\0\0", 4) == 0);
        EXPECT(form->call.cut(LENT(HALL), RATES, n, 5, 10) == MFS_SUCCESS);
        f = form->call.find(LENT(HALL), RATES);
        EXPECT(f.entry.resource.logical == 5 && f.entry.data.logical == 512 && f.entry.changed == 10);
        EXPECT(form->call.cut(LENT(HALL), RATES, 0, 0, 10) == MFS_SUCCESS);
        f = form->call.find(LENT(HALL), RATES);
        EXPECT(f.entry.resource.logical == 5 && f.entry.data.logical == 0 && f.entry.data.start == 0);
    }
}

/* ---- the tests: a write in parts */

#define PARTS 40

/* Bytes to write: 1,348 of them fill HALL from WEEK1's end on. */
static const uint8_t *week(void)
{
    static uint8_t bytes[1349];
    size_t i;

    for (i = 0; i < sizeof bytes; i++)
        bytes[i] = (uint8_t)(i * 7 + i / 256 + 1);
    return bytes;
}

/* One write, and on HALL again its parts, one behind the other: they leave the very image, or file, that the one has left. */
static void same_in_parts(const uint8_t *name, size_t size, uint8_t fork, uint64_t offset, const size_t *lengths, size_t count)
{
    static uint8_t single[MFS_WRAPPED_TAGGED_LENGTH];
    const uint8_t *bytes = week();
    size_t i, total = 0;

    for (i = 0; i < count; i++)
        total += lengths[i];
    start();
    EXPECT(form->call.write(LENT(HALL), name, size, fork, offset, bytes, total, 77) == MFS_SUCCESS);
    EXPECT(!unchanged(HALL));
    memcpy(single, lent, lent_length(HALL));
    start();
    for (i = 0; i < count; i++) {
        EXPECT(form->call.write(LENT(HALL), name, size, fork, offset, bytes, lengths[i], 77) == MFS_SUCCESS);
        offset += lengths[i];
        bytes += lengths[i];
    }
    EXPECT(memcmp(lent, single, lent_length(HALL)) == 0);
}

/* Parts that end with blocks and beside their ends, with empty ones first, last and between; most fill HALL from 700 on. */
static void parts_that_succeed(void)
{
    static const size_t rows[][5] = {
        {1348, 0, 0, 0, 0}, {0, 0, 0, 0, 1348}, {324, 512, 512, 0, 0}, {0, 324, 0, 512, 512}, {325, 511, 1, 511, 0},
        {1, 1346, 0, 0, 1}, {323, 1, 1, 1023, 0}, {324, 76, 0, 0, 0}, {325, 0, 75, 200, 0}};
    size_t forty[PARTS], i;

    for (i = 0; i < sizeof rows / sizeof rows[0]; i++)
        same_in_parts(WEEK1, MFS_DATA_FORK, 700, rows[i], 5);
    for (i = 0; i < PARTS; i++)
        forty[i] = i % 3 == 0 ? 0 : i == 38 ? 98 : 50;
    same_in_parts(WEEK1, MFS_DATA_FORK, 700, forty, PARTS);
    same_in_parts(WEEK1, MFS_DATA_FORK, 0, forty, PARTS);
    same_in_parts(RATES, MFS_RESOURCE_FORK, 0, forty, PARTS - 16);
    memset(forty, 0, sizeof forty);
    same_in_parts(WEEK1, MFS_DATA_FORK, 700, forty, PARTS);
}

/* The same on HALL with clumps of two, three, four and five blocks. */
static void parts_in_clumps(void)
{
    uint32_t clump_size;

    for (clump_size = 1024; clump_size <= 2560; clump_size += 512) {
        put32(hall + 1048, clump_size);
        parts_that_succeed();
    }
    put32(hall + 1048, 0);
}

/* 1,349 bytes meet 17, as in P5: in one part, and in the second of two, which leaves what the first has left. */
static void parts_without_room(void)
{
    const uint8_t *bytes = week();

    EXPECT(form->call.write(LENT(HALL), WEEK1, MFS_DATA_FORK, 700, bytes, 1349, 77) == MFS_DISK_FULL && unchanged(HALL));
    EXPECT(form->call.write(LENT(HALL), WEEK1, MFS_DATA_FORK, 700, bytes, 400, 77) == MFS_SUCCESS);
    want_map("\x00\x40\x01\x00\x50\x01", 1);
    want_week1(1100, 1536, 77);
    memcpy(want + BLOCK(4) + 188, bytes, 324);
    memcpy(want + BLOCK(5), bytes + 324, 76);
    EXPECT(as_wanted(HALL));
    EXPECT(form->call.write(LENT(HALL), WEEK1, MFS_DATA_FORK, 1100, bytes + 400, 949, 77) == MFS_DISK_FULL && unchanged(HALL));
    EXPECT(form->call.write(LENT(HALL), WEEK1, MFS_DATA_FORK, 1100, bytes + 400, 948, 77) == MFS_SUCCESS);
}

/* A write that is refused otherwise: its first part is refused by the same number, however long it is. */
static void parts_refused(void)
{
    static const struct {
        const char *name;
        uint64_t offset;
        size_t at; /* a byte of HALL that is set first */
        uint8_t byte, number;
    } rows[] = {
        {"WEEK1", 701, 0, 0, MFS_BEHIND_END},
        {"WEEK1", UINT64_MAX, 0, 0, MFS_BEHIND_END},
        {"WEEK1", 701, ENTRY1, 0x81, MFS_FILE_LOCKED},
        {"WEEK9", 701, ENTRY1, 0x81, MFS_NOT_FOUND},
        {"", 701, ENTRY1, 0x81, MFS_BAD_NAME},
        {"", 701, 1034, 0x80, MFS_VOLUME_LOCKED},
        {"", 701, 1059, 3, MFS_BAD_FREE_COUNT},
    };
    static const size_t lengths[] = {1349, 1348, 1, 0};
    size_t i, n;

    for (i = 0; i < sizeof rows / sizeof rows[0]; i++) {
        const uint8_t *name = (const uint8_t *)rows[i].name;

        start();
        image[rows[i].at] = rows[i].byte;
        keep(HALL);
        for (n = 0; n < sizeof lengths / sizeof lengths[0]; n++)
            EXPECT(form->call.write(LENT(HALL), name, strlen(rows[i].name), MFS_DATA_FORK, rows[i].offset, week(), lengths[n], 77)
                       == rows[i].number
                   && unchanged(HALL));
    }
}

/* ---- the tests: document 01's P cases */

/* ABC and DEF hex are no blocks' numbers: refused by 5. 12 31 87 is 123 and 187: two chains show both. */
static void p1(void)
{
    memcpy(image + 1088, "\xab\xcd\xef", 3);
    all_refuse(HALL, MFS_BAD_MAP_ENTRY);
    large(391);
    memcpy(image + 1088, "\x12\x31\x87", 3);
    image[1088 + (0x123 - 2) * 3 / 2 + 1] = 1;
    image[1088 + (0x187 - 2) * 3 / 2 + 1] = 1;
    put16(image + 1036, 2);
    put32(image + 1054, 3);
    put16(image + 1058, 387);
    put_file(image + 2048, 1, 2, "XX", 2);
    put_file(image + 2048 + 54, 2, 3, "YY", 2);
    keep(LARGE);
    EXPECT(form->call.check(LENT(LARGE)).number == MFS_SUCCESS);
    EXPECT(form->call.block(LENT(LARGE), (const uint8_t *)"XX", 2, MFS_DATA_FORK, 1).block == 0x123);
    EXPECT(form->call.block(LENT(LARGE), (const uint8_t *)"YY", 2, MFS_DATA_FORK, 1).block == 0x187);
}

static void p2(void)
{
    EXPECT(memcmp(image + 1088, "\x00\x40\x01\x00\x10\x00\x00", 7) == 0 && image[1095] < 0x10);
}

static void p3(void)
{
    uint8_t bytes[400];

    memset(bytes, 0xa5, sizeof bytes);
    EXPECT(form->call.write(LENT(HALL), WEEK1, MFS_DATA_FORK, 700, bytes, sizeof bytes, 77) == MFS_SUCCESS);
    want_map("\x00\x40\x01\x00\x50\x01", 1);
    want_week1(1100, 1536, 77);
    memset(want + BLOCK(4) + 188, 0xa5, 324);
    memset(want + BLOCK(5), 0xa5, 76);
    EXPECT(as_wanted(HALL) && form->call.check(LENT(HALL)).facts.free_blocks == 1);
    EXPECT(form->call.block(LENT(HALL), WEEK1, MFS_DATA_FORK, 2).block == 5);
}

static void p4(void)
{
    uint8_t bytes[1348];

    memset(bytes, 0xa5, sizeof bytes);
    EXPECT(form->call.write(LENT(HALL), WEEK1, MFS_DATA_FORK, 700, bytes, sizeof bytes, 77) == MFS_SUCCESS);
    want_map("\x00\x40\x01\x00\x50\x06", 0);
    want[1095] = 0x10;
    want_week1(2048, 2048, 77);
    memset(want + BLOCK(4) + 188, 0xa5, 324);
    memset(want + BLOCK(5), 0xa5, 1024);
    EXPECT(as_wanted(HALL) && form->call.check(LENT(HALL)).facts.free_blocks == 0);
    EXPECT(form->call.block(LENT(HALL), WEEK1, MFS_DATA_FORK, 3).block == 6);
    refuses_block(HALL, WEEK1, 4, MFS_BEHIND_END);
}

static void p5(void)
{
    static const uint8_t bytes[1349] = {1};

    EXPECT(form->call.write(LENT(HALL), WEEK1, MFS_DATA_FORK, 700, bytes, sizeof bytes, 77) == MFS_DISK_FULL && as_wanted(HALL));
}

static void p6(void)
{
    EXPECT(form->call.write(LENT(HALL), WEEK1, MFS_DATA_FORK, 700, finder, 0, 77) == MFS_SUCCESS);
    want_week1(700, 1024, 77);
    EXPECT(as_wanted(HALL));
    EXPECT(form->call.write(LENT(HALL), WEEK1, MFS_DATA_FORK, 701, finder, 0, 78) == MFS_BEHIND_END && as_wanted(HALL));
}

static void p7(void)
{
    EXPECT(form->call.cut(LENT(HALL), WEEK1, MFS_DATA_FORK, 513, 77) == MFS_SUCCESS);
    want_week1(513, 1024, 77);
    EXPECT(as_wanted(HALL));
}

static void p8(void)
{
    EXPECT(form->call.cut(LENT(HALL), WEEK1, MFS_DATA_FORK, 512, 77) == MFS_SUCCESS);
    want_map("\x00\x10\x01\x00\x00\x00", 3);
    want_week1(512, 512, 77);
    EXPECT(as_wanted(HALL));
}

static void p9(void)
{
    EXPECT(form->call.delete(LENT(HALL), RATES) == MFS_SUCCESS);
    want_map("\x00\x40\x00\x00\x10\x00", 3);
    memset(want + ENTRY2, 0, 512 - 56);
    put16(want + 1036, 1);
    EXPECT(as_wanted(HALL));
}

static void p10(void)
{
    mfs_find_answer r = form->call.find(LENT(HALL), (const uint8_t *)"week1", 5);

    EXPECT(r.number == MFS_SUCCESS && r.place == 0 && same_entry(r.entry, week1) && as_wanted(HALL));
    refuses_create(HALL, (const uint8_t *)"week1", 5, MFS_NAME_EXISTS);
}

static void p11(void)
{
    byte_refused(1059, 3, MFS_BAD_FREE_COUNT);
}

static void p12(void)
{
    byte_refused(1092, 0x20, MFS_BAD_FORK);
}

static void of_800_blocks(void)
{
    large(391);
    keep(LARGE);
    EXPECT(form->call.check(LENT(LARGE)).number == MFS_SUCCESS && as_wanted(LARGE));
    large(392);
    all_refuse(LARGE, MFS_BAD_LAYOUT);
}

/* ---- the tests: each number that refuses */

static void n1(void)
{
    all_refuse(0, MFS_BAD_LENGTH);
    all_refuse(HALL - 1, MFS_BAD_LENGTH);
    all_refuse(7 * 512, MFS_BAD_LENGTH);
    all_refuse(MOST, MFS_BAD_LENGTH);
}

static void n2(void)
{
    byte_refused(1024, 0xd3, MFS_BAD_SIGNATURE);
    byte_refused(1025, 0xd6, MFS_BAD_SIGNATURE);
}

static void n3(void)
{
    byte_refused(1047, 1, MFS_BAD_LAYOUT);
    byte_refused(1042, 3, MFS_BAD_LAYOUT);
    byte_refused(1057, 0, MFS_BAD_LAYOUT);
}

/* One block more than there is room for in 12. */
static void n3_of_12(void)
{
    byte_refused(1043, 6, MFS_BAD_LAYOUT);
}

static void n4(void)
{
    byte_refused(1060, 28, MFS_BAD_VOLUME_NAME);
}

static void n5(void)
{
    byte_refused(1093, 7, MFS_BAD_MAP_ENTRY);
}

static void n6(void)
{
    byte_refused(ENTRY1 + 1, 1, MFS_BAD_ENTRY);
    byte_refused(ENTRY2 + 50, 0, MFS_BAD_ENTRY);
}

static void n7(void)
{
    byte_refused(1037, 3, MFS_BAD_DIRECTORY);
    byte_refused(ENTRY2 + 21, 1, MFS_BAD_DIRECTORY);
}

static void n8(void)
{
    byte_refused(ENTRY2 + 23, 4, MFS_BAD_FORK);
}

static void n9(void)
{
    byte_refused(1093, 1, MFS_BLOCK_OF_NO_FORK);
}

static void n10(void)
{
    byte_refused(1059, 1, MFS_BAD_FREE_COUNT);
}

static void n11(void)
{
    int at;

    for (at = 1034; at <= 1035; at++) {
        start();
        image[at] = 0x80;
        keep(HALL);
        no_change(WEEK1, MFS_VOLUME_LOCKED);
        refuses_create(HALL, THIRD, MFS_VOLUME_LOCKED);
        EXPECT(form->call.check(LENT(HALL)).number == MFS_SUCCESS && form->call.find(LENT(HALL), WEEK1).number == MFS_SUCCESS);
    }
}

static void n12(void)
{
    static const uint8_t name[256] = "WEEK1";
    size_t size;

    for (size = 0; size <= 256; size += 256) {
        refuses_find(HALL, name, size, MFS_BAD_NAME);
        refuses_block(HALL, name, size, 0, MFS_BAD_NAME);
        refuses_read(HALL, name, size, 0, MFS_BAD_NAME);
        refuses_create(HALL, name, size, MFS_BAD_NAME);
        no_change(name, size, MFS_BAD_NAME);
    }
}

static void n13(void)
{
    refuses_entry(HALL, 2, MFS_NOT_FOUND);
    refuses_entry(HALL, UINT64_MAX, MFS_NOT_FOUND);
    refuses_find(HALL, THIRD, MFS_NOT_FOUND);
    refuses_block(HALL, THIRD, 0, MFS_NOT_FOUND);
    refuses_read(HALL, THIRD, 0, MFS_NOT_FOUND);
    no_change(THIRD, MFS_NOT_FOUND);
}

static void n14(void)
{
    refuses_create(HALL, RATES, MFS_NAME_EXISTS);
}

static void n15(void)
{
    image[ENTRY1] = 0x81;
    keep(HALL);
    no_change(WEEK1, MFS_FILE_LOCKED);
    EXPECT(form->call.find(LENT(HALL), WEEK1).entry.flags == 0x81);
}

static void n16(void)
{
    refuses_block(HALL, WEEK1, 2, MFS_BEHIND_END);
    refuses_block(HALL, WEEK1, UINT64_MAX, MFS_BEHIND_END);
    refuses_read(HALL, WEEK1, 701, MFS_BEHIND_END);
    refuses_read(HALL, WEEK1, UINT64_MAX, MFS_BEHIND_END);
    refuses_write(HALL, WEEK1, 701, MFS_BEHIND_END);
    refuses_write(HALL, WEEK1, UINT64_MAX, MFS_BEHIND_END);
    refuses_cut(HALL, WEEK1, 701, MFS_BEHIND_END);
    refuses_cut(HALL, WEEK1, UINT64_MAX, MFS_BEHIND_END);
}

static void n17(void)
{
    static const uint8_t bytes[1025] = {1};

    EXPECT(form->call.write(LENT(HALL), RATES, MFS_RESOURCE_FORK, 0, bytes, 1025, 5) == MFS_DISK_FULL && as_wanted(HALL));
    EXPECT(form->call.write(LENT(HALL), RATES, MFS_RESOURCE_FORK, 0, bytes, 1024, 5) == MFS_SUCCESS);
}

/* Room for an entry of 72 bytes, and none of 74. */
static void n18(void)
{
    fill_directory();
    refuses_create(HALL, letters, 22, MFS_DIRECTORY_FULL);
    EXPECT(form->call.create(LENT(HALL), letters, 21, finder, 1, 2) == MFS_SUCCESS);
}

static void n19(void)
{
    put32(image + 1054, 4294967295u);
    keep(HALL);
    refuses_create(HALL, THIRD, MFS_NO_FILE_NUMBER);
    refuses_create(HALL, letters, 31, MFS_NO_FILE_NUMBER);
}

/* A new name of 32 to 255 bytes: behind 11 and 12, before 14, 19 and 18. That 1 to 10 come before it is in all_refuse. */
static void n21(void)
{
    size_t size;

    refuses_create(HALL, letters, 32, MFS_NAME_TOO_LONG);
    refuses_create(HALL, letters, 255, MFS_NAME_TOO_LONG);
    refuses_create(HALL, letters, 256, MFS_BAD_NAME);
    image[1035] = 0x80;
    keep(HALL);
    refuses_create(HALL, letters, 32, MFS_VOLUME_LOCKED);
    for (size = 31; size <= 32; size++) {
        old_file(size);
        keep(LARGE);
        refuses_create(LARGE, letters, size, size == 31 ? MFS_NAME_EXISTS : MFS_NAME_TOO_LONG);
    }
    start();
    put32(image + 1054, 4294967295u);
    keep(HALL);
    refuses_create(HALL, letters, 32, MFS_NAME_TOO_LONG);
    start();
    fill_directory();
    refuses_create(HALL, letters, 32, MFS_NAME_TOO_LONG);
}

static const struct test tests[] = {
    {"check: the facts of HALL", check_facts},
    {"check: every field of the facts", check_every_field},
    {"entry and find: the files of HALL", entry_and_find},
    {"entry and find: every field of an entry", entry_every_field},
    {"block: the blocks of HALL's files", blocks},
    {"read: bytes, count and the buffer's rest", reads},
    {"create: every byte of the image", creates},
    {"old names above 31: every call but create", old_names},
    {"find, create, check: accents in both spellings", accents},
    {"write, block, read, cut: the fork's number", fork_numbers},
    {"write in parts: what the single write leaves", parts_that_succeed},
    {"write in parts: the same with clumps", parts_in_clumps},
    {"write in parts: 17 at a later part", parts_without_room},
    {"write in parts: refused otherwise", parts_refused},
    {"P1", p1},
    {"P2", p2},
    {"P3", p3},
    {"P4", p4},
    {"P5", p5},
    {"P6", p6},
    {"P7", p7},
    {"P8", p8},
    {"P9", p9},
    {"P10", p10},
    {"P11", p11},
    {"P12", p12},
    {"an 800-block image: 391 blocks, 392 blocks", of_800_blocks},
    {"refused by 2", n2},
    {"refused by 3", n3},
    {"refused by 4", n4},
    {"refused by 5", n5},
    {"refused by 6", n6},
    {"refused by 7", n7},
    {"refused by 8", n8},
    {"refused by 9", n9},
    {"refused by 10", n10},
    {"refused by 11", n11},
    {"refused by 12", n12},
    {"refused by 13", n13},
    {"refused by 14", n14},
    {"refused by 15", n15},
    {"refused by 16", n16},
    {"refused by 17", n17},
    {"refused by 18", n18},
    {"refused by 19", n19},
    {"refused by 21", n21},
};

/* A wrapped image has always 800 blocks. */
static const struct test only_bare[] = {
    {"refused by 1", n1},
    {"refused by 3: 12 blocks", n3_of_12},
};

int main(int argc, char **argv)
{
    const struct form *const forms[] = {&bare, &wrapped, &tagged};
    FILE *file = argc == 2 ? fopen(argv[1], "rb") : NULL;
    int failed;

    if (file == NULL || fread(hall, 1, HALL, file) != HALL) {
        fprintf(stderr, "usage: calls HALL-IMAGE\n");
        return 2;
    }
    fclose(file);
    memset(letters, 'n', sizeof letters);
    failed = run_tests(tests, sizeof tests / sizeof tests[0], forms, 3);
    failed |= run_tests(only_bare, sizeof only_bare / sizeof only_bare[0], forms, 1);
    failed |= test_clumps();
    failed |= test_rename();
    failed |= test_quick();
    return test_wrapped() || failed;
}
