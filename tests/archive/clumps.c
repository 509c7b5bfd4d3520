/*
 * mfs_write on volumes with a clump size: every byte where the fork's blocks are rounded up to whole clumps and where they are
 * not, and refusals. HALL has blocks of 512 bytes; 5 and 6 are free, and WEEK1 has 2 and 4.
 */
#include "support.h"

#define DATE 77

/* HALL with this clump size, and other bytes in its free blocks. */
static void in_clumps(uint32_t size)
{
    start();
    put32(image + 1048, size);
    memset(image + BLOCK(5), 0xee, 1024);
    keep(HALL);
}

/* A write of so many bytes to WEEK1's data fork at 700, which is its end. */
static uint8_t append(size_t length)
{
    uint8_t bytes[1349];

    memset(bytes, 0xa5, sizeof bytes);
    return form->call.write(LENT(HALL), WEEK1, MFS_DATA_FORK, 700, bytes, length, DATE);
}

/* 400 bytes are appended: WEEK1 has then these blocks, and what the bytes don't reach is as it was. */
static void appends(uint32_t size, const char *map, uint8_t last, unsigned free_blocks, uint32_t physical)
{
    in_clumps(size);
    EXPECT(append(400) == MFS_SUCCESS);
    want_map(map, free_blocks);
    want[1095] = last;
    want_week1(1100, physical, DATE);
    memset(want + BLOCK(4) + 188, 0xa5, 324);
    memset(want + BLOCK(5), 0xa5, 76);
    EXPECT(as_wanted(HALL));
}

/* WEEK1 needs 3 blocks, and gets 4: two clumps of two blocks, or one of four. That takes the last free block. */
static void rounded(void)
{
    appends(1024, "\x00\x40\x01\x00\x50\x06", 0x10, 0, 2048);
    appends(2048, "\x00\x40\x01\x00\x50\x06", 0x10, 0, 2048);
}

/* It gets 3: they are a whole clump; or 5 and more would be too many; or the clump is one block. */
static void not_rounded(void)
{
    static const uint32_t sizes[] = {1536, 2560, 3072, 4294966784u, 0, 256, 511, 512, 513, 1023, 1025, 2047, 4294967295u};
    size_t i;

    for (i = 0; i < sizeof sizes / sizeof sizes[0]; i++)
        appends(sizes[i], "\x00\x40\x01\x00\x50\x01", 0, 1, 1536);
}

/* Its two blocks are not a whole clump, and the bytes fit in them. */
static void none_needed(void)
{
    uint32_t size;

    for (size = 1536; size <= 2048; size += 512) {
        in_clumps(size);
        EXPECT(append(324) == MFS_SUCCESS);
        want_week1(1024, 1024, DATE);
        memset(want + BLOCK(4) + 188, 0xa5, 324);
        EXPECT(as_wanted(HALL));
    }
}

/* An empty fork: RATES' resource fork starts at the first of two new blocks. */
static void empty_fork(void)
{
    in_clumps(1024);
    EXPECT(form->call.write(LENT(HALL), RATES, MFS_RESOURCE_FORK, 0, (const uint8_t *)"tariff", 6, DATE) == MFS_SUCCESS);
    memcpy(want + BLOCK(5), "tariff", 6);
    put16(want + ENTRY2 + 32, 5);
    put32(want + ENTRY2 + 34, 6);
    put32(want + ENTRY2 + 38, 1024);
    put32(want + ENTRY2 + 46, DATE);
    want_map("\x00\x40\x01\x00\x10\x06", 0);
    want[1095] = 0x10;
    EXPECT(as_wanted(HALL));
}

/* Without RATES blocks 3, 5 and 6 are free: WEEK1 takes 3 and 5 in that order. A cut keeps the fewest blocks. */
static void spare_block_cut(void)
{
    in_clumps(1024);
    EXPECT(form->call.delete(LENT(HALL), RATES) == MFS_SUCCESS);
    keep(HALL);
    EXPECT(append(400) == MFS_SUCCESS);
    want_map("\x00\x40\x05\x00\x30\x01", 1);
    want_week1(1100, 2048, DATE);
    memset(want + BLOCK(4) + 188, 0xa5, 324);
    memset(want + BLOCK(3), 0xa5, 76);
    EXPECT(as_wanted(HALL));
    EXPECT(form->call.cut(LENT(HALL), WEEK1, MFS_DATA_FORK, 1100, DATE) == MFS_SUCCESS);
    want_map("\x00\x40\x01\x00\x30\x00", 2);
    want_week1(1100, 1536, DATE);
    EXPECT(as_wanted(HALL));
}

/* 17 asks for the blocks needed: 1,348 bytes fill HALL, whatever the clump size. 16 comes before it, also with no block free. */
static void refusals(void)
{
    uint32_t size;

    for (size = 0; size <= 3072; size += 512) {
        in_clumps(size);
        EXPECT(append(1349) == MFS_DISK_FULL && unchanged(HALL));
        refuses_write(HALL, WEEK1, 701, MFS_BEHIND_END);
        EXPECT(append(1348) == MFS_SUCCESS);
        EXPECT(form->call.find(LENT(HALL), WEEK1).entry.data.physical == 2048);
        keep(HALL);
        refuses_write(HALL, WEEK1, 2049, MFS_BEHIND_END);
        refuses_write(HALL, WEEK1, 2048, MFS_DISK_FULL);
    }
}

static const struct test tests[] = {
    {"write: rounded up to whole clumps, every byte", rounded},
    {"write: not rounded up, every byte", not_rounded},
    {"write: no block needed, none taken", none_needed},
    {"write: an empty fork in clumps", empty_fork},
    {"write, cut: the spare block of a clump", spare_block_cut},
    {"write in clumps: refused by 17 and 16", refusals},
};

int test_clumps(void)
{
    const struct form *const forms[] = {&bare, &wrapped, &tagged};

    return run_tests(tests, sizeof tests / sizeof tests[0], forms, 3);
}
