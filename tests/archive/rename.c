/*
 * mfs_rename on known answers: every byte of the image where the entry stays, where it goes behind the last one of its directory
 * block or of another, and each number that it can give, in order.
 */
#include "support.h"

#define LARGE MFS_IMAGE_400K
#define DATE 0x0a0b0c0d

/* The n-th entry of a directory block where all have names of 31 bytes. */
#define LONG_ENTRY(block, n) (DIRECTORY(block) + 82 * (n))

static uint8_t capitals[256]; /* the letter N */

/* ---- images */

/* At a place an entry of this name is wanted: all else of it as it was elsewhere, but for the date. */
static void want_entry(size_t at, const uint8_t *from, const void *name, size_t size)
{
    memmove(want + at, from, 50);
    put32(want + at + 46, DATE);
    want[at + 50] = (uint8_t)size;
    memcpy(want + at + 51, name, size);
    if (size % 2 == 0)
        want[at + 51 + size] = 0;
}

/* In each block six names of 31 bytes, A to F, G to L and M to R: 20 bytes are left in each, and are not zero. */
static void three_blocks(void)
{
    unsigned i;

    put_volume(18, 3);
    for (i = 0; i < 18; i++)
        put_entry(LONG_ENTRY(i / 6, i % 6), i + 1, (uint8_t)('A' + i), 31);
    for (i = 0; i < 3; i++)
        memset(image + LONG_ENTRY(i, 6), 0x7f, 20);
    keep(LARGE);
}

static void renames(size_t length, const uint8_t *name, size_t size, const uint8_t *new_name, size_t new_size)
{
    EXPECT(mfs_rename(LENT(length), name, size, new_name, new_size, DATE) == MFS_SUCCESS && as_wanted(length));
}

/* ---- the tests: what a rename leaves */

/* A name as long, or one byte shorter, where the entry's size is the same. The bytes behind the entries stay. */
static void stays(void)
{
    static const char *const names[] = {"WEEK2", "WEEK", "ROTAS", "W\xe9K\xff", "\x80\0!\x7f "};
    size_t i;

    for (i = 0; i < sizeof names / sizeof names[0]; i++) {
        size_t size = i == 1 || i == 3 ? 4 : 5;

        start();
        memset(image + ENTRY3, 0x7f, 400);
        keep(HALL);
        want_entry(ENTRY1, image + ENTRY1, names[i], size);
        renames(HALL, WEEK1, (const uint8_t *)names[i], size);
        EXPECT(mfs_find(image, HALL, (const uint8_t *)names[i], size).entry.number == 1);
    }
}

/* The pad byte was not zero before, and the name is one byte longer and then shorter again. */
static void pad_byte(void)
{
    image[ENTRY2 + 50] = 4;
    image[ENTRY2 + 55] = 0xee;
    keep(HALL);
    want_entry(ENTRY2, image + ENTRY2, "rate", 4);
    renames(HALL, (const uint8_t *)"RATE", 4, (const uint8_t *)"rate", 4);
    want_entry(ENTRY2, image + ENTRY2, "rates", 5);
    renames(HALL, (const uint8_t *)"RATE", 4, (const uint8_t *)"rates", 5);
    want_entry(ENTRY2, image + ENTRY2, "RATE", 4);
    renames(HALL, RATES, (const uint8_t *)"RATE", 4);
}

/* Its own name: as it is, where only the date changes, in another case, and in the other spelling of its accents. */
static void own_name(void)
{
    static const uint8_t name[3] = {0x83, 't', 0x8e}, other[3] = {0x8e, 'T', 0x83};

    put32(want + ENTRY1 + 46, DATE);
    renames(HALL, WEEK1, WEEK1);
    want_entry(ENTRY1, image + ENTRY1, "wEEk1", 5);
    renames(HALL, WEEK1, (const uint8_t *)"wEEk1", 5);
    EXPECT(mfs_create(image, HALL, name, 3, finder, 1, 2) == MFS_SUCCESS);
    keep(HALL);
    want_entry(ENTRY3, image + ENTRY3, other, 3);
    renames(HALL, other, 3, other, 3);
    want_entry(ENTRY3, image + ENTRY3, name, 3);
    renames(HALL, name, 3, name, 3);
}

/* Every field stays but the name and the change date; the flags too, and the forks with their blocks. */
static void fields(void)
{
    mfs_directory_entry before, after;

    image[ENTRY1] = 0xfe;
    memcpy(image + ENTRY1 + 2, finder, 16);
    keep(HALL);
    before = mfs_find(image, HALL, WEEK1).entry;
    EXPECT(mfs_rename(image, HALL, WEEK1, (const uint8_t *)"Week 1 of 1985", 14, DATE) == MFS_SUCCESS);
    after = mfs_find(image, HALL, (const uint8_t *)"WEEK 1 OF 1985", 14).entry;
    before.changed = DATE;
    before.name_length = 14;
    memcpy(before.name, "Week 1 of 1985", 14);
    EXPECT(same_entry(after, before));
    EXPECT(mfs_block(image, HALL, (const uint8_t *)"Week 1 of 1985", 14, MFS_DATA_FORK, 1).block == 4);
    EXPECT(memcmp(image, want, 2048) == 0 && memcmp(image + 2560, want + 2560, HALL - 2560) == 0);
}

/* WEEK1 gets a longer name: RATES moves up, the entry goes behind it, and what follows is zero. */
static void behind_the_last(void)
{
    uint8_t was[56];

    memset(image + ENTRY3, 0x7f, 400);
    keep(HALL);
    memcpy(was, image + ENTRY1, 56);
    memcpy(want + ENTRY1, image + ENTRY2, 56);
    memset(want + ENTRY2, 0, 512 - 56);
    want_entry(ENTRY2, was, "WEEK30 BAD", 10);
    renames(HALL, WEEK1, (const uint8_t *)"WEEK30 BAD", 10);
    EXPECT(mfs_find(image, HALL, (const uint8_t *)"week30 bad", 10).place == 1);
    /* the last one of its block stays where it is, and gets shorter */
    memset(want + ENTRY2, 0, 512 - 56);
    want_entry(ENTRY2, was, "W", 1);
    renames(HALL, (const uint8_t *)"WEEK30 BAD", 10, (const uint8_t *)"W", 1);
}

/* A file of the middle block gets a shorter name, and the first block has no room: it goes behind the last one of its own. */
static void own_block(void)
{
    three_blocks();
    memmove(want + LONG_ENTRY(1, 2), image + LONG_ENTRY(1, 3), 3 * 82);
    memset(want + LONG_ENTRY(1, 5), 0, 82 + 20);
    want_entry(LONG_ENTRY(1, 5), image + LONG_ENTRY(1, 2), "short", 5);
    renames(LARGE, name_of('I', 31), 31, (const uint8_t *)"short", 5);
}

/* The first block has room by now: an entry of the last one goes there. Both blocks are zero behind their last entries. */
static void other_block(void)
{
    three_blocks();
    EXPECT(mfs_delete(image, LARGE, name_of('B', 31), 31) == MFS_SUCCESS);
    memset(image + LONG_ENTRY(0, 5), 0x7f, 102);
    keep(LARGE);
    memmove(want + LONG_ENTRY(2, 0), image + LONG_ENTRY(2, 1), 5 * 82);
    memset(want + LONG_ENTRY(2, 5), 0, 102);
    memset(want + LONG_ENTRY(0, 5), 0, 102);
    want_entry(LONG_ENTRY(0, 5), image + LONG_ENTRY(2, 0), "moved up", 8);
    renames(LARGE, name_of('m', 31), 31, (const uint8_t *)"moved up", 8);
    EXPECT(mfs_find(image, LARGE, (const uint8_t *)"moved up", 8).place == 5);
    EXPECT(mfs_find(image, LARGE, name_of('N', 31), 31).place == 12);
}

/* Nine names of 5 bytes in the first block and in the second, one in the third. With its own 56 bytes the first has 64: a name
   of 13 stays in it, and one of 14 goes to the third. */
static void later_block(void)
{
    unsigned i, size;

    for (size = 13; size <= 14; size++) {
        put_volume(19, 3);
        for (i = 0; i < 19; i++)
            put_entry(SHORT_ENTRY(i / 9, i % 9), i + 1, (uint8_t)('A' + i), 5);
        memset(image + SHORT_ENTRY(2, 1), 0x7f, 512 - 56);
        keep(LARGE);
        memmove(want + SHORT_ENTRY(0, 3), image + SHORT_ENTRY(0, 4), 5 * 56);
        memset(want + SHORT_ENTRY(0, 8), 0, 512 - 8 * 56);
        if (size == 14)
            memset(want + SHORT_ENTRY(2, 1), 0, 512 - 56);
        want_entry(size == 13 ? SHORT_ENTRY(0, 8) : SHORT_ENTRY(2, 1), image + SHORT_ENTRY(0, 3), letters, size);
        renames(LARGE, name_of('d', 5), 5, letters, size);
    }
}

/* Old names above 31: another case is too long, a new name has room in the file's own block. */
static void old_names(void)
{
    size_t sizes[3] = {32, 254, 255}, i;

    for (i = 0; i < 3; i++) {
        three_blocks();
        put16(image + 1036, 13);
        memset(image + DIRECTORY(0), 0, 512);
        put_entry(DIRECTORY(0), 19, 'n', sizes[i]);
        keep(LARGE);
        refuses_rename(LARGE, letters, sizes[i], capitals, sizes[i], MFS_NAME_TOO_LONG);
        refuses_rename(LARGE, letters, sizes[i], letters, sizes[i], MFS_NAME_TOO_LONG);
        memset(want + DIRECTORY(0), 0, 512);
        want_entry(DIRECTORY(0), image + DIRECTORY(0), name_of('Z', 31), 31);
        renames(LARGE, capitals, sizes[i], name_of('Z', 31), 31);
    }
}

/* ---- the tests: each number that refuses */

/* The first of all that hold: 11, 12 for the old name, 12 and 21 for the new, 13, 15, 14; 18 is in no_room. */
static void order(void)
{
    size_t at;

    three_blocks();
    image[LONG_ENTRY(0, 0)] = 0x81;
    for (at = 1034; at <= 1035; at++) {
        image[at] = 0x80;
        keep(LARGE);
        refuses_rename(LARGE, letters, 0, letters, 0, MFS_VOLUME_LOCKED);
        refuses_rename(LARGE, letters, 256, letters, 32, MFS_VOLUME_LOCKED);
        image[at] = 0;
    }
    keep(LARGE);
    refuses_rename(LARGE, letters, 0, letters, 32, MFS_BAD_NAME);
    refuses_rename(LARGE, letters, 256, letters, 32, MFS_BAD_NAME);
    refuses_rename(LARGE, letters, 5, letters, 0, MFS_BAD_NAME);
    refuses_rename(LARGE, letters, 5, letters, 256, MFS_BAD_NAME);
    refuses_rename(LARGE, letters, 5, letters, 32, MFS_NAME_TOO_LONG);
    refuses_rename(LARGE, letters, 5, letters, 255, MFS_NAME_TOO_LONG);
    refuses_rename(LARGE, letters, 5, name_of('b', 31), 31, MFS_NOT_FOUND);
    refuses_rename(LARGE, name_of('a', 31), 31, name_of('b', 31), 31, MFS_FILE_LOCKED);
    refuses_rename(LARGE, name_of('a', 31), 31, name_of('A', 31), 31, MFS_FILE_LOCKED);
    refuses_rename(LARGE, name_of('c', 31), 31, name_of('b', 31), 31, MFS_NAME_EXISTS);
}

/* Another file's name, in any case and spelling, before it in the directory and behind it, and as long or not. */
static void others_name(void)
{
    static const uint8_t name[3] = {0x83, 't', 0x8e}, other[3] = {0x8e, 'T', 0x83}, near[3] = {0x83, 't', 0x8f};

    refuses_rename(HALL, WEEK1, RATES, MFS_NAME_EXISTS);
    refuses_rename(HALL, WEEK1, (const uint8_t *)"rAtEs", 5, MFS_NAME_EXISTS);
    refuses_rename(HALL, RATES, (const uint8_t *)"week1", 5, MFS_NAME_EXISTS);
    EXPECT(mfs_create(image, HALL, name, 3, finder, 1, 2) == MFS_SUCCESS);
    keep(HALL);
    refuses_rename(HALL, WEEK1, other, 3, MFS_NAME_EXISTS);
    EXPECT(mfs_rename(image, HALL, WEEK1, near, 3, DATE) == MFS_SUCCESS && mfs_check(image, HALL).facts.files == 3);
}

/* HALL's one block is full to its last two bytes: a name of the same size stays, one of two bytes more fills it, a longer one has no room. */
static void no_room(void)
{
    uint8_t name[31];
    uint8_t i;

    memcpy(name, letters, sizeof name);
    for (i = 0; i < 4; i++) {
        name[0] = (uint8_t)('0' + i);
        EXPECT(mfs_create(image, HALL, name, sizeof name, finder, 1, 2) == MFS_SUCCESS);
    }
    EXPECT(mfs_create(image, HALL, letters, 19, finder, 1, 2) == MFS_SUCCESS);
    keep(HALL);
    refuses_rename(HALL, WEEK1, letters, 8, MFS_DIRECTORY_FULL);
    refuses_rename(HALL, WEEK1, letters, 31, MFS_DIRECTORY_FULL);
    refuses_rename(HALL, letters, 19, letters, 22, MFS_DIRECTORY_FULL);
    refuses_rename(HALL, WEEK1, name, sizeof name, MFS_NAME_EXISTS);
    image[ENTRY1] |= 1;
    keep(HALL);
    refuses_rename(HALL, WEEK1, letters, 31, MFS_FILE_LOCKED);
    image[ENTRY1] &= 0xfe;
    keep(HALL);
    want_entry(ENTRY1, image + ENTRY1, "four", 4);
    renames(HALL, WEEK1, (const uint8_t *)"four", 4);
    EXPECT(mfs_rename(image, HALL, (const uint8_t *)"four", 4, letters, 7, DATE) == MFS_SUCCESS);
    EXPECT(mfs_find(image, HALL, letters, 7).place == 6 && image[2559] == 'n');
}

/* A wrapped file is taken for an image of its length. */
static void wrapped_file(void)
{
    refuses_rename(HALL, WEEK1, THIRD, MFS_BAD_LENGTH);
    refuses_rename(HALL, letters, 0, letters, 32, MFS_BAD_LENGTH);
}

static const struct test tests[] = {
    {"rename: an entry that stays, every byte", stays},
    {"rename: the pad byte is zero", pad_byte},
    {"rename: its own name in any case", own_name},
    {"rename: every field but name and date stays", fields},
    {"rename: behind the last entry of the block", behind_the_last},
    {"rename: shorter, in its own block", own_block},
    {"rename: into the first block with room", other_block},
    {"rename: past blocks without room", later_block},
    {"rename: old names above 31", old_names},
    {"rename: the order of 11 to 21", order},
    {"rename: refused by 14", others_name},
    {"rename: refused by 18", no_room},
};

static const struct test on_files[] = {
    {"rename: a wrapped file is refused by 1", wrapped_file},
};

int test_rename(void)
{
    const struct form *const forms[] = {&bare, &wrapped, &tagged};
    int failed;

    memset(capitals, 'N', sizeof capitals);
    failed = run_tests(tests, sizeof tests / sizeof tests[0], forms, 1);
    return run_tests(on_files, 1, forms + 1, 2) || failed;
}
