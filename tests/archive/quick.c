/*
 * mfs_quick_find on known answers: places and counts of directory blocks, what is read of a damaged directory, that nothing else
 * of the image counts, and each number that it can give, in order.
 */
#include "support.h"

#define LARGE MFS_IMAGE_400K

/* ---- answers */

/* The name is found: its place, the entry that begins here, by its file number and its name, and the count. */
static void finds(size_t length, const uint8_t *name, size_t size, uint64_t place, size_t at, unsigned looked)
{
    mfs_quick_find_answer r = mfs_quick_find(LENT(length), name, size);
    uint8_t number[4];

    EXPECT(r.number == MFS_SUCCESS && r.place == place && r.looked == looked && unchanged(length));
    put32(number, r.entry.number);
    EXPECT(memcmp(number, image + at + 18, 4) == 0);
    EXPECT(r.entry.name_length == size && memcmp(r.entry.name, image + at + 51, size) == 0);
}

/* The name of a letter is found among files of short names. */
static void finds_short(uint8_t letter, uint64_t place, unsigned block, unsigned n)
{
    finds(LARGE, name_of(letter, 5), 5, place, SHORT_ENTRY(block, n), block + 1);
}

/* Three directory blocks with nine names of 5 bytes each: A to I, J to R, S to [. */
static void three_blocks(void)
{
    unsigned i;

    put_volume(27, 3);
    for (i = 0; i < 27; i++)
        put_entry(SHORT_ENTRY(i / 9, i % 9), i + 1, (uint8_t)('A' + i), 5);
    keep(LARGE);
    EXPECT(mfs_check(image, LARGE).number == MFS_SUCCESS);
}

/* ---- the tests: what is found */

/* The very answers of mfs_find, in any case, and a count of 1. */
static void of_hall(void)
{
    static const char *const names[] = {"WEEK1", "week1", "RATES", "rAtEs"};
    size_t i;

    for (i = 0; i < 4; i++) {
        const uint8_t *name = (const uint8_t *)names[i];
        mfs_find_answer f = mfs_find(image, HALL, name, 5);
        mfs_quick_find_answer r = mfs_quick_find(image, HALL, name, 5);

        EXPECT(r.number == MFS_SUCCESS && f.number == MFS_SUCCESS && r.looked == 1 && unchanged(HALL));
        EXPECT(r.place == i / 2 && f.place == i / 2 && same_entry(r.entry, f.entry));
    }
}

/* Every byte of an entry is another number. */
static void every_field(void)
{
    mfs_quick_find_answer r;
    mfs_directory_entry e;
    unsigned i;

    for (i = 2; i < 50; i++)
        image[ENTRY1 + i] = (uint8_t)(0x80 + i);
    image[ENTRY1] = 0xc3;
    keep(HALL);
    r = mfs_quick_find(image, HALL, WEEK1);
    e = r.entry;
    EXPECT(r.number == MFS_SUCCESS && r.place == 0 && r.looked == 1 && unchanged(HALL));
    EXPECT(e.flags == 0xc3 && e.version == 0 && memcmp(e.finder, image + ENTRY1 + 2, 16) == 0 && e.number == 0x92939495);
    EXPECT(e.data.start == 0x9697 && e.data.logical == 0x98999a9b && e.data.physical == 0x9c9d9e9f);
    EXPECT(e.resource.start == 0xa0a1 && e.resource.logical == 0xa2a3a4a5 && e.resource.physical == 0xa6a7a8a9);
    EXPECT(e.created == 0xaaabacad && e.changed == 0xaeafb0b1 && e.name_length == 5 && memcmp(e.name, "WEEK1\0", 6) == 0);
}

static void places_and_counts(void)
{
    unsigned i;

    three_blocks();
    for (i = 0; i < 27; i++)
        finds_short((uint8_t)('A' + i), i, i / 9, i % 9);
    refuses_quick_find(LARGE, name_of('@', 5), 5, MFS_NOT_FOUND, 3);
    refuses_quick_find(LARGE, name_of('A', 4), 4, MFS_NOT_FOUND, 3);
    refuses_quick_find(LARGE, name_of('A', 6), 6, MFS_NOT_FOUND, 3);
}

/* The longest directory: counts above what a byte holds. Only its first, 255th and last block have a file. */
static void of_256_blocks(void)
{
    put_volume(3, 256);
    put_entry(DIRECTORY(0), 1, 'A', 5);
    put_entry(DIRECTORY(254), 2, 'B', 5);
    put_entry(DIRECTORY(255), 3, 'C', 5);
    keep(LARGE);
    EXPECT(mfs_check(image, LARGE).number == MFS_SUCCESS);
    finds_short('a', 0, 0, 0);
    finds_short('b', 1, 254, 0);
    finds_short('c', 2, 255, 0);
    refuses_quick_find(LARGE, name_of('d', 5), 5, MFS_NOT_FOUND, 256);
}

/* Names of 1 and of 255 bytes, one that differs in its last byte, and accents in both spellings. */
static void names(void)
{
    static const uint8_t name[3] = {0x83, 't', 0x8e}, other[3] = {0x8e, 'T', 0x83}, near[3] = {0x83, 't', 0x8f};
    uint8_t last[255];

    put_volume(3, 1);
    put_entry(DIRECTORY(0), 1, 'N', 255);
    put_entry(DIRECTORY(0) + 306, 2, 'x', 1);
    put_entry(DIRECTORY(0) + 306 + 52, 3, 'x', 3);
    memcpy(image + DIRECTORY(0) + 306 + 52 + 51, name, 3);
    keep(LARGE);
    memcpy(last, letters, 255);
    last[254] = 'm';
    finds(LARGE, letters, 255, 0, DIRECTORY(0), 1);
    finds(LARGE, (const uint8_t *)"X", 1, 1, DIRECTORY(0) + 306, 1);
    finds(LARGE, name, 3, 2, DIRECTORY(0) + 306 + 52, 1);
    finds(LARGE, other, 3, 2, DIRECTORY(0) + 306 + 52, 1);
    refuses_quick_find(LARGE, near, 3, MFS_NOT_FOUND, 1);
    refuses_quick_find(LARGE, last, 255, MFS_NOT_FOUND, 1);
    refuses_quick_find(LARGE, letters, 254, MFS_NOT_FOUND, 1);
}

/* ---- the tests: damaged volumes */

/* The middle block's fifth entry has another version, no name, or one that crosses the block: neither it nor what is behind it is
   read there, and the last block is read on. Places count the entries read. */
static void bad_entries(void)
{
    static const unsigned damage[4][2] = {{1, 1}, {1, 0xff}, {50, 0}, {50, 255}};
    unsigned i, n;

    for (i = 0; i < 4; i++) {
        three_blocks();
        image[SHORT_ENTRY(1, 4) + damage[i][0]] = (uint8_t)damage[i][1];
        keep(LARGE);
        EXPECT(mfs_check(image, LARGE).number == MFS_BAD_ENTRY);
        for (n = 0; n < 27; n++) {
            uint8_t letter = (uint8_t)('A' + n);

            if (n < 13)
                finds_short(letter, n, n / 9, n % 9);
            else if (n < 18)
                refuses_quick_find(LARGE, name_of(letter, 5), 5, MFS_NOT_FOUND, 3);
            else
                finds_short(letter, n - 5, 2, n % 9);
        }
    }
}

/* The last 2 bytes of a block begin an entry, or the last 50, or the last 52 with a name of 2: each crosses the block. With a name
   of 1 the last does not. */
static void crossing(void)
{
    static const unsigned left[3] = {2, 50, 52};
    unsigned i;

    for (i = 0; i < 3; i++) {
        put_volume(3, 2);
        put_entry(DIRECTORY(0), 1, 'A', 512 - 306 - left[i] - 51);
        put_entry(DIRECTORY(0) + 512 - 306 - left[i], 2, 'B', 255);
        image[DIRECTORY(1) - left[i]] = 0x80;
        if (left[i] == 52)
            image[DIRECTORY(1) - 2] = 2;
        put_entry(DIRECTORY(1), 3, 'C', 5);
        keep(LARGE);
        EXPECT(mfs_check(image, LARGE).number == MFS_BAD_ENTRY);
        finds(LARGE, name_of('b', 255), 255, 1, DIRECTORY(0) + 512 - 306 - left[i], 1);
        finds_short('c', 2, 1, 0);
        refuses_quick_find(LARGE, name_of('d', 5), 5, MFS_NOT_FOUND, 2);
    }
    image[DIRECTORY(1) - 2] = 1;
    image[DIRECTORY(1) - 1] = 'Z';
    keep(LARGE);
    finds(LARGE, (const uint8_t *)"z", 1, 2, DIRECTORY(1) - 52, 1);
    finds_short('c', 3, 1, 0);
}

/* An entry whose bit 7 is clear ends a block's reading, whatever else it holds and whatever is behind it. */
static void ends(void)
{
    three_blocks();
    image[SHORT_ENTRY(0, 3)] = 0x7f;
    image[SHORT_ENTRY(1, 0)] = 0;
    keep(LARGE);
    finds_short('c', 2, 0, 2);
    refuses_quick_find(LARGE, name_of('d', 5), 5, MFS_NOT_FOUND, 3);
    refuses_quick_find(LARGE, name_of('e', 5), 5, MFS_NOT_FOUND, 3);
    refuses_quick_find(LARGE, name_of('k', 5), 5, MFS_NOT_FOUND, 3);
    finds_short('s', 3, 2, 0);
}

/* The first equal name that is read: not that of a bad entry, nor one behind it. */
static void equal_names(void)
{
    three_blocks();
    image[SHORT_ENTRY(0, 5) + 51] = 'b';
    image[SHORT_ENTRY(1, 3) + 51] = 'B';
    image[SHORT_ENTRY(2, 8) + 51] = 'B';
    keep(LARGE);
    EXPECT(mfs_check(image, LARGE).number == MFS_BAD_DIRECTORY);
    finds_short('B', 1, 0, 1);
    image[SHORT_ENTRY(0, 1) + 1] = 1;
    keep(LARGE);
    finds_short('B', 4, 1, 3);
    image[SHORT_ENTRY(1, 2) + 50] = 0;
    keep(LARGE);
    finds_short('B', 11, 2, 8);
    image[SHORT_ENTRY(2, 8) + 50] = 255;
    keep(LARGE);
    refuses_quick_find(LARGE, name_of('B', 5), 5, MFS_NOT_FOUND, 3);
}

/* Volumes that 5 to 10 refuse are answered: the map, another entry, the number of files, a fork, a block of no fork, the free
   count. */
static void refused_by_check(void)
{
    static const unsigned damage[6][3] = {
        {1088, 0xff, MFS_BAD_MAP_ENTRY}, {ENTRY2 + 1, 1, MFS_BAD_ENTRY},    {1037, 9, MFS_BAD_DIRECTORY},
        {ENTRY1 + 23, 5, MFS_BAD_FORK},  {1093, 1, MFS_BLOCK_OF_NO_FORK}, {1059, 3, MFS_BAD_FREE_COUNT},
    };
    unsigned i;

    for (i = 0; i < 6; i++) {
        start();
        image[damage[i][0]] = (uint8_t)damage[i][1];
        keep(HALL);
        refuses_find(HALL, WEEK1, (uint8_t)damage[i][2]);
        finds(HALL, WEEK1, 0, ENTRY1, 1);
        refuses_quick_find(HALL, THIRD, MFS_NOT_FOUND, 1);
    }
}

/* All bytes are others but the volume information and the directory blocks looked at. */
static void reads_nothing_else(void)
{
    unsigned looked;
    size_t at;

    for (looked = 0; looked <= 3; looked++) {
        three_blocks();
        for (at = 0; at < LARGE; at++)
            if ((at < 1024 || at >= 1088) && (at < DIRECTORY(0) || at >= DIRECTORY(looked)))
                image[at] = (uint8_t)~image[at];
        keep(LARGE);
        if (looked == 0)
            refuses_quick_find(LARGE, letters, 0, MFS_BAD_NAME, 0);
        else
            finds_short((uint8_t)('A' + 9 * looked - 1), 9 * looked - 1, looked - 1, 8);
        if (looked == 3)
            refuses_quick_find(LARGE, name_of('@', 5), 5, MFS_NOT_FOUND, 3);
    }
}

/* ---- the tests: each number that refuses */

/* The first of all that hold: 1, 2, 3, 4, 12, 13. A locked volume and a locked file are found. */
static void order(void)
{
    static const unsigned damage[3][3] = {
        {1060, 28, MFS_BAD_VOLUME_NAME}, {1041, 0, MFS_BAD_LAYOUT}, {1024, 0, MFS_BAD_SIGNATURE}};
    unsigned i;

    image[1034] = 0x80;
    image[ENTRY1] = 0x81;
    keep(HALL);
    finds(HALL, WEEK1, 0, ENTRY1, 1);
    refuses_quick_find(HALL, letters, 255, MFS_NOT_FOUND, 1);
    refuses_quick_find(HALL, letters, 0, MFS_BAD_NAME, 0);
    refuses_quick_find(HALL, letters, 256, MFS_BAD_NAME, 0);
    for (i = 0; i < 3; i++) {
        image[damage[i][0]] = (uint8_t)damage[i][1];
        keep(HALL);
        refuses_quick_find(HALL, WEEK1, (uint8_t)damage[i][2], 0);
        refuses_quick_find(HALL, THIRD, (uint8_t)damage[i][2], 0);
        refuses_quick_find(HALL, letters, 256, (uint8_t)damage[i][2], 0);
    }
    refuses_quick_find(HALL - 1, letters, 0, MFS_BAD_LENGTH, 0);
    refuses_quick_find(0, WEEK1, MFS_BAD_LENGTH, 0);
    refuses_quick_find(7 * 512, WEEK1, MFS_BAD_LENGTH, 0);
    refuses_quick_find(MOST, WEEK1, MFS_BAD_LENGTH, 0);
}

/* A wrapped file is taken for an image of its length. */
static void wrapped_file(void)
{
    refuses_quick_find(HALL, WEEK1, MFS_BAD_LENGTH, 0);
    refuses_quick_find(HALL, letters, 0, MFS_BAD_LENGTH, 0);
}

static const struct test tests[] = {
    {"quick find: the files of HALL, as find", of_hall},
    {"quick find: every field of an entry", every_field},
    {"quick find: places, and blocks looked at", places_and_counts},
    {"quick find: a directory of 256 blocks", of_256_blocks},
    {"quick find: names of 1 to 255 bytes, accents", names},
    {"quick find: a block is read up to a bad entry", bad_entries},
    {"quick find: entries that cross their block", crossing},
    {"quick find: bit 7 clear ends a block", ends},
    {"quick find: the first of equal names", equal_names},
    {"quick find: volumes that check refuses", refused_by_check},
    {"quick find: nothing else is read", reads_nothing_else},
    {"quick find: the order of 1 to 13", order},
};

static const struct test on_files[] = {
    {"quick find: a wrapped file is refused by 1", wrapped_file},
};

int test_quick(void)
{
    const struct form *const forms[] = {&bare, &wrapped, &tagged};
    int failed = run_tests(tests, sizeof tests / sizeof tests[0], forms, 1);

    return run_tests(on_files, 1, forms + 1, 2) || failed;
}
