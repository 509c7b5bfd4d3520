/*
 * What the tests of the archive share. The same calls are made on an image by itself and on wrapped files, without tags and with
 * them: a form says how the image is lent.
 */
#ifndef SUPPORT_H
#define SUPPORT_H

#include <stdio.h>
#include <string.h>

#include "mfs.h"

#define HALL 6144
#define MOST (65536 * 512)
#define HEADER 84
#define TAGS 9600

#define ENTRY1 2048          /* of WEEK1 */
#define ENTRY2 (2048 + 56)   /* of RATES */
#define ENTRY3 (2048 + 112)  /* the next to come */
#define BLOCK(b) (2560 + ((b) - 2) * 512)

/* The start of a directory block, and of its n-th entry where all have names of 5 bytes. */
#define DIRECTORY(block) (2048 + 512 * (block))
#define SHORT_ENTRY(block, n) (DIRECTORY(block) + 56 * (n))

#define WEEK1 (const uint8_t *)"WEEK1", 5
#define RATES (const uint8_t *)"RATES", 5
#define THIRD (const uint8_t *)"THIRD", 5

#define EXPECT(condition)                                                                               \
    do {                                                                                                \
        if (!(condition)) {                                                                             \
            printf("    %s line %d, %s: not so: %s\n", __FILE__, __LINE__, form->name, #condition);     \
            good = 0;                                                                                   \
        }                                                                                               \
    } while (0)

/* The calls on an image, or on a wrapped file. */
struct calls {
    mfs_check_answer (*check)(const uint8_t *, size_t);
    mfs_entry_answer (*entry)(const uint8_t *, size_t, uint64_t);
    mfs_find_answer (*find)(const uint8_t *, size_t, const uint8_t *, size_t);
    mfs_block_answer (*block)(const uint8_t *, size_t, const uint8_t *, size_t, uint8_t, uint64_t);
    mfs_read_answer (*read)(const uint8_t *, size_t, const uint8_t *, size_t, uint8_t, uint64_t, uint8_t *, size_t);
    uint8_t (*create)(uint8_t *, size_t, const uint8_t *, size_t, const uint8_t *, uint32_t, uint32_t);
    uint8_t (*write)(uint8_t *, size_t, const uint8_t *, size_t, uint8_t, uint64_t, const uint8_t *, size_t, uint32_t);
    uint8_t (*cut)(uint8_t *, size_t, const uint8_t *, size_t, uint8_t, uint64_t, uint32_t);
    uint8_t (*delete)(uint8_t *, size_t, const uint8_t *, size_t);
};

/* How an image is lent. */
struct form {
    const char *name;
    struct calls call;
    size_t before; /* bytes before the image: the header's */
    size_t length; /* of a wrapped file */
};

struct test {
    const char *name;
    void (*run)(void);
};

extern const struct form bare, wrapped, tagged;

extern uint8_t hall[HALL];         /* the disk, as it came */
extern uint8_t lent[];             /* what calls are made on: an image, or a wrapped file */
extern uint8_t *image, *want;      /* the image in it, and what it is to be after them */
extern const struct form *form;    /* how it is lent */
extern const uint8_t finder[16];
extern uint8_t letters[256];       /* a name of any length: the letter n */
extern int good;                   /* whether the test has found nothing wrong */

/* A call's first two arguments, for an image of this length. Wrapped, every image is that of a 400K disk. */
#define LENT(length) lent, lent_length(length)

size_t lent_length(size_t length);

void put16(uint8_t *at, unsigned n);
void put32(uint8_t *at, uint32_t n);

/* HALL, which has zeros behind it where it is wrapped. */
void start(void);

/* A name of this size that begins with this letter, in one of two places so that two may be had at once. */
const uint8_t *name_of(uint8_t letter, size_t size);

/* An 800-block volume for so many files in so many directory blocks; they are still to come. No file can be created any more. */
void put_volume(unsigned files, unsigned directory_blocks);

/* An entry without forks at this place of the image, of such a name. */
void put_entry(size_t at, uint32_t number, uint8_t letter, size_t size);

/* What is lent is wanted as it is now, but for a data checksum, which is made right. */
void keep(size_t length);

/* Whether what is lent is as it was kept, or as it was wanted when this was last asked. */
int unchanged(size_t length);

/* Whether the image is as wanted, and of a wrapped file all else is as it was kept, but for the data checksum, which is right. */
int as_wanted(size_t length);

/* The wanted map begins with these six bytes, and the wanted free count is this. */
void want_map(const char *bytes, unsigned free_blocks);

/* The wanted lengths and change date of WEEK1's data fork. */
void want_week1(uint32_t logical, uint32_t physical, uint32_t changed);

/* The checksum of a run of 16-bit words. */
uint32_t checksum(const uint8_t *at, size_t length);

/* Answers field by field: what stands between the fields is nothing. */
int same_facts(mfs_facts a, mfs_facts b);
int same_entry(mfs_directory_entry a, mfs_directory_entry b);

/* Refusals: the number, all other results zero, and neither what is lent nor the buffer changed. */
void refuses_entry(size_t length, uint64_t place, uint8_t number);
void refuses_find(size_t length, const uint8_t *name, size_t size, uint8_t number);
void refuses_block(size_t length, const uint8_t *name, size_t size, uint64_t place, uint8_t number);
void refuses_read(size_t length, const uint8_t *name, size_t size, uint64_t offset, uint8_t number);
void refuses_create(size_t length, const uint8_t *name, size_t size, uint8_t number);
void refuses_write(size_t length, const uint8_t *name, size_t size, uint64_t offset, uint8_t number);
void refuses_cut(size_t length, const uint8_t *name, size_t size, uint64_t to, uint8_t number);
void refuses_delete(size_t length, const uint8_t *name, size_t size, uint8_t number);

/* The same of mfs_rename, which takes what is lent for an image, wrapped or not. */
void refuses_rename(size_t length, const uint8_t *name, size_t size, const uint8_t *new_name, size_t new_size, uint8_t number);

/* The same of mfs_quick_find, which gives this count of directory blocks looked at. */
void refuses_quick_find(size_t length, const uint8_t *name, size_t size, uint8_t number, unsigned looked);

/* Every call refuses what is lent as it is: mfs_rename where that is no wrapped file, mfs_quick_find then and by 1 to 4. */
void each_refuses(size_t length, uint8_t number);

/* Runs each test in these forms, and prints a line for it. Gives 1 where one fails. */
int run_tests(const struct test *tests, size_t count, const struct form *const *forms, size_t form_count);

/* The tests of clumps.c, of rename.c, of quick.c and of wrapped.c. */
int test_clumps(void);
int test_rename(void);
int test_quick(void);
int test_wrapped(void);

#endif
