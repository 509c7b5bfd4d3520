/* The forms in which an image is lent, what a call has left of it, and refusals by every call. */
#include "support.h"

const struct form bare = {
    "bare",
    {mfs_check, mfs_entry, mfs_find, mfs_block, mfs_read, mfs_create, mfs_write, mfs_cut, mfs_delete},
    0,
    0};

#define WRAPPED_CALLS                                                                                                        \
    {                                                                                                                        \
        mfs_wrapped_check, mfs_wrapped_entry, mfs_wrapped_find, mfs_wrapped_block, mfs_wrapped_read, mfs_wrapped_create,     \
            mfs_wrapped_write, mfs_wrapped_cut, mfs_wrapped_delete                                                           \
    }

const struct form wrapped = {"wrapped", WRAPPED_CALLS, HEADER, MFS_WRAPPED_LENGTH};
const struct form tagged = {"wrapped with tags", WRAPPED_CALLS, HEADER, MFS_WRAPPED_TAGGED_LENGTH};

uint8_t hall[HALL];
uint8_t lent[MOST];
uint8_t *image, *want;
const struct form *form;
const uint8_t finder[16] = {'T', 'E', 'X', 'T', 'M', 'A', 'C', 'A', 1, 2, 3, 4, 5, 6, 7, 8};
uint8_t letters[256];
int good;

static uint8_t wanted[MOST]; /* what is lent, as it is to be */

/* ---- what is lent */

static int is_wrapped(void)
{
    return form->before != 0;
}

size_t lent_length(size_t length)
{
    return is_wrapped() ? form->length : length;
}

void put16(uint8_t *at, unsigned n)
{
    at[0] = (uint8_t)(n >> 8);
    at[1] = (uint8_t)n;
}

void put32(uint8_t *at, uint32_t n)
{
    put16(at, n >> 16);
    put16(at + 2, n & 0xffff);
}

uint32_t checksum(const uint8_t *at, size_t length)
{
    uint32_t sum = 0;
    size_t i;

    for (i = 0; i < length; i += 2) {
        sum += (uint32_t)(at[i] << 8 | at[i + 1]);
        sum = (sum & 1) << 31 | sum >> 1;
    }
    return sum;
}

/* Makes the data checksum right that stands before an image. */
static void renew(uint8_t *at)
{
    if (is_wrapped())
        put32(at - HEADER + 72, checksum(at, MFS_IMAGE_400K));
}

/* A header and tags in which every byte that is carried is above 0. */
static void put_container(void)
{
    uint8_t *tags = image + MFS_IMAGE_400K;
    size_t i, size = form->length - MFS_WRAPPED_LENGTH;

    memcpy(lent, "\x07Water 1 is the name, and this is the rest of its field, carried.", 64);
    put32(lent + 64, MFS_IMAGE_400K);
    put32(lent + 68, (uint32_t)size);
    for (i = 0; i < size; i++)
        tags[i] = (uint8_t)(i * 5 % 251 + 1);
    put32(lent + 76, size == 0 ? 0 : checksum(tags + 12, size - 12));
    put32(lent + 80, 0x005a0100);
}

void start(void)
{
    image = lent + form->before;
    want = wanted + form->before;
    if (is_wrapped()) {
        put_container();
        memset(image, 0, MFS_IMAGE_400K);
    }
    memcpy(image, hall, HALL);
    keep(HALL);
}

const uint8_t *name_of(uint8_t letter, size_t size)
{
    static uint8_t names[2][256];
    static int turn;

    turn = !turn;
    memcpy(names[turn], letters, size);
    names[turn][0] = letter;
    return names[turn];
}

void put_volume(unsigned files, unsigned directory_blocks)
{
    unsigned from = directory_blocks > 12 ? 4 + directory_blocks : 16, blocks = (800 - 2 - from) / 2;

    memset(image, 0, MFS_IMAGE_400K);
    put16(image + 1024, 0xd2d7);
    put16(image + 1036, files);
    put16(image + 1038, 4);
    put16(image + 1040, directory_blocks);
    put16(image + 1042, blocks);
    put32(image + 1044, 1024);
    put16(image + 1052, from);
    put32(image + 1054, 4294967295u);
    put16(image + 1058, blocks);
}

void put_entry(size_t at, uint32_t number, uint8_t letter, size_t size)
{
    image[at] = 0xfe;
    memcpy(image + at + 2, finder, 16);
    put32(image + at + 18, number);
    put32(image + at + 42, 0x11223344);
    put32(image + at + 46, 0x55667788);
    image[at + 50] = (uint8_t)size;
    memcpy(image + at + 51, name_of(letter, size), size);
}

void keep(size_t length)
{
    renew(image);
    memcpy(wanted, lent, lent_length(length));
}

int unchanged(size_t length)
{
    return memcmp(lent, wanted, lent_length(length)) == 0;
}

int as_wanted(size_t length)
{
    renew(want);
    return unchanged(length);
}

void want_map(const char *bytes, unsigned free_blocks)
{
    memcpy(want + 1088, bytes, 6);
    put16(want + 1058, free_blocks);
}

void want_week1(uint32_t logical, uint32_t physical, uint32_t changed)
{
    put32(want + ENTRY1 + 24, logical);
    put32(want + ENTRY1 + 28, physical);
    put32(want + ENTRY1 + 46, changed);
}

/* ---- answers */

int same_facts(mfs_facts a, mfs_facts b)
{
    return a.signature == b.signature && a.created == b.created && a.backup == b.backup && a.attributes == b.attributes
        && a.files == b.files && a.directory_start == b.directory_start && a.directory_length == b.directory_length
        && a.allocation_blocks == b.allocation_blocks && a.block_size == b.block_size && a.clump_size == b.clump_size
        && a.allocation_start == b.allocation_start && a.next_number == b.next_number && a.free_blocks == b.free_blocks
        && a.name_length == b.name_length && memcmp(a.name, b.name, 27) == 0;
}

static int same_fork(mfs_fork_facts a, mfs_fork_facts b)
{
    return a.start == b.start && a.logical == b.logical && a.physical == b.physical;
}

int same_entry(mfs_directory_entry a, mfs_directory_entry b)
{
    return a.flags == b.flags && a.version == b.version && memcmp(a.finder, b.finder, 16) == 0 && a.number == b.number
        && same_fork(a.data, b.data) && same_fork(a.resource, b.resource) && a.created == b.created && a.changed == b.changed
        && a.name_length == b.name_length && memcmp(a.name, b.name, 255) == 0;
}

/* ---- refusals */

static const mfs_facts no_facts;
static const mfs_directory_entry no_entry;

static void refuses_check(size_t length, uint8_t number)
{
    mfs_check_answer r = form->call.check(LENT(length));

    EXPECT(r.number == number && same_facts(r.facts, no_facts) && unchanged(length));
}

void refuses_entry(size_t length, uint64_t place, uint8_t number)
{
    mfs_entry_answer r = form->call.entry(LENT(length), place);

    EXPECT(r.number == number && same_entry(r.entry, no_entry) && unchanged(length));
}

void refuses_find(size_t length, const uint8_t *name, size_t size, uint8_t number)
{
    mfs_find_answer r = form->call.find(LENT(length), name, size);

    EXPECT(r.number == number && r.place == 0 && same_entry(r.entry, no_entry) && unchanged(length));
}

void refuses_block(size_t length, const uint8_t *name, size_t size, uint64_t place, uint8_t number)
{
    mfs_block_answer r = form->call.block(LENT(length), name, size, MFS_DATA_FORK, place);

    EXPECT(r.number == number && r.block == 0 && unchanged(length));
}

void refuses_read(size_t length, const uint8_t *name, size_t size, uint64_t offset, uint8_t number)
{
    uint8_t buffer[8] = "as lent";
    mfs_read_answer r = form->call.read(LENT(length), name, size, MFS_DATA_FORK, offset, buffer, 8);

    EXPECT(r.number == number && r.count == 0 && memcmp(buffer, "as lent", 8) == 0 && unchanged(length));
}

void refuses_create(size_t length, const uint8_t *name, size_t size, uint8_t number)
{
    EXPECT(form->call.create(LENT(length), name, size, finder, 1, 2) == number && unchanged(length));
}

void refuses_write(size_t length, const uint8_t *name, size_t size, uint64_t offset, uint8_t number)
{
    EXPECT(form->call.write(LENT(length), name, size, MFS_DATA_FORK, offset, finder, 16, 3) == number && unchanged(length));
}

void refuses_cut(size_t length, const uint8_t *name, size_t size, uint64_t to, uint8_t number)
{
    EXPECT(form->call.cut(LENT(length), name, size, MFS_DATA_FORK, to, 4) == number && unchanged(length));
}

void refuses_delete(size_t length, const uint8_t *name, size_t size, uint8_t number)
{
    EXPECT(form->call.delete(LENT(length), name, size) == number && unchanged(length));
}

void refuses_rename(size_t length, const uint8_t *name, size_t size, const uint8_t *new_name, size_t new_size, uint8_t number)
{
    EXPECT(mfs_rename(LENT(length), name, size, new_name, new_size, 5) == number && unchanged(length));
}

void refuses_quick_find(size_t length, const uint8_t *name, size_t size, uint8_t number, unsigned looked)
{
    mfs_quick_find_answer r = mfs_quick_find(LENT(length), name, size);

    EXPECT(r.number == number && r.place == 0 && same_entry(r.entry, no_entry) && r.looked == looked && unchanged(length));
}

void each_refuses(size_t length, uint8_t number)
{
    memcpy(wanted, lent, lent_length(length));
    refuses_check(length, number);
    refuses_entry(length, 0, number);
    refuses_find(length, WEEK1, number);
    refuses_block(length, WEEK1, 0, number);
    refuses_read(length, WEEK1, 0, number);
    refuses_create(length, THIRD, number);
    refuses_create(length, letters, 32, number);
    refuses_write(length, WEEK1, 0, number);
    refuses_cut(length, WEEK1, 0, number);
    refuses_delete(length, WEEK1, number);
    if (!is_wrapped()) {
        refuses_rename(length, WEEK1, THIRD, number);
        refuses_rename(length, letters, 0, letters, 32, number);
    }
    if (!is_wrapped() && number <= MFS_BAD_VOLUME_NAME) {
        refuses_quick_find(length, WEEK1, number, 0);
        refuses_quick_find(length, letters, 0, number, 0);
    }
}

/* ---- running */

int run_tests(const struct test *tests, size_t count, const struct form *const *forms, size_t form_count)
{
    int failed = 0;
    size_t i, f;

    for (i = 0; i < count; i++) {
        good = 1;
        for (f = 0; f < form_count; f++) {
            form = forms[f];
            start();
            tests[i].run();
        }
        printf("%s %s\n", good ? "ok" : "FAILED", tests[i].name);
        failed |= !good;
    }
    return failed;
}
