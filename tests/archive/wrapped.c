/* Wrapped files by their length, header, checksums and tags: which are refused, what is carried, and what mfs_wrap makes. */
#include "support.h"

/* What stands in the header. */
#define NAME_LENGTH 0
#define DATA_SIZE 64
#define TAG_SIZE 68
#define DATA_CHECKSUM 72
#define TAG_CHECKSUM 76
#define ENCODING 80
#define FORMAT 81
#define LAST_WORD 82

/* ---- what is refused, and what is not */

/* With another byte every call refuses the file; the byte is put back. */
static void byte_refused(size_t at, uint8_t byte, uint8_t number)
{
    uint8_t was = lent[at];

    lent[at] = byte;
    each_refuses(HALL, number);
    lent[at] = was;
}

/* With another byte the file is read and changed, and the byte is carried. */
static void byte_carried(size_t at, uint8_t byte)
{
    start();
    lent[at] = byte;
    keep(HALL);
    EXPECT(form->call.check(LENT(HALL)).facts.files == 2 && as_wanted(HALL));
    EXPECT(form->call.write(LENT(HALL), WEEK1, MFS_DATA_FORK, 0, finder, 16, 77) == MFS_SUCCESS);
    memcpy(want + BLOCK(2), finder, 16);
    put32(want + ENTRY1 + 46, 77);
    EXPECT(as_wanted(HALL) && lent[at] == byte);
}

/* Lent with this length and this tag size, the file is refused by 22. */
static void length_refused(size_t length, uint32_t tag_size)
{
    struct form other = *form;
    const struct form *was = form;

    start();
    put32(lent + TAG_SIZE, tag_size);
    other.length = length;
    form = &other;
    each_refuses(HALL, MFS_BAD_CONTAINER);
    form = was;
}

static void lengths(void)
{
    static const size_t wrong[] = {0, 1, 83, 84, 85, 512, 409600, 409683, 409685, 410196, 414484, 419283, 419285, 419796, MOST};
    uint32_t tag_size = (uint32_t)form->length - MFS_WRAPPED_LENGTH;
    size_t i;

    for (i = 0; i < sizeof wrong / sizeof wrong[0]; i++)
        length_refused(wrong[i], tag_size);
    length_refused(form == &wrapped ? MFS_WRAPPED_TAGGED_LENGTH : MFS_WRAPPED_LENGTH, tag_size);
    length_refused(form->length, TAGS - tag_size);
    length_refused(MFS_WRAPPED_LENGTH + 4800, 4800);
    length_refused(MFS_WRAPPED_LENGTH - 2, (uint32_t)-2);
}

/* Every bit of the fields that are fixed. */
static void header_fields(void)
{
    size_t at;
    int bit;

    for (at = DATA_SIZE; at < HEADER; at++) {
        uint8_t number = MFS_BAD_CONTAINER;

        if (at >= DATA_CHECKSUM && at < ENCODING)
            number = at < TAG_CHECKSUM ? MFS_BAD_DATA_CHECKSUM : MFS_BAD_TAG_CHECKSUM;
        for (bit = 0; bit < 8 && at != FORMAT; bit++)
            byte_refused(at, (uint8_t)(lent[at] ^ 1 << bit), number);
    }
    byte_refused(NAME_LENGTH, 64, MFS_BAD_CONTAINER);
    byte_refused(NAME_LENGTH, 255, MFS_BAD_CONTAINER);
}

static void carried(void)
{
    byte_carried(NAME_LENGTH, 0);
    byte_carried(NAME_LENGTH, 63);
    byte_carried(1, 0);
    byte_carried(63, 0xff);
    byte_carried(FORMAT, 0);
    byte_carried(FORMAT, 0x12);
    byte_carried(FORMAT, 0xff);
}

/* A byte of the image, and two words that change places. */
static void data(void)
{
    byte_refused(HEADER, 1, MFS_BAD_DATA_CHECKSUM);
    byte_refused(HEADER + 1024, 0xd3, MFS_BAD_DATA_CHECKSUM);
    byte_refused(HEADER + MFS_IMAGE_400K - 1, 1, MFS_BAD_DATA_CHECKSUM);
    put16(image + 1024, 0);
    put16(image + 1026, 0xd2d7);
    each_refuses(HALL, MFS_BAD_DATA_CHECKSUM);
}

/* The tags' first 12 bytes are not in their checksum. */
static void tags(void)
{
    const size_t at = MFS_WRAPPED_LENGTH;

    byte_carried(at, 0);
    byte_carried(at + 11, 0);
    start();
    byte_refused(at + 12, 0, MFS_BAD_TAG_CHECKSUM);
    byte_refused(at + TAGS - 1, 0, MFS_BAD_TAG_CHECKSUM);
    put32(lent + TAG_CHECKSUM, checksum(lent + at, TAGS));
    each_refuses(HALL, MFS_BAD_TAG_CHECKSUM);
    put32(lent + TAG_CHECKSUM, 0);
    each_refuses(HALL, MFS_BAD_TAG_CHECKSUM);
}

/* Where all is wrong at once, 22 comes first, then 23, then 24, then the image's own number. */
static void order(void)
{
    image[1024] = 0;
    lent[ENCODING] = 1;
    lent[TAG_CHECKSUM] ^= 1;
    each_refuses(HALL, MFS_BAD_CONTAINER);
    lent[ENCODING] = 0;
    each_refuses(HALL, MFS_BAD_DATA_CHECKSUM);
    keep(HALL);
    each_refuses(HALL, MFS_BAD_TAG_CHECKSUM);
    lent[TAG_CHECKSUM] ^= 1;
    each_refuses(HALL, MFS_BAD_SIGNATURE);
}

/* Checksums worked by hand, of data that are zero but for these last words: where one is right, 2 refuses and not 23. */
static void checksums(void)
{
    static const struct {
        uint32_t words, sum;
    } rows[] = {
        {0x00000000, 0x00000000},
        {0x00000001, 0x80000000},
        {0x00010000, 0x40000000},
        {0x00000002, 0x00000001},
        {0x0000ffff, 0x80007fff},
        {0xffffffff, 0x4000bfff},
        {0x00018000, 0x40004000},
        {0x00028001, 0x00004001},
    };
    size_t i;

    memset(image, 0, MFS_IMAGE_400K);
    for (i = 0; i < sizeof rows / sizeof rows[0]; i++) {
        put32(image + MFS_IMAGE_400K - 4, rows[i].words);
        put32(lent + DATA_CHECKSUM, rows[i].sum);
        each_refuses(HALL, MFS_BAD_SIGNATURE);
        put32(lent + DATA_CHECKSUM, rows[i].sum + 1);
        each_refuses(HALL, MFS_BAD_DATA_CHECKSUM);
    }
    /* FFFF8000 hex after 17 words of 1, and the next word makes the sum wrap */
    for (i = 1; i <= 18; i++)
        put16(image + MFS_IMAGE_400K - 2 * i, i == 1 ? 0xffff : 1);
    put32(lent + DATA_CHECKSUM, 0x80003fff);
    each_refuses(HALL, MFS_BAD_SIGNATURE);
}

/* ---- mfs_wrap */

static uint8_t buffer[MFS_WRAPPED_TAGGED_LENGTH];
static uint8_t made[MFS_WRAPPED_TAGGED_LENGTH]; /* what the buffer is to be */

static void lend_buffer(void)
{
    memset(buffer, 0xee, sizeof buffer);
    memset(made, 0xee, sizeof made);
}

static void wraps(const uint8_t *name, size_t size, uint8_t format)
{
    lend_buffer();
    EXPECT(mfs_wrap(image, MFS_IMAGE_400K, name, size, format, buffer, MFS_WRAPPED_LENGTH) == MFS_SUCCESS);
    memset(made, 0, HEADER);
    made[NAME_LENGTH] = (uint8_t)size;
    memcpy(made + 1, name, size);
    put32(made + DATA_SIZE, MFS_IMAGE_400K);
    put32(made + DATA_CHECKSUM, checksum(image, MFS_IMAGE_400K));
    made[FORMAT] = format;
    put16(made + LAST_WORD, 0x0100);
    memcpy(made + HEADER, want, MFS_IMAGE_400K);
    EXPECT(memcmp(buffer, made, sizeof made) == 0 && unchanged(MFS_IMAGE_400K));
    EXPECT(mfs_wrapped_check(buffer, MFS_WRAPPED_LENGTH).facts.files == 2);
}

static void refuses_wrap(size_t length, size_t size, size_t buffer_length, uint8_t number)
{
    lend_buffer();
    EXPECT(mfs_wrap(image, length, letters, size, 2, buffer, buffer_length) == number);
    EXPECT(memcmp(buffer, made, sizeof made) == 0 && unchanged(MFS_IMAGE_400K));
}

/* HALL with zeros behind it, to a 400K disk's length. */
static void start_400k(void)
{
    memset(image + HALL, 0, MOST - HALL);
    memcpy(image, hall, HALL);
    keep(MFS_IMAGE_400K);
}

static void wrap(void)
{
    start_400k();
    wraps(letters, 0, 0);
    wraps(letters, 1, 0x02);
    wraps((const uint8_t *)"D\x8esk\0 1\xff", 8, 0x12);
    wraps(letters, 62, 0x7f);
    wraps(letters, 63, 0xff);
    memset(image + HALL, 0xff, MFS_IMAGE_400K - HALL);
    keep(MFS_IMAGE_400K);
    wraps(letters, 63, 0x22);
}

/* 22 comes before the image's own number. */
static void wrap_lengths(void)
{
    static const size_t images[] = {0, HALL, 409599, 409601, 410112, MFS_WRAPPED_LENGTH, MOST};
    static const size_t buffers[] = {0, HEADER, MFS_IMAGE_400K, 409683, 409685, MFS_WRAPPED_TAGGED_LENGTH};
    size_t i, turn;

    start_400k();
    for (turn = 0; turn < 2; turn++) {
        for (i = 0; i < sizeof images / sizeof images[0]; i++)
            refuses_wrap(images[i], 4, MFS_WRAPPED_LENGTH, MFS_BAD_CONTAINER);
        for (i = 0; i < sizeof buffers / sizeof buffers[0]; i++)
            refuses_wrap(MFS_IMAGE_400K, 4, buffers[i], MFS_BAD_CONTAINER);
        refuses_wrap(MFS_IMAGE_400K, 64, MFS_WRAPPED_LENGTH, MFS_BAD_CONTAINER);
        refuses_wrap(MFS_IMAGE_400K, 255, MFS_WRAPPED_LENGTH, MFS_BAD_CONTAINER);
        refuses_wrap(MFS_IMAGE_400K, 256, MFS_WRAPPED_LENGTH, MFS_BAD_CONTAINER);
        image[1024] = 0;
        keep(MFS_IMAGE_400K);
    }
}

/* An image that is refused is not wrapped. */
static void wrap_refused(void)
{
    static const struct {
        size_t at;
        uint8_t byte, number;
    } rows[] = {
        {1025, 0xd6, MFS_BAD_SIGNATURE},
        {1057, 0, MFS_BAD_LAYOUT},
        {1060, 28, MFS_BAD_VOLUME_NAME},
        {1093, 7, MFS_BAD_MAP_ENTRY},
        {ENTRY1 + 1, 1, MFS_BAD_ENTRY},
        {1037, 3, MFS_BAD_DIRECTORY},
        {ENTRY2 + 23, 4, MFS_BAD_FORK},
        {1093, 1, MFS_BLOCK_OF_NO_FORK},
        {1059, 1, MFS_BAD_FREE_COUNT},
    };
    size_t i;

    for (i = 0; i < sizeof rows / sizeof rows[0]; i++) {
        start_400k();
        image[rows[i].at] = rows[i].byte;
        keep(MFS_IMAGE_400K);
        refuses_wrap(MFS_IMAGE_400K, 4, MFS_WRAPPED_LENGTH, rows[i].number);
    }
}

/* A locked volume is wrapped as any other. */
static void wrap_locked(void)
{
    start_400k();
    image[1034] = 0x80;
    keep(MFS_IMAGE_400K);
    wraps(letters, 5, 0x02);
}

static const struct test on_files[] = {
    {"wrapped: lengths refused by 22", lengths},
    {"wrapped: every bit of the header's fixed fields, by 22, 23 and 24", header_fields},
    {"wrapped: bytes of the header that are carried", carried},
    {"wrapped: data refused by 23", data},
    {"wrapped: 22, 23, 24 and then the image's number", order},
    {"wrapped: checksums worked by hand", checksums},
};

static const struct test on_tags[] = {
    {"wrapped: tags refused by 24, or carried", tags},
};

static const struct test on_images[] = {
    {"wrap: every byte of the buffer", wrap},
    {"wrap: lengths refused by 22", wrap_lengths},
    {"wrap: an image refused by 2 to 10", wrap_refused},
    {"wrap: a locked volume", wrap_locked},
};

int test_wrapped(void)
{
    const struct form *const forms[] = {&wrapped, &tagged, &bare};
    int failed = run_tests(on_files, sizeof on_files / sizeof on_files[0], forms, 2);

    failed |= run_tests(on_tags, 1, forms + 1, 1);
    return run_tests(on_images, sizeof on_images / sizeof on_images[0], forms + 2, 1) || failed;
}
