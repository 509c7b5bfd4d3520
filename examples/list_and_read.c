/*
 * Lists an MFS disk, or writes the data fork of one of its files to standard output:
 *
 *     list_and_read IMAGE
 *     list_and_read IMAGE NAME
 *
 * To build it, at the root of the repository:
 *
 *     tools/build_archive
 *     cc -std=c99 -Wall -Wextra -Werror -Iinclude examples/list_and_read.c target/staticlib/libarchive.a -o list_and_read
 *
 * Exit status: 0 done; 1 refused by a call; 2 the command could not be carried out.
 */
#include <errno.h>
#include <stdio.h>
#include <string.h>

#include "mfs.h"

/* The largest disk, and a byte more: a longer file is refused by its length. */
static uint8_t image[65535 * 512 + 1];

static int fail(const char *what, const char *why)
{
    fprintf(stderr, "list_and_read: %s: %s\n", what, why);
    return 2;
}

/* The numbers that a read from the start of a file can give: 1 to 10 from the check, 12 and 13. */
static int refused(const char *name, uint8_t number)
{
    const char *why = "the image does not pass the check";

    if (number == MFS_BAD_NAME)
        why = "a name has 1 to 255 bytes";
    if (number == MFS_NOT_FOUND)
        why = "no such file on the disk";
    fprintf(stderr, "list_and_read: %s: refused %u: %s\n", name, (unsigned)number, why);
    return 1;
}

/* A byte that is no printable character of ASCII prints as a question mark. */
static void print_name(const uint8_t *name, size_t length)
{
    size_t i;

    for (i = 0; i < length; i++)
        putchar(name[i] >= 0x20 && name[i] <= 0x7e ? name[i] : '?');
}

/* Document 01's listing: a line for the volume, then file number, fork lengths, dates and name of each file. */
static int list(size_t length)
{
    mfs_check_answer checked = mfs_check(image, length);
    uint64_t place;

    if (checked.number != MFS_SUCCESS) {
        printf("refused %u\n", (unsigned)checked.number);
        return 1;
    }
    printf("volume ");
    print_name(checked.facts.name, checked.facts.name_length);
    printf(" files %u free %u of %u\n", (unsigned)checked.facts.files, (unsigned)checked.facts.free_blocks,
           (unsigned)checked.facts.allocation_blocks);
    for (place = 0; place < checked.facts.files; place++) {
        mfs_directory_entry entry = mfs_entry(image, length, place).entry;

        printf("%lu %lu %lu %lu %lu ", (unsigned long)entry.number, (unsigned long)entry.data.logical,
               (unsigned long)entry.resource.logical, (unsigned long)entry.created, (unsigned long)entry.changed);
        print_name(entry.name, entry.name_length);
        putchar('\n');
    }
    return 0;
}

/* Reads the data fork piece by piece; at its end a read gives no bytes. */
static int read_file(size_t length, const char *name)
{
    uint8_t piece[65536];
    uint64_t offset = 0;
    mfs_read_answer got;

    do {
        got = mfs_read(image, length, (const uint8_t *)name, strlen(name), MFS_DATA_FORK, offset, piece, sizeof piece);
        if (got.number != MFS_SUCCESS)
            return refused(name, got.number);
        fwrite(piece, 1, got.count, stdout);
        offset += got.count;
    } while (got.count > 0);
    return 0;
}

int main(int argc, char **argv)
{
    FILE *file;
    size_t length;
    int status;

    if (argc < 2 || argc > 3) {
        fprintf(stderr, "usage: list_and_read IMAGE [NAME]\n");
        return 2;
    }
    file = fopen(argv[1], "rb");
    if (file == NULL)
        return fail(argv[1], strerror(errno));
    length = fread(image, 1, sizeof image, file);
    if (ferror(file))
        return fail(argv[1], strerror(errno));
    fclose(file);
    status = argc == 3 ? read_file(length, argv[2]) : list(length);
    if (fflush(stdout) != 0 || ferror(stdout))
        return fail("standard output", "can't be written");
    return status;
}
