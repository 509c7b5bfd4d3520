/*
 * mfs.h: the calls on images of MFS disks, bare or wrapped as Disk Copy 4.2 files, for C and C++ on x86-64 Linux.
 * Build the archive by `tools/build_archive` and link target/staticlib/libarchive.a.
 *
 * The image is the whole disk, one run of bytes that the caller lends. Every call checks it first, mfs_quick_find by checks 1 to
 * 4 alone, and a call on any bytes is safe. No call keeps anything from one call to the next, allocates memory or opens a file.
 *
 * A wrapped file is a Disk Copy 4.2 file of a 400K disk: a header, the image, and the disk's tags where it has them. Each call
 * on an image but mfs_rename, mfs_quick_find and mfs_wrap has a second one whose name begins with mfs_wrapped_: it takes the
 * whole file in the image's place and does the same with the image inside. mfs_wrap makes a wrapped file of an image.
 *
 * Names are bytes in Mac OS Roman, with no zero at their end. Two are equal where their bytes are: letters a to z equal A to Z,
 * and the two bytes of each of these pairs, in hex, equal each other: 88 CB, 8A 80, 8B CC, 8C 81, 8D 82, 8E 83, 96 84, 9A 85,
 * 9B CD, 9F 86, BE AE, BF AF, CF CE. Every other byte equals only itself.
 * Dates are seconds since 1 January 1904 in the local time of the machine that wrote them; they are handed out as stored.
 * Places count from 0.
 *
 * Pointers: none is NULL, also where its length is 0, and each has at least its length of bytes behind it. The image or wrapped
 * file of a call that changes it, and the buffer of mfs_read, mfs_wrapped_read and mfs_wrap, share no byte with any other
 * argument.
 */
#ifndef MFS_H
#define MFS_H

#include <stddef.h>
#include <stdint.h>

#ifdef __cplusplus
extern "C" {
#endif

/*
 * The number that each call gives back. On a refusal all other results are zero, but for the count that mfs_quick_find gives
 * beside 13, and neither the image or file nor the buffer changes. Conditions are tried in the order of each call's list; the
 * first that holds gives the number. Every call on an image begins with 1 to 10, but mfs_quick_find, which has only 1 to 4 of
 * them, and mfs_wrap, which has 22 before them; every call on a wrapped file has 22, 23 and 24 before them.
 */
enum {
    MFS_SUCCESS = 0,
    /* the image's length is no multiple of 512, or is below 8 or above 65,535 blocks of 512 bytes */
    MFS_BAD_LENGTH = 1,
    /* the signature is not D2D7 hex: not an MFS disk */
    MFS_BAD_SIGNATURE = 2,
    /* the size of allocation blocks is no multiple of 512 from 512 to 32,768; or there are not 1 to 640 of them; or the directory
       is not 1 to 256 blocks long, starts below block 4 or ends behind the start of the allocation blocks; or these run into the
       image's last two blocks; or the next file number is 0 */
    MFS_BAD_LAYOUT = 3,
    /* the volume's name is longer than 27 bytes */
    MFS_BAD_VOLUME_NAME = 4,
    /* a bad entry in the block map */
    MFS_BAD_MAP_ENTRY = 5,
    /* a directory entry crosses its block, has an empty name or a version other than 0 */
    MFS_BAD_ENTRY = 6,
    /* the directory has not the number of files that the volume states; or a file number is 0, repeated or not below the next
       one; or two names are equal */
    MFS_BAD_DIRECTORY = 7,
    /* a fork with start 0 has a length above 0; or another fork has a physical length of 0, or no multiple of the allocation
       blocks' size, or below its logical length, or no chain of just the blocks that it says; or two forks share a block */
    MFS_BAD_FORK = 8,
    /* a block is marked as used and belongs to no fork */
    MFS_BLOCK_OF_NO_FORK = 9,
    /* the free count differs from the number of free blocks */
    MFS_BAD_FREE_COUNT = 10,
    /* the volume is locked */
    MFS_VOLUME_LOCKED = 11,
    /* a given name's length is 0 or above 255 */
    MFS_BAD_NAME = 12,
    /* no such file or place */
    MFS_NOT_FOUND = 13,
    /* the name exists; from mfs_rename, another file has the new one */
    MFS_NAME_EXISTS = 14,
    /* the file is locked */
    MFS_FILE_LOCKED = 15,
    /* the offset or the cut's size is above the fork's logical length, or the fork has no block at that place */
    MFS_BEHIND_END = 16,
    /* the new blocks needed exceed those free */
    MFS_DISK_FULL = 17,
    /* no directory block has room for the entry */
    MFS_DIRECTORY_FULL = 18,
    /* the next file number is 4,294,967,295: no file can be created any more */
    MFS_NO_FILE_NUMBER = 19,
    /* the new name is longer than 31 bytes: that of mfs_create, or the second one of mfs_rename; there is no 20 */
    MFS_NAME_TOO_LONG = 21,
    /* the wrapped file has another length, or another header, than a Disk Copy 4.2 file of a 400K disk; from mfs_wrap: the
       image, the buffer or the name has a wrong length */
    MFS_BAD_CONTAINER = 22,
    /* the data checksum in the wrapped file's header is not that of the image inside */
    MFS_BAD_DATA_CHECKSUM = 23,
    /* the tag checksum in the wrapped file's header is not that of its tags, or not 0 where it has none */
    MFS_BAD_TAG_CHECKSUM = 24
};

/* Lengths in bytes: of a 400K disk's image, and of a wrapped file without tags and with them. */
enum {
    MFS_IMAGE_400K = 409600,
    MFS_WRAPPED_LENGTH = 409684,
    MFS_WRAPPED_TAGGED_LENGTH = 419284
};

/* A call's choice of fork. Every other number is taken for the resource fork. */
enum {
    MFS_DATA_FORK = 0,
    MFS_RESOURCE_FORK = 1
};

/* The facts of the volume. */
typedef struct {
    uint16_t signature;         /* D2D7 hex */
    uint32_t created;           /* date */
    uint32_t backup;            /* date of the last backup */
    uint16_t attributes;        /* bit 7 or bit 15 set: the volume is locked */
    uint16_t files;             /* how many files there are */
    uint32_t directory_start;   /* the directory's first block of 512 bytes */
    uint16_t directory_length;  /* in blocks of 512 bytes */
    uint16_t allocation_blocks; /* how many there are; they are numbered from 2 on */
    uint32_t block_size;        /* bytes in an allocation block */
    uint32_t clump_size;        /* bytes in a clump: see mfs_write */
    uint32_t allocation_start;  /* the block of 512 bytes where allocation block 2 starts */
    uint32_t next_number;       /* the number that the next created file gets */
    uint16_t free_blocks;       /* free allocation blocks */
    uint8_t name_length;        /* 0 to 27 */
    uint8_t name[27];           /* as stored, the bytes behind name_length too */
} mfs_facts;

/* One fork of a file. */
typedef struct {
    uint16_t start;    /* its first allocation block; 0 for an empty fork */
    uint32_t logical;  /* how many bytes it holds */
    uint32_t physical; /* how many bytes its allocation blocks hold */
} mfs_fork_facts;

/* A file's entry in the directory. */
typedef struct {
    uint8_t flags;      /* bit 7: in use; bit 0: the file is locked */
    uint8_t version;    /* 0 */
    uint8_t finder[16]; /* Finder information: type, creator, and eight bytes more */
    uint32_t number;    /* file number */
    mfs_fork_facts data;
    mfs_fork_facts resource;
    uint32_t created;    /* date */
    uint32_t changed;    /* date */
    uint8_t name_length; /* 1 to 255 */
    uint8_t name[255];   /* zero behind name_length */
} mfs_directory_entry;

/*
 * The answers. Each begins with its number: MFS_SUCCESS, or that of the refusal, and then all else is zero, but for `looked`
 * beside MFS_NOT_FOUND.
 */
typedef struct {
    uint8_t number;
    mfs_facts facts;
} mfs_check_answer;

typedef struct {
    uint8_t number;
    mfs_directory_entry entry;
} mfs_entry_answer;

typedef struct {
    uint8_t number;
    uint64_t place; /* in directory order */
    mfs_directory_entry entry;
} mfs_find_answer;

typedef struct {
    uint8_t number;
    uint64_t place; /* in directory order, over the entries read */
    mfs_directory_entry entry;
    uint16_t looked; /* directory blocks looked at; with MFS_NOT_FOUND all of them */
} mfs_quick_find_answer;

typedef struct {
    uint8_t number;
    uint16_t block; /* the number of an allocation block */
} mfs_block_answer;

typedef struct {
    uint8_t number;
    size_t count; /* bytes copied */
} mfs_read_answer;

/* Checks the volume and gives its facts. Refusals: 1 to 10. */
mfs_check_answer mfs_check(const uint8_t *image, size_t image_length);

/* Gives the entry at a place in directory order, from 0 to facts.files - 1. Refusals: 1 to 10, 13. */
mfs_entry_answer mfs_entry(const uint8_t *image, size_t image_length, uint64_t place);

/* Finds the file of a name and gives its place and its entry. Refusals: 1 to 10, 12, 13. */
mfs_find_answer mfs_find(const uint8_t *image, size_t image_length, const uint8_t *name, size_t name_length);

/* Gives the number of the allocation block at a place in a fork. Refusals: 1 to 10, 12, 13, 16. */
mfs_block_answer mfs_block(const uint8_t *image, size_t image_length, const uint8_t *name, size_t name_length, uint8_t fork,
                           uint64_t place);

/*
 * Copies a fork's bytes from an offset on into the buffer, as many as the buffer takes and the fork has, and gives their count:
 * 0 at the fork's end. The rest of the buffer stays as it is. Refusals: 1 to 10, 12, 13, 16.
 */
mfs_read_answer mfs_read(const uint8_t *image, size_t image_length, const uint8_t *name, size_t name_length, uint8_t fork,
                         uint64_t offset, uint8_t *buffer, size_t buffer_length);

/*
 * Creates an empty file with this name, these 16 bytes of Finder information and these dates. The name has at most 31 bytes; a
 * file that is there may have a longer one, by which every other call finds it.
 * Refusals: 1 to 10, 11, 12, 21, 14, 19, 18.
 */
uint8_t mfs_create(uint8_t *image, size_t image_length, const uint8_t *name, size_t name_length, const uint8_t finder[16],
                   uint32_t created, uint32_t changed);

/*
 * Stores bytes in a fork from an offset on, and the change date, also for no bytes. The offset is at most the fork's logical
 * length; the fork grows where the bytes reach behind its end, by free blocks, lowest number first. If it needs new blocks, it
 * takes as many as bring all its blocks to whole clumps; where fewer are free, just those that it needs. A clump has
 * facts.clump_size bytes if that is a multiple of facts.block_size and not below it; else it is one block.
 * Refusals: 1 to 10, 11, 12, 13, 15, 16, 17 for the blocks that the fork needs.
 */
uint8_t mfs_write(uint8_t *image, size_t image_length, const uint8_t *name, size_t name_length, uint8_t fork, uint64_t offset,
                  const uint8_t *bytes, size_t bytes_length, uint32_t changed);

/*
 * Cuts a fork to its first bytes, as many as size says, frees every block that these do not need, spare ones of a clump too, and
 * stores the change date.
 * Refusals: 1 to 10, 11, 12, 13, 15, 16.
 */
uint8_t mfs_cut(uint8_t *image, size_t image_length, const uint8_t *name, size_t name_length, uint8_t fork, uint64_t size,
                uint32_t changed);

/* Deletes a file and frees both its forks. Refusals: 1 to 10, 11, 12, 13, 15. */
uint8_t mfs_delete(uint8_t *image, size_t image_length, const uint8_t *name, size_t name_length);

/*
 * Gives a file a new name, of at most 31 bytes, and stores the change date; all else that is told of the file stays. The new
 * name is no other file's; the file's own in another case will do. An entry takes 51 bytes and its name, made even. Where that
 * size stays, the entry stays, and no other byte of the image changes; else it is taken out and goes behind the last one of the
 * first directory block with room once it is out, so that places of files may change.
 * Only images are taken: 1 refuses a wrapped file.
 * Refusals: 1 to 10, 11, 12 for the name, 12 and 21 for the new one, 13, 15, 14 for another file's name, 18.
 */
uint8_t mfs_rename(uint8_t *image, size_t image_length, const uint8_t *name, size_t name_length, const uint8_t *new_name,
                   size_t new_name_length, uint32_t changed);

/*
 * Finds the file of a name from the volume's facts and the directory blocks up to the one that has it, and reads nothing else: it
 * gives the file's place, its entry, and how many directory blocks were looked at, counted up to the entry's own. Where mfs_check
 * succeeds, number, place and entry are those of mfs_find.
 * The volume is not checked beyond 1 to 4, so an image that mfs_check refuses may be answered. Of a directory block the entries
 * are then read up to one that 6 would refuse; the first equal name so read is the answer, and its place is counted over the
 * entries so read. The entry is told as stored, its number and forks unchecked.
 * Only images are taken: 1 refuses a wrapped file.
 * Refusals: 1 to 4, 12, 13. Beside 13, and no other of them, `looked` is given: the number of all directory blocks.
 */
mfs_quick_find_answer mfs_quick_find(const uint8_t *image, size_t image_length, const uint8_t *name, size_t name_length);

/*
 * The same calls, but mfs_rename and mfs_quick_find, on a wrapped file. Its length is MFS_WRAPPED_LENGTH or
 * MFS_WRAPPED_TAGGED_LENGTH. The header has 84 bytes, with big-endian numbers: the name, of at most 63 bytes behind its length
 * byte; at 64 the data size, 409,600; at 68 the tag size, 0 or 9,600; at 72 the data checksum and at 76 the tag checksum; at 80
 * the encoding, 0; at 81 the format byte; at 82 the two bytes 01 00. The image follows, then the tags.
 *
 * A checksum is a 32-bit number, from 0 on: each 16-bit word is added, and the sum is then turned right by one bit. That of the
 * tags leaves out their first 12 bytes, and is 0 where there are none.
 *
 * A call that changes the image inside also stores the new data checksum at 72. No other byte outside the image changes: the
 * name's field, the format byte and the tags are carried.
 *
 * Refusals: 22, 23, 24, then those of the call on an image; 1 can't come.
 */
mfs_check_answer mfs_wrapped_check(const uint8_t *file, size_t file_length);

mfs_entry_answer mfs_wrapped_entry(const uint8_t *file, size_t file_length, uint64_t place);

mfs_find_answer mfs_wrapped_find(const uint8_t *file, size_t file_length, const uint8_t *name, size_t name_length);

mfs_block_answer mfs_wrapped_block(const uint8_t *file, size_t file_length, const uint8_t *name, size_t name_length, uint8_t fork,
                                   uint64_t place);

mfs_read_answer mfs_wrapped_read(const uint8_t *file, size_t file_length, const uint8_t *name, size_t name_length, uint8_t fork,
                                 uint64_t offset, uint8_t *buffer, size_t buffer_length);

uint8_t mfs_wrapped_create(uint8_t *file, size_t file_length, const uint8_t *name, size_t name_length, const uint8_t finder[16],
                           uint32_t created, uint32_t changed);

uint8_t mfs_wrapped_write(uint8_t *file, size_t file_length, const uint8_t *name, size_t name_length, uint8_t fork,
                          uint64_t offset, const uint8_t *bytes, size_t bytes_length, uint32_t changed);

uint8_t mfs_wrapped_cut(uint8_t *file, size_t file_length, const uint8_t *name, size_t name_length, uint8_t fork, uint64_t size,
                        uint32_t changed);

uint8_t mfs_wrapped_delete(uint8_t *file, size_t file_length, const uint8_t *name, size_t name_length);

/*
 * Wraps an image of MFS_IMAGE_400K bytes: fills the buffer, whose length is MFS_WRAPPED_LENGTH, with a wrapped file of this
 * name, of at most 63 bytes, and this format byte, without tags. The rest of the name's field is zero.
 * Refusals: 22, then those of mfs_check; 1 can't come.
 */
uint8_t mfs_wrap(const uint8_t *image, size_t image_length, const uint8_t *name, size_t name_length, uint8_t format,
                 uint8_t *buffer, size_t buffer_length);

#ifdef __cplusplus
}
#endif

#endif
