/* store.h: SLC1 images in files that several processes read and write. For a host of slc1.h, in C or C++ and POSIX; store.c
 * itself is C11.
 *
 * The library works on lent bytes that stand still. The store lends it private copies, and does what the library leaves
 * to its host: files, locks, syncing, readers beside a writer, and a checksum over slots and buckets. Every program that
 * touches a file goes through the store.
 *
 * Answers. Each call gives back a number of slc1.h, or one of the store's own. None ends the process or prints. (Where file
 * sizes are limited, the signal XFSZ does, unless the host ignores it.)
 *
 * Locks. A writer holds the file's exclusive lock from before begin until after checkpoint. A reader that gets the
 * shared lock therefore knows that no writer is active (role 0), and one that does not knows that one is (role 1). Only
 * the holder of the exclusive lock of the file that FILE names may replace that file, and only it touches
 * FILE.rebuilding.
 *
 * Ends. Whenever the process ends or a call fails, the file is as it was, or it needs a rebuild, or the work is done.
 * From begin to checkpoint, and while a file is made or replaced, the signals INT, TERM, HUP, PIPE, TSTP and TTOU wait in the
 * thread that calls; a host with further threads blocks them there.
 *
 * Checksum. SLC1 has none over slots and buckets. The store keeps one in the first 16 of the 64 bytes of user data: the
 * mark "slotsCRC", the CRC32-C of all bytes behind the header as a u64. It is renewed before each checkpoint, and holds
 * for CLEAN images. The other 48 bytes and the user flags are the host's own, and stay; after a rebuild they are 0.
 *
 * Options. Their role is not looked at: the store finds it out. Their slot_capacity is for a file that the store makes, and may
 * be 0 where it makes none. A file that is there has the slots and buckets that its header says, whoever made it: the options
 * of its image have slot_capacity 0, and slc1_image_capacity(STORE_LENT(&image)) tells how many slots there are.
 */
#ifndef STORE_H
#define STORE_H

#include <stddef.h>
#include <stdint.h>

#include "slc1.h"

#ifdef __cplusplus
extern "C" {
#endif

/* Answers beside those of slc1.h. */
enum {
    STORE_FAILED = 32,      /* a call of the system failed, or memory is short: errno says why */
    STORE_NOT_REGULAR = 33, /* a folder, a pipe or a device stands in the file's place */
    STORE_EXISTS = 34,      /* a file to create is there, and not empty */
    STORE_HARD_LINKS = 35,  /* the file has other names, which a rebuild would leave with the old bytes */
    STORE_OTHER_OWNER = 36, /* a rebuild can't give the new file to the old one's owner or group */
    STORE_IN_THE_WAY = 37   /* FILE.rebuilding is there, and is not what a rebuild left */
};

/* What is to be said of an answer: from STORE_NOT_REGULAR on what the file is or has, to stand behind its name; else a
 * sentence. */
const char *store_text(uint32_t answer);

/* What is known of a checksum. */
enum {
    STORE_UNCHECKED = 0, /* not looked at: the image is not CLEAN, or too large for a single read */
    STORE_NO_MARK = 1,   /* there is none: a changed slot would not be noticed */
    STORE_RIGHT = 2,
    STORE_WRONG = 3      /* bytes have changed since they were written */
};

/* A private copy of what a file holds, for any call that reads: slc1_full_check(STORE_LENT(&image)). A file that is longer than
 * any image is copied with one byte more than the longest has, and so refused by the library as a shorter one is. */
struct store_image {
    uint8_t *bytes;
    size_t length;
    slc1_options options; /* with slot_capacity 0, and the role that is true of these bytes */
    int checksum;
};

#define STORE_LENT(image) (image)->bytes, (image)->length, SLC1_OPTIONS(&(image)->options)

/* How many slots and buckets an image has. */
struct store_shape {
    uint64_t slots;
    uint64_t buckets; /* 0 where they are those of a fresh image with these slots */
    uint64_t total;   /* its bytes */
};

/* The shape that the header speaks of, also where the image does not pass: for a person who is told of it, and for a rebuild.
 * Where the file ends before the slots, or no image has so many, that of a fresh image with `otherwise` slots; where this goes
 * for the buckets alone, that of a fresh image with the header's slots. */
struct store_shape store_shape_of(const struct store_image *image, uint64_t otherwise);

/* A reader of a file. The host may read the image; the rest is the store's. */
struct store_reader {
    struct store_image image;
    const char *path;
    int flags;
    int file; /* the file that was copied, or -1 */
};

/* Up to this many bytes the checksum is made with every copy, in less than a millisecond on the machine measured. */
enum { STORE_SMALL = 256 * 1024 };

/* A flag: the checksum of a larger image is made too. For a process that stays open, once for each copy that it makes. */
enum { STORE_VERIFY = 1 };

/* Makes a reader, with no copy yet; flags is 0 or STORE_VERIFY. Where the answer is SLC1_DONE the caller closes the reader,
 * and keeps the path until then. SLC1_INVALID_INPUT where the options are out of range. */
uint32_t store_open_reader(struct store_reader *reader, const char *path, const slc1_options *options, int flags);

/* Copies what the file holds at one moment. A copy that is CLEAN is kept where the file still has the same length and header.
 * The answer is that of slc1_open_check, or SLC1_NEEDS_REBUILD where the checksum is wrong; SLC1_BUSY where writers leave no
 * such moment for a quarter of a second. From STORE_FAILED on the image is an earlier copy, or of length 0. */
uint32_t store_read(struct store_reader *reader);

void store_close_reader(struct store_reader *reader);

/* Records one after the other, laid out as in a batch. There may be more than a batch has. */
struct store_records {
    uint8_t *bytes;
    size_t count;
};

/* A file that this process alone may write. The host may read the image and, once it is open, set progress and slot_capacity;
 * the rest is the store's. */
struct store_writer {
    struct store_image image;
    void (*progress)(size_t done, size_t all); /* told of each commit how far the work is, unless it is NULL */
    uint64_t slot_capacity; /* of the file that a rebuild makes; as the header says, else the options, unless another is set */
    const char *path;
    int file;           /* the file that `path` names, with its exclusive lock */
    uint8_t *published; /* what stands there */
};

/* Locks a file, and copies it. SLC1_DONE whatever it holds, and the caller closes the writer and keeps the path until
 * then; SLC1_BUSY, where others held locks for two seconds; SLC1_INVALID_INPUT where the options are out of range. Of an
 * image that a dead writer left DIRTY the generation is made odd, so that no reader takes this one for its writer. */
uint32_t store_open_writer(struct store_writer *writer, const char *path, const slc1_options *options);

/* Whether the image can be changed: the full check's answer, or SLC1_NEEDS_REBUILD where the checksum is wrong. */
uint32_t store_judge(const struct store_writer *writer);

/* Commits the records, first to a copy and then to the file: each is half of the work that progress is told of. SLC1_DONE; or
 * the number by which the image (store_judge) or a batch is refused, and nothing is written. After STORE_FAILED the file may
 * need a rebuild. */
uint32_t store_update(struct store_writer *writer, const struct store_records *records);

/* Replaces the file by one with these records alone, once that is whole and synced. Its owner, its mode and symbolic
 * links to it stay; access lists do not. A file is replaced that is empty or an image for the same options, damaged or
 * not: SLC1_INCOMPATIBLE for any other. Answers as store_update does, and SLC1_BUSY where the path names another file by
 * now; SLC1_INVALID_INPUT where slot_capacity is out of range. Where it is done the writer goes on with the new file, else it
 * can only be closed. */
uint32_t store_rebuild(struct store_writer *writer, const struct store_records *records);

/* Gives the lock back. */
void store_close_writer(struct store_writer *writer);

/* Makes a file with an empty cache, where there is none or one of length 0; else STORE_EXISTS. Where it fails it leaves
 * no file behind that was not there. */
uint32_t store_create(const char *path, const slc1_options *options);

#ifdef __cplusplus
}
#endif

#endif
