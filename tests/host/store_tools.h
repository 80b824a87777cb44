/* What the tests of the store share: files, records. */
#ifndef STORE_TOOLS_H
#define STORE_TOOLS_H

#include <dirent.h>
#include <fcntl.h>
#include <string.h>
#include <sys/stat.h>
#include <unistd.h>

#include "../facts.h"
#include "slc1.h"
#include "store.h"

#define COUNT(list) (sizeof(list) / sizeof *(list))

/* The number of open descriptors. */
static inline int descriptors(void)
{
    DIR *folder = opendir("/proc/self/fd");
    int count = 0;

    holds(folder != NULL);
    while (readdir(folder) != NULL)
        count++;
    closedir(folder);
    return count;
}

struct bytes {
    uint8_t *bytes;
    size_t length;
};

static inline struct bytes contents(const char *path)
{
    struct bytes all = {NULL, 0};
    int file = open(path, O_RDONLY);
    struct stat status;

    holds(file >= 0 && fstat(file, &status) == 0);
    all.length = (size_t)status.st_size;
    all.bytes = malloc(all.length + 1);
    holds(all.bytes != NULL && read(file, all.bytes, all.length) == (ssize_t)all.length);
    close(file);
    return all;
}

static inline bool is_contents(const char *path, const struct bytes *wanted)
{
    struct bytes all = contents(path);
    bool is = all.length == wanted->length && memcmp(all.bytes, wanted->bytes, all.length) == 0;

    free(all.bytes);
    return is;
}

static inline void write_file(const char *path, const void *bytes, size_t length)
{
    int file = open(path, O_WRONLY | O_CREAT | O_TRUNC, 0666);

    holds(file >= 0 && write(file, bytes, length) == (ssize_t)length && close(file) == 0);
}

/* Changes the lowest bit of one byte of a file. */
static inline void flip(const char *path, off_t place)
{
    int file = open(path, O_RDWR);
    uint8_t byte;

    holds(file >= 0 && pread(file, &byte, 1, place) == 1);
    byte ^= 1;
    holds(pwrite(file, &byte, 1, place) == 1 && close(file) == 0);
}

/* The open check's answer for what a file holds, with no writer known. */
static inline uint32_t contents_answer(const char *path, const slc1_options *options)
{
    struct bytes all = contents(path);
    uint32_t answer = slc1_open_check(all.bytes, all.length, SLC1_OPTIONS(options));

    free(all.bytes);
    return answer;
}

/* Makes an image DIRTY, as a writer does that then dies. */
static inline void dirty_image(struct bytes *image, const slc1_options *options)
{
    slc1_options held = *options;

    held.role = SLC1_LOCK_HELD;
    same(SLC1_DONE, slc1_begin(image->bytes, image->length, SLC1_OPTIONS(&held)));
}

static inline size_t record_size(const slc1_options *options)
{
    return SLC1_RECORD_SIZE(options->key_size, options->index_size);
}

/* A fresh image as a partner makes it: with so many buckets, and without the store's mark. */
static inline struct bytes partners_image(const slc1_options *options, uint64_t buckets)
{
    const size_t bucket_count_at = 0x48, crc_at = 0x70; /* the state, 0, is in the word of the CRC */
    size_t fresh = (size_t)slc1_total_size(SLC1_OPTIONS(options));
    struct bytes image = {NULL, SLC1_HEADER_SIZE + options->slot_capacity * record_size(options) + buckets * 16};

    image.bytes = (uint8_t *)calloc(1, image.length > fresh ? image.length : fresh);
    holds(image.bytes != NULL);
    same(SLC1_DONE, slc1_create(image.bytes, fresh, SLC1_OPTIONS(options)));
    slc1_put_word(image.bytes + bucket_count_at, buckets);
    slc1_put_word(image.bytes + crc_at, 0);
    slc1_put_word(image.bytes + crc_at, slc1_crc32c(image.bytes, SLC1_HEADER_SIZE));
    return image;
}

/* Puts with keys in order, one revision, and an index of one letter. */
static inline struct store_records puts_of(const slc1_options *options, size_t count, int64_t revision)
{
    struct store_records records = {(uint8_t *)calloc(count + 1, record_size(options)), count};

    holds(records.bytes != NULL);
    for (size_t i = 0; i < count; i++) {
        uint8_t *record = records.bytes + i * record_size(options);

        record[0] = 1;
        snprintf((char *)record + SLC1_KEY_AT, options->key_size, "key %06zu", i);
        for (int byte = 0; byte < 8; byte++)
            record[SLC1_REVISION_AT(options->key_size) + byte] = (uint8_t)((uint64_t)revision >> 8 * byte);
        record[SLC1_INDEX_AT(options->key_size)] = (uint8_t)('a' + i % 26);
    }
    return records;
}

#endif
