/* The store's readers, by themselves: when a copy is made anew, and what is known of its checksum.
 *
 * usage: store_copies FOLDER
 *   FOLDER is an empty folder, where the files are made. */
#define _DEFAULT_SOURCE /* POSIX under -std=c11 */

#include <errno.h>
#include <stdbool.h>
#include <stdio.h>
#include <stdlib.h>
#include <string.h>
#include <unistd.h>

#include "store_calls.h"

/* Readers that stay open. */

static void no_copy_while_the_header_is_the_same(void)
{
    const off_t gain = 256 + SLC1_INDEX_AT(12);
    struct store_reader reader;
    uint8_t kept;

    same(SLC1_DONE, store_create("open", &SMALL));
    same(SLC1_DONE, update("open", &SMALL, 100, 1));
    same(SLC1_DONE, store_open_reader(&reader, "open", &SMALL, 0));
    same(SLC1_DONE, store_read(&reader));
    same(STORE_RIGHT, reader.image.checksum);
    kept = reader.image.bytes[gain];
    flip("open", gain);
    same(SLC1_DONE, store_read(&reader));
    same(kept, reader.image.bytes[gain]);
    same(1, revision_in(&reader));
    flip("open", gain);
    same(SLC1_DONE, update("open", &SMALL, 100, 2));
    same(SLC1_DONE, store_read(&reader));
    same(2, revision_in(&reader));
    flip("open", gain);
    flip("open", SLC1_GENERATION_AT); /* another header: odd */
    same(SLC1_NEEDS_REBUILD, store_read(&reader));
    flip("open", SLC1_GENERATION_AT);
    for (int turn = 0; turn < 2; turn++) { /* what is wrong is looked at again */
        same(SLC1_NEEDS_REBUILD, store_read(&reader));
        same(STORE_WRONG, reader.image.checksum);
    }
    flip("open", gain);
    same(SLC1_DONE, store_read(&reader));
    store_close_reader(&reader);
}

static void replaced_files(void)
{
    struct store_reader reader;

    same(SLC1_DONE, store_create("replaced", &SMALL));
    same(SLC1_DONE, update("replaced", &SMALL, 100, 1));
    same(SLC1_DONE, store_open_reader(&reader, "replaced", &SMALL, STORE_VERIFY));
    same(SLC1_DONE, store_read(&reader));
    same(SLC1_DONE, rebuild("replaced", &SMALL, 100, 2));
    same(SLC1_DONE, store_read(&reader));
    same(2, revision_in(&reader));
    holds(rename("replaced", "moved") == 0);
    same(STORE_FAILED, store_read(&reader));
    same(ENOENT, errno);
    holds(rename("moved", "replaced") == 0);
    same(SLC1_DONE, store_read(&reader));
    same(2, revision_in(&reader));
    holds(truncate("replaced", 0) == 0);
    same(SLC1_CREATE_IT, store_read(&reader));
    store_close_reader(&reader);
}

static void beside_a_writer(void)
{
    struct store_records records = puts_of(&SMALL, 1, 1);
    struct store_reader reader;
    struct store_writer writer, second;

    same(SLC1_DONE, store_create("beside", &SMALL));
    same(SLC1_DONE, store_open_reader(&reader, "beside", &SMALL, 0));
    same(SLC1_DONE, store_read(&reader));
    same(SLC1_NO_WRITER_KNOWN, reader.image.options.role);
    same(SLC1_DONE, store_open_writer(&writer, "beside", &SMALL));
    same(SLC1_DONE, store_read(&reader));
    same(SLC1_BUSY, store_open_writer(&second, "beside", &SMALL));
    same(SLC1_DONE, store_update(&writer, &records));
    same(SLC1_DONE, store_read(&reader));
    same(1, revision_in(&reader));
    store_close_writer(&writer);
    same(SLC1_DONE, store_read(&reader));
    store_close_reader(&reader);
    free(records.bytes);
}

/* A reader beside commits goes by the last of them, which has no checksum yet; while they are tried on a copy it sees none. */

static struct store_reader beside;
static int64_t seen;
static size_t commits;

static void read_beside(size_t done, size_t all)
{
    size_t written = done > all / 2 ? done - all / 2 : 0;

    same(SLC1_DONE, store_read(&beside));
    same(SLC1_ANOTHER_WRITER, beside.image.options.role);
    same(written > 0 ? STORE_UNCHECKED : STORE_RIGHT, beside.image.checksum);
    same(written, slc1_full_check_live(STORE_LENT(&beside.image)));
    seen = revision_in(&beside);
    commits++;
}

static void beside_commits(void)
{
    struct store_records records = puts_of(&MANY, SLOTS_OF_MANY, 5);
    struct store_writer writer;

    same(SLC1_DONE, store_create("commits", &MANY));
    same(SLC1_DONE, store_open_reader(&beside, "commits", &MANY, STORE_VERIFY));
    same(SLC1_DONE, store_open_writer(&writer, "commits", &MANY));
    writer.progress = read_beside;
    same(SLC1_DONE, store_update(&writer, &records));
    same(5, seen);
    same(2 * 3, commits);
    store_close_writer(&writer);
    same(SLC1_DONE, store_read(&beside));
    same(SLC1_NO_WRITER_KNOWN, beside.image.options.role);
    same(STORE_RIGHT, beside.image.checksum);
    store_close_reader(&beside);
    free(records.bytes);
}

/* The checksum. */

static uint32_t read_with(const char *path, const slc1_options *options, int flags, int wanted)
{
    struct store_reader reader;
    uint32_t answer;

    same(SLC1_DONE, store_open_reader(&reader, path, options, flags));
    answer = store_read(&reader);
    same((uint32_t)wanted, reader.image.checksum);
    store_close_reader(&reader);
    return answer;
}

static void checksums_of(const char *path, const slc1_options *options)
{
    off_t last = (off_t)slc1_total_size(SLC1_OPTIONS(options)) - 1;
    bool small = slc1_total_size(SLC1_OPTIONS(options)) <= STORE_SMALL;
    struct store_writer writer;

    same(SLC1_DONE, store_create(path, options));
    same(SLC1_DONE, update(path, options, 100, 1));
    same(SLC1_DONE, read_with(path, options, 0, small ? STORE_RIGHT : STORE_UNCHECKED));
    same(SLC1_DONE, read_with(path, options, STORE_VERIFY, STORE_RIGHT));
    flip(path, last);
    same(small ? SLC1_NEEDS_REBUILD : SLC1_DONE, read_with(path, options, 0, small ? STORE_WRONG : STORE_UNCHECKED));
    same(SLC1_NEEDS_REBUILD, read_with(path, options, STORE_VERIFY, STORE_WRONG));
    same(SLC1_DONE, store_open_writer(&writer, path, options));
    same(SLC1_NEEDS_REBUILD, store_judge(&writer));
    store_close_writer(&writer);
    same(SLC1_NEEDS_REBUILD, update(path, options, 100, 2));
    flip(path, last);
    same(SLC1_DONE, update(path, options, 100, 2));
    flip(path, last);
    same(SLC1_DONE, rebuild(path, options, 100, 2));
    same(SLC1_DONE, read_with(path, options, STORE_VERIFY, STORE_RIGHT));
}

static void checksums(void)
{
    static const slc1_options LARGE = {12, 256, 4096, 1, 0, 0};
    static const slc1_options LIMIT = {64, 176, 895, 1, 1, 0}, ABOVE = {64, 176, 896, 1, 1, 0};

    same(STORE_SMALL, slc1_total_size(SLC1_OPTIONS(&LIMIT)));
    checksums_of("small", &SMALL);
    checksums_of("limit", &LIMIT);
    checksums_of("above", &ABOVE);
    checksums_of("large", &LARGE);
}

/* Makes a file without the store's mark: with a host's own flags and data, and one record. */
static void write_unmarked(const char *path, const uint8_t *data, int64_t revision)
{
    size_t total = (size_t)slc1_total_size(SLC1_OPTIONS(&SMALL));
    slc1_options held = SMALL;
    uint8_t *image = calloc(1, total);
    struct store_records records = puts_of(&SMALL, 1, revision);

    held.role = SLC1_LOCK_HELD;
    same(SLC1_DONE, slc1_create(image, total, SLC1_OPTIONS(&held)));
    same(SLC1_DONE, slc1_begin(image, total, SLC1_OPTIONS(&held)));
    same(SLC1_DONE, slc1_commit(image, total, SLC1_OPTIONS(&held), records.bytes, record_size(&SMALL)));
    same(SLC1_DONE, slc1_set_user_fields(image, total, SLC1_OPTIONS(&held), 77, data, SLC1_USER_DATA_SIZE));
    same(SLC1_DONE, slc1_checkpoint(image, total, SLC1_OPTIONS(&held)));
    write_file(path, image, total);
    free(records.bytes);
    free(image);
}

/* Two files with one header: a reader knows them from each other. */
static void replaced_by_the_same_header(void)
{
    const uint8_t data[SLC1_USER_DATA_SIZE] = {0};
    struct store_reader reader;

    write_unmarked("first", data, 1);
    write_unmarked("next", data, 2);
    same(SLC1_DONE, store_open_reader(&reader, "first", &SMALL, 0));
    same(SLC1_DONE, store_read(&reader));
    same(1, revision_in(&reader));
    holds(rename("next", "first") == 0);
    same(SLC1_DONE, store_read(&reader));
    same(2, revision_in(&reader));
    store_close_reader(&reader);
}

static void without_a_mark(void)
{
    size_t total = (size_t)slc1_total_size(SLC1_OPTIONS(&SMALL));
    uint8_t data[SLC1_USER_DATA_SIZE], after[SLC1_USER_DATA_SIZE];
    struct store_reader reader;

    for (size_t i = 0; i < sizeof data; i++)
        data[i] = (uint8_t)(i < 16 ? 0 : i);
    write_unmarked("unmarked", data, 1);
    same(SLC1_DONE, read_with("unmarked", &SMALL, 0, STORE_NO_MARK));
    same(SLC1_DONE, update("unmarked", &SMALL, 10, 1));
    same(SLC1_DONE, read_with("unmarked", &SMALL, 0, STORE_RIGHT));
    same(SLC1_DONE, store_open_reader(&reader, "unmarked", &SMALL, 0));
    same(SLC1_DONE, store_read(&reader));
    same(77, slc1_user_flags(STORE_LENT(&reader.image)));
    same(SLC1_DONE, slc1_user_data(STORE_LENT(&reader.image), after, sizeof after));
    holds(memcmp(after, "slotsCRC", 8) == 0 && memcmp(after + 16, data + 16, sizeof data - 16) == 0);
    same(slc1_crc32c(reader.image.bytes + 256, total - 256), (uint64_t)after[8] | (uint64_t)after[9] << 8 |
         (uint64_t)after[10] << 16 | (uint64_t)after[11] << 24);
    holds(memcmp(after + 12, "\0\0\0\0", 4) == 0);
    store_close_reader(&reader);
}

int main(int count, char **words)
{
    static void (*const TESTS[])(void) = {no_copy_while_the_header_is_the_same, replaced_files, replaced_by_the_same_header,
                                          beside_a_writer, beside_commits, checksums, without_a_mark};

    if (count != 2)
        return 64;
    run_tests(TESTS, COUNT(TESTS), words[1]);
    printf("the store's copies agree: %zu comparisons\n", comparisons);
    return 0;
}
