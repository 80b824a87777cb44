/* What the tests of the store's calls share: a change of a file in one call, and the tests one after the other. */
#ifndef STORE_CALLS_H
#define STORE_CALLS_H

#include <unistd.h>

#include "store_tools.h"

/* The options of most files here. */
static const slc1_options SMALL = {12, 20, 512, 1, 0, 0};

/* Those of files that take more than two batches. */
enum { SLOTS_OF_MANY = 2 * SLC1_BATCH_LIMIT + 50 };
static const slc1_options MANY = {12, 20, SLOTS_OF_MANY, 1, 0, 0};

static size_t progressed;

static inline void count_progress(size_t done, size_t all)
{
    holds(done > progressed && done <= all);
    progressed = done;
}

/* Puts a number of records with one revision, and gives back the answer. */
static inline uint32_t update(const char *path, const slc1_options *options, size_t count, int64_t revision)
{
    struct store_records records = puts_of(options, count, revision);
    struct store_writer writer;
    uint32_t answer = store_open_writer(&writer, path, options);

    holds(answer == SLC1_DONE);
    progressed = 0;
    writer.progress = count % 2 == 0 ? count_progress : NULL;
    answer = store_update(&writer, &records);
    holds(answer != SLC1_DONE || progressed == (count % 2 == 0 ? 2 * count : 0));
    holds(answer != SLC1_DONE || store_judge(&writer) == SLC1_DONE);
    store_close_writer(&writer);
    free(records.bytes);
    return answer;
}

static inline uint32_t rebuild(const char *path, const slc1_options *options, size_t count, int64_t revision)
{
    struct store_records records = puts_of(options, count, revision);
    struct store_writer writer;
    uint32_t answer = store_open_writer(&writer, path, options);

    holds(answer == SLC1_DONE);
    answer = store_rebuild(&writer, &records);
    store_close_writer(&writer);
    free(records.bytes);
    return answer;
}

/* The revision of the first record, in a reader's copy. */
static inline int64_t revision_in(const struct store_reader *reader)
{
    struct store_records first = puts_of(&reader->image.options, 1, 0);
    int64_t revision =
        slc1_lookup_revision(STORE_LENT(&reader->image), first.bytes + SLC1_KEY_AT, reader->image.options.key_size);

    free(first.bytes);
    return revision;
}

/* Runs tests in a folder, each of which leaves no descriptor open. */
static inline void run_tests(void (*const *tests)(void), size_t count, const char *folder)
{
    int before;

    holds(chdir(folder) == 0);
    before = descriptors();
    alarm(60); /* a call that hangs */
    for (size_t i = 0; i < count; i++) {
        tests[i]();
        same(before, descriptors());
    }
}

#endif
