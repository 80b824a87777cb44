/* The store of examples/store.h while calls of the system fail: each call of each operation, one after the other
 * (store_wrapped.h).
 *
 * usage: store_failures FOLDER
 *   FOLDER is an empty folder, where the files are made. */
#define _DEFAULT_SOURCE /* flock, and POSIX under -std=c11 */

#include <errno.h>
#include <signal.h>
#include <stdbool.h>
#include <stdio.h>
#include <stdlib.h>
#include <string.h>
#include <unistd.h>

#include "store_wrapped.h"

static const slc1_options OPTIONS = {12, 20, 512, 1, 0, 0};
enum { MORE = 100 }; /* the slots by which a larger file exceeds these */

/* The operations, on the file "cache". Each gives back its answer, with errno as the store left it. */

static uint32_t with_errno(uint32_t answer, int error)
{
    errno = error;
    return answer;
}

static uint32_t create(const struct store_records *records)
{
    (void)records;
    return store_create("cache", &OPTIONS);
}

static uint32_t read_twice(const struct store_records *records)
{
    struct store_reader reader;
    uint32_t answer = store_open_reader(&reader, "cache", &OPTIONS, STORE_VERIFY);
    int error = errno;

    (void)records;
    for (int turn = 0; turn < 2 && answer == SLC1_DONE; turn++) {
        answer = store_read(&reader);
        error = errno;
        if (answer != SLC1_DONE || turn == 1)
            store_close_reader(&reader);
    }
    return with_errno(answer, error);
}

static uint32_t written(const struct store_records *records,
                        uint32_t (*call)(struct store_writer *, const struct store_records *))
{
    struct store_writer writer;
    uint32_t answer = store_open_writer(&writer, "cache", &OPTIONS);
    int error;

    if (answer != SLC1_DONE)
        return answer;
    answer = call(&writer, records);
    error = errno;
    store_close_writer(&writer);
    return with_errno(answer, error);
}

static uint32_t update(const struct store_records *records)
{
    return written(records, store_update);
}

static uint32_t rebuild(const struct store_records *records)
{
    return written(records, store_rebuild);
}

static uint32_t rebuild_larger_now(struct store_writer *writer, const struct store_records *records)
{
    writer->slot_capacity = OPTIONS.slot_capacity + MORE;
    return store_rebuild(writer, records);
}

static uint32_t rebuild_larger(const struct store_records *records)
{
    return written(records, rebuild_larger_now);
}

/* Where an operation begins, and where it ends if nothing fails. */
struct work {
    const char *name;
    uint32_t (*run)(const struct store_records *records);
    const struct bytes *before; /* NULL: no file */
    struct bytes after;
};

static struct store_records some;

static void prepare(const struct work *work)
{
    unlink("cache");
    unlink("cache.rebuilding");
    if (work->before != NULL) {
        write_file("cache", work->before->bytes, work->before->length);
        holds(geteuid() != 0 || chown("cache", 1234, 4321) == 0); /* a rebuild has an owner to keep */
    }
}

/* Runs the work with a failure, and gives back its answer. Nothing of the process is left behind. */
static uint32_t run(const struct work *work, enum how how, long chosen)
{
    int before = descriptors(), error;
    sigset_t mask;
    uint32_t answer;

    snprintf(doing, sizeof doing, "(%s, failure %d at call %ld)", work->name, (int)how, chosen);
    prepare(work);
    arm(how, chosen);
    errno = 0;
    answer = work->run(&some);
    error = errno;
    plan.armed = false;
    same(before, descriptors());
    same(0, count_held());
    holds(sigprocmask(SIG_SETMASK, NULL, &mask) == 0 && !sigismember(&mask, SIGINT) && !sigismember(&mask, SIGPIPE));
    holds(access("cache.rebuilding", F_OK) != 0);
    holds(answer != STORE_FAILED || error == plan.error);
    return answer;
}

static bool is_done(const struct work *work)
{
    return access("cache", F_OK) == 0 && is_contents("cache", &work->after);
}

static bool is_untouched(const struct work *work)
{
    return work->before == NULL ? access("cache", F_OK) != 0 : is_contents("cache", work->before);
}

static bool needs_rebuild(void)
{
    slc1_options options = OPTIONS;

    options.slot_capacity = 0; /* as the header says */
    return contents_answer("cache", &options) == SLC1_NEEDS_REBUILD;
}

/* What a dead writer left may be struck out, its generation made odd, and nothing else. */
static bool is_struck_out(const struct work *work)
{
    bool is;

    if (work->before == NULL || access("cache", F_OK) != 0)
        return false;
    flip("cache", SLC1_GENERATION_AT);
    is = is_untouched(work);
    flip("cache", SLC1_GENERATION_AT);
    return is && needs_rebuild();
}

static size_t owners; /* that a new file could not be given to */

/* A failure ends in the number for it, and in the file as it was, or done, or (an update) in need of a rebuild. */
static void ends_well(const struct work *work, uint32_t answer)
{
    holds(answer == SLC1_DONE || answer == (plan.kind == OWNER ? STORE_OTHER_OWNER : STORE_FAILED));
    owners += answer == STORE_OTHER_OWNER;
    if (answer == SLC1_DONE) /* tried again */
        holds(is_done(work));
    else if (work->before == NULL)
        holds(is_untouched(work));
    else
        holds(is_untouched(work) || is_done(work) || is_struck_out(work) ||
              (work->run == update && needs_rebuild()));
}

static size_t failures;

/* Each call of the work fails once; then the disk is full from each on; then each is interrupted, or does half. */
static void fail_each(struct work *work)
{
    long calls;

    same(SLC1_DONE, run(work, ONCE, 0));
    calls = plan.calls;
    holds(calls > 5);
    work->after = contents("cache");
    for (long chosen = 1; chosen <= calls; chosen++) {
        for (enum how how = ONCE; how <= FROM_THEN_ON; how++, failures++)
            ends_well(work, run(work, how, chosen));
        for (enum how how = INTERRUPTED; how <= SHORTENED; how++) {
            same(SLC1_DONE, run(work, how, chosen));
            holds(is_done(work));
        }
    }
    free(work->after.bytes);
}

/* A file with changes in the first half of its bytes and in the second. */
static struct bytes updated(const struct bytes *before)
{
    struct store_records many = puts_of(&OPTIONS, OPTIONS.slot_capacity, 2);
    struct bytes after;

    write_file("cache", before->bytes, before->length);
    same(SLC1_DONE, update(&many));
    after = contents("cache");
    holds(memcmp(before->bytes + after.length / 2, after.bytes + after.length / 2, after.length / 2) != 0);
    free(many.bytes);
    return after;
}

/* A reader that stays open, whose copy fails or breaks off when the file has changed: the next one is whole. */
static void broken_copies(const struct bytes *before, const struct bytes *after, enum how how)
{
    struct store_reader reader;
    uint32_t answer;
    long chosen = 0;

    do {
        write_file("cache", before->bytes, before->length);
        same(SLC1_DONE, store_open_reader(&reader, "cache", &OPTIONS, 0));
        same(SLC1_DONE, store_read(&reader));
        write_file("cache", after->bytes, after->length);
        arm(how, ++chosen);
        answer = store_read(&reader);
        plan.armed = false;
        holds(answer == SLC1_DONE || (answer == STORE_FAILED && plan.error != 0));
        if (answer == STORE_FAILED) {
            holds(reader.image.length == 0 || reader.image.length == before->length);
            holds(reader.image.bytes != NULL && memcmp(reader.image.bytes, before->bytes, reader.image.length) == 0);
            same(SLC1_DONE, store_read(&reader));
        }
        holds(reader.image.length == after->length && memcmp(reader.image.bytes, after->bytes, after->length) == 0);
        store_close_reader(&reader);
        failures += plan.error != 0;
    } while (plan.calls >= chosen);
}

/* What another program makes of the file. */
static struct bytes grown;

static void grow(void)
{
    write_file("cache", grown.bytes, grown.length);
}

/* A file that has the first bytes of a good one, and grows before any call of a reader or writer, to the good one or to a byte
 * more: it is taken only where it is whole. */
static void growing(const struct bytes *good)
{
    const size_t lengths[] = {0, 40, 72, 255, 256, 4096, good->length - 1};
    uint32_t answer;
    long chosen;

    grown = (struct bytes){calloc(1, good->length + 1), 0};
    holds(grown.bytes != NULL);
    memcpy(grown.bytes, good->bytes, good->length);
    for (size_t i = 0; i < 4 * COUNT(lengths); i++) {
        grown.length = good->length + i % 2;
        chosen = 0;
        do {
            write_file("cache", good->bytes, lengths[i / 4]);
            arm(UNHARMED, ++chosen);
            plan.before = grow;
            answer = i / 2 % 2 == 0 ? read_twice(&some) : update(&some);
            plan.armed = false;
            holds(answer == SLC1_NEEDS_REBUILD || answer == SLC1_CREATE_IT || (answer == SLC1_DONE && i % 2 == 0));
        } while (plan.calls >= chosen);
    }
    free(grown.bytes);
}

/* A file that a partner made, with other slots and buckets, and that was updated since. */
static struct bytes partners(void)
{
    slc1_options options = OPTIONS;
    struct bytes image;

    options.slot_capacity += MORE;
    image = partners_image(&options, 4096);
    write_file("cache", image.bytes, image.length);
    same(SLC1_DONE, update(&some));
    free(image.bytes);
    return contents("cache");
}

/* Where others hold the lock, a writer gives up, and a reader goes by what it sees. */
static void locked(const struct bytes *good)
{
    struct work reading = {"read", read_twice, good, {NULL, 0}}, updating = {"update", update, good, {NULL, 0}},
                rebuilding = {"rebuild", rebuild, good, {NULL, 0}};

    same(SLC1_DONE, run(&reading, LOCKED, 0));
    same(SLC1_BUSY, run(&updating, LOCKED, 0));
    same(SLC1_BUSY, run(&rebuilding, LOCKED, 0));
    holds(is_untouched(&rebuilding));
}

int main(int count, char **words)
{
    struct bytes empty = {(uint8_t *)"", 0}, good, later, dirty, other;

    if (count != 2 || chdir(words[1]) != 0)
        return 64;
    some = puts_of(&OPTIONS, 100, 1);
    holds(store_create("cache", &OPTIONS) == SLC1_DONE && update(&some) == SLC1_DONE);
    good = contents("cache");
    later = updated(&good);
    other = partners();
    dirty = (struct bytes){malloc(good.length), good.length};
    holds(dirty.bytes != NULL);
    memcpy(dirty.bytes, good.bytes, good.length);
    dirty_image(&dirty, &OPTIONS);
    free(some.bytes);
    some = puts_of(&OPTIONS, 100, 2);
    struct work works[] = {{"create", create, NULL, {NULL, 0}},     {"create", create, &empty, {NULL, 0}},
                           {"read", read_twice, &good, {NULL, 0}},  {"update", update, &good, {NULL, 0}},
                           {"rebuild", rebuild, &good, {NULL, 0}},  {"rebuild", rebuild, &empty, {NULL, 0}},
                           {"rebuild", rebuild, &dirty, {NULL, 0}},
                           {"rebuild with more slots", rebuild_larger, &good, {NULL, 0}},
                           {"read a partner's", read_twice, &other, {NULL, 0}},
                           {"update a partner's", update, &other, {NULL, 0}},
                           {"rebuild a partner's", rebuild, &other, {NULL, 0}}};

    for (size_t i = 0; i < COUNT(works); i++)
        fail_each(&works[i]);
    broken_copies(&good, &later, ONCE);
    broken_copies(&good, &later, BROKEN_OFF);
    broken_copies(&good, &other, ONCE);
    broken_copies(&other, &good, ONCE);
    growing(&good);
    locked(&good);
    holds(geteuid() != 0 || owners > 0);
    free(some.bytes);
    free(good.bytes);
    free(later.bytes);
    free(dirty.bytes);
    free(other.bytes);
    printf("the store survives: %zu failures, %zu comparisons\n", failures, comparisons);
    return 0;
}
