/* The store of examples/store.h by itself: the numbers that its calls answer, and what they leave in files. bench_test.py
 * tests it as a part of bench.
 *
 * usage: store_test FOLDER
 *   FOLDER is an empty folder, where the files are made. */
#define _DEFAULT_SOURCE /* POSIX, and mknod, under -std=c11 */

#include <errno.h>
#include <fcntl.h>
#include <signal.h>
#include <stdbool.h>
#include <stdio.h>
#include <stdlib.h>
#include <string.h>
#include <sys/file.h>
#include <sys/stat.h>
#include <unistd.h>

#include "store_calls.h"

/* Numbers. */

static void texts(void)
{
    static const uint32_t ANSWERS[] = {0, 1, 2, 3, 4, 5, 6, 7, 8, 9, 10, 11, 12, 31, 32, 33, 34, 35, 36, 37, UINT32_MAX};

    for (size_t i = 0; i < COUNT(ANSWERS); i++)
        holds(store_text(ANSWERS[i]) != NULL && *store_text(ANSWERS[i]) != '\0');
    for (uint32_t answer = STORE_FAILED; answer < STORE_IN_THE_WAY; answer++)
        holds(strcmp(store_text(answer), store_text(answer + 1)) != 0);
}

/* A reader, a writer and a create on a path each give this number, and errno if it is asked for. */
static void all_refuse(const char *path, uint32_t wanted, int error)
{
    struct store_reader reader;
    struct store_writer writer;

    same(SLC1_DONE, store_open_reader(&reader, path, &SMALL, 0));
    errno = 0;
    same(wanted, store_read(&reader));
    holds(error == 0 || errno == error);
    store_close_reader(&reader);
    errno = 0;
    same(wanted, store_open_writer(&writer, path, &SMALL));
    holds(error == 0 || errno == error);
}

static void files_of_other_kinds(void)
{
    all_refuse("missing", STORE_FAILED, ENOENT);
    all_refuse("missing/cache", STORE_FAILED, ENOENT);
    same(STORE_FAILED, store_create("missing/cache", &SMALL));
    same(ENOENT, errno);
    holds(mkdir("folder", 0777) == 0 && mkfifo("pipe", 0666) == 0 && mknod("socket", S_IFSOCK | 0666, 0) == 0);
    holds(symlink("folder", "link to a folder") == 0);
    for (const char *const *path = (const char *const[]){"folder", "pipe", "socket", "/dev/null", "link to a folder", NULL};
         *path != NULL; path++) {
        all_refuse(*path, STORE_NOT_REGULAR, 0);
        same(STORE_NOT_REGULAR, store_create(*path, &SMALL));
    }
}

static void options_out_of_range(void)
{
    static const slc1_options WRONG[] = {{0, 20, 512, 1, 0, 0},   {65, 20, 512, 1, 0, 0}, {12, 257, 512, 1, 0, 0},
                                         {12, 20, 512, 1, 2, 0},  {12, 20, SLC1_CAPACITY_LIMIT + 1, 1, 0, 0},
                                         {UINT64_MAX, UINT64_MAX, UINT64_MAX, 1, 0, 0}};
    slc1_options odd_role = SMALL;
    struct store_reader reader;
    struct store_writer writer;

    for (size_t i = 0; i < COUNT(WRONG); i++) {
        same(SLC1_INVALID_INPUT, store_open_reader(&reader, "range", &WRONG[i], 0));
        same(SLC1_INVALID_INPUT, store_open_writer(&writer, "range", &WRONG[i]));
        same(SLC1_INVALID_INPUT, store_create("range", &WRONG[i]));
        holds(access("range", F_OK) != 0);
    }
    odd_role.role = 9;
    same(SLC1_DONE, store_create("range", &odd_role));
    same(SLC1_DONE, store_open_reader(&reader, "range", &odd_role, 0));
    same(SLC1_DONE, store_read(&reader));
    same(SLC1_NO_WRITER_KNOWN, reader.image.options.role);
    store_close_reader(&reader);
}

static void creating(void)
{
    struct bytes fresh;

    same(SLC1_DONE, store_create("fresh", &SMALL));
    fresh = contents("fresh");
    same(slc1_total_size(SLC1_OPTIONS(&SMALL)), fresh.length);
    same(STORE_EXISTS, store_create("fresh", &SMALL));
    holds(is_contents("fresh", &fresh));
    write_file("empty", "", 0);
    same(SLC1_DONE, store_create("empty", &SMALL));
    holds(is_contents("empty", &fresh));
    write_file("text", "x", 1);
    same(STORE_EXISTS, store_create("text", &SMALL));
    holds(is_contents("text", &(struct bytes){(uint8_t *)"x", 1}));
    free(fresh.bytes);
}

/* Changes. */

static void records_that_are_refused(void)
{
    struct store_records records = puts_of(&MANY, SLOTS_OF_MANY, 1);
    struct store_writer writer;
    struct bytes before;

    same(SLC1_DONE, store_create("refused", &MANY));
    before = contents("refused");
    records.bytes[(SLC1_BATCH_LIMIT + 10) * record_size(&MANY)] = 2; /* neither a put nor a delete */
    same(SLC1_DONE, store_open_writer(&writer, "refused", &MANY));
    same(SLC1_INVALID_INPUT, store_update(&writer, &records));
    holds(is_contents("refused", &before));
    same(SLC1_INVALID_INPUT, store_rebuild(&writer, &records));
    holds(is_contents("refused", &before) && access("refused.rebuilding", F_OK) != 0);
    store_close_writer(&writer);
    same(SLC1_FULL, update("refused", &MANY, SLOTS_OF_MANY + 1, 1));
    same(SLC1_FULL, rebuild("refused", &MANY, SLOTS_OF_MANY + 1, 1));
    holds(is_contents("refused", &before) && access("refused.rebuilding", F_OK) != 0);
    same(SLC1_DONE, update("refused", &MANY, SLOTS_OF_MANY, 1));
    same(SLC1_DONE, update("refused", &MANY, 0, 1));
    free(before.bytes);
    free(records.bytes);
}

/* A writer that has rebuilt goes on with the new file, whose lock it holds. */
static void update_after_a_rebuild(void)
{
    struct store_records first = puts_of(&SMALL, 3, 1), further = puts_of(&SMALL, 100, 2);
    struct store_writer writer;
    struct bytes updated;
    int file;

    same(SLC1_DONE, store_create("rebuilt", &SMALL));
    same(SLC1_DONE, store_open_writer(&writer, "rebuilt", &SMALL));
    same(SLC1_DONE, store_rebuild(&writer, &first));
    same(SLC1_DONE, store_update(&writer, &further));
    updated = contents("rebuilt");
    holds(updated.length == writer.image.length && memcmp(updated.bytes, writer.image.bytes, updated.length) == 0);
    same(100, slc1_full_check_live(STORE_LENT(&writer.image)));
    file = open("rebuilt", O_RDWR);
    holds(flock(file, LOCK_EX | LOCK_NB) != 0 && errno == EWOULDBLOCK);
    store_close_writer(&writer);
    holds(flock(file, LOCK_EX | LOCK_NB) == 0 && close(file) == 0);
    free(updated.bytes);
    free(first.bytes);
    free(further.bytes);
}

/* A file that is shorter or longer than its image is not read or changed, and a rebuild makes it exactly as long. */
static void lengths(void)
{
    enum { MOST = 1000 };
    static const int DIFFERENCES[] = {-1, -100, 1, 8, MOST};
    struct store_reader reader;
    struct store_writer writer;
    struct bytes whole, other;

    same(SLC1_DONE, store_create("length", &SMALL));
    whole = contents("length");
    other.bytes = calloc(1, whole.length + MOST);
    holds(other.bytes != NULL);
    memcpy(other.bytes, whole.bytes, whole.length);
    for (size_t i = 0; i < COUNT(DIFFERENCES); i++) {
        write_file("length", whole.bytes, whole.length);
        same(SLC1_DONE, store_open_reader(&reader, "length", &SMALL, 0));
        same(SLC1_DONE, store_read(&reader));
        other.length = whole.length + (size_t)DIFFERENCES[i];
        write_file("length", other.bytes, other.length);
        same(SLC1_NEEDS_REBUILD, store_read(&reader)); /* though the header is the same */
        same(other.length, reader.image.length);
        same(whole.length, store_shape_of(&reader.image, 1).total);
        store_close_reader(&reader);
        same(SLC1_DONE, store_open_writer(&writer, "length", &SMALL));
        same(other.length, writer.image.length);
        same(SLC1_NEEDS_REBUILD, store_judge(&writer));
        store_close_writer(&writer);
        same(SLC1_NEEDS_REBUILD, update("length", &SMALL, 3, 1));
        holds(is_contents("length", &other));
        same(SLC1_DONE, rebuild("length", &SMALL, 0, 1));
        holds(is_contents("length", &whole));
    }
    free(other.bytes);
    free(whole.bytes);
}

/* A file that has taken the name since the writer opened its own is not replaced. */
static void another_file_of_the_name(void)
{
    struct store_records records = puts_of(&SMALL, 3, 1);
    struct store_writer writer;

    same(SLC1_DONE, store_create("moved", &SMALL));
    same(SLC1_DONE, store_open_writer(&writer, "moved", &SMALL));
    holds(rename("moved", "moved away") == 0);
    write_file("moved", "a thesis", 8);
    same(SLC1_BUSY, store_rebuild(&writer, &records));
    holds(is_contents("moved", &(struct bytes){(uint8_t *)"a thesis", 8}) && access("moved.rebuilding", F_OK) != 0);
    same(SLC1_CREATE_IT, store_update(&writer, &records));
    store_close_writer(&writer);
    free(records.bytes);
}

static void hard_links(void)
{
    struct bytes before;

    same(SLC1_DONE, store_create("linked", &SMALL));
    holds(link("linked", "other name") == 0);
    before = contents("linked");
    same(STORE_HARD_LINKS, rebuild("linked", &SMALL, 3, 1));
    holds(is_contents("linked", &before) && is_contents("other name", &before) && access("linked.rebuilding", F_OK) != 0);
    same(SLC1_DONE, update("linked", &SMALL, 3, 1));
    free(before.bytes);
    before = contents("linked");
    holds(is_contents("other name", &before));
    free(before.bytes);
}

static void other_files_are_not_replaced(void)
{
    slc1_options other = SMALL;

    other.user_version = 2;
    same(SLC1_DONE, store_create("other", &other));
    same(SLC1_INCOMPATIBLE, rebuild("other", &SMALL, 3, 1));
    write_file("text", "serial,revision,gain\n", 21);
    same(SLC1_INCOMPATIBLE, rebuild("text", &SMALL, 3, 1));
    holds(is_contents("text", &(struct bytes){(uint8_t *)"serial,revision,gain\n", 21}));
    write_file("text", "", 0);
    same(SLC1_DONE, rebuild("text", &SMALL, 3, 1));
}

/* While an update is written these signals wait, and no others; none while it is tried on a copy. */
static void see_mask(size_t done, size_t all)
{
    static const int WAITING[] = {SIGINT, SIGTERM, SIGHUP, SIGPIPE, SIGTSTP, SIGTTOU};
    sigset_t mask;

    holds(done <= all && sigprocmask(SIG_SETMASK, NULL, &mask) == 0);
    for (int number = 1; number < 32; number++) {
        bool waits = false;

        for (size_t i = 0; i < COUNT(WAITING); i++)
            waits |= number == WAITING[i] && done > all / 2;
        same(waits, (uint64_t)sigismember(&mask, number));
    }
}

static void signals_within(void)
{
    struct store_records records = puts_of(&SMALL, 100, 1);
    struct store_writer writer;

    same(SLC1_DONE, store_create("within", &SMALL));
    same(SLC1_DONE, store_open_writer(&writer, "within", &SMALL));
    writer.progress = see_mask;
    same(SLC1_DONE, store_update(&writer, &records));
    store_close_writer(&writer);
    free(records.bytes);
}

/* A change leaves the caller's signals as they were. */
static void signals(void)
{
    sigset_t before, after;

    sigemptyset(&before);
    sigaddset(&before, SIGUSR1);
    sigaddset(&before, SIGHUP);
    holds(sigprocmask(SIG_SETMASK, &before, NULL) == 0);
    same(SLC1_DONE, store_create("signals", &SMALL));
    same(SLC1_DONE, update("signals", &SMALL, 100, 1));
    same(SLC1_DONE, rebuild("signals", &SMALL, 100, 2));
    holds(sigprocmask(SIG_SETMASK, NULL, &after) == 0);
    for (int number = 1; number < 32; number++)
        holds(sigismember(&before, number) == sigismember(&after, number));
    sigemptyset(&before);
    sigprocmask(SIG_SETMASK, &before, NULL);
}

int main(int count, char **words)
{
    static void (*const TESTS[])(void) = {texts, files_of_other_kinds, options_out_of_range, creating,
                                          records_that_are_refused, update_after_a_rebuild, lengths, another_file_of_the_name,
                                          hard_links, other_files_are_not_replaced, signals_within, signals};

    if (count != 2)
        return 64;
    run_tests(TESTS, COUNT(TESTS), words[1]);
    printf("the store answers: %zu comparisons\n", comparisons);
    return 0;
}
