/* bench: the certificates of sensors in an SLC1 slot cache. A host for slc1.h, in C11 and POSIX: the commands. Its files
 * of certificates are read by certificates.c, its caches kept by store.c. */
#define _POSIX_C_SOURCE 200809L /* under -std=c11 */

#include <errno.h>
#include <fcntl.h>
#include <inttypes.h>
#include <limits.h>
#include <poll.h>
#include <signal.h>
#include <stdarg.h>
#include <stdbool.h>
#include <stdio.h>
#include <stdlib.h>
#include <string.h>
#include <sys/stat.h>
#include <unistd.h>

#include "certificates.h"
#include "slc1.h"
#include "store.h"

#define TEXT(number) TEXT_AS_GIVEN(number)
#define TEXT_AS_GIVEN(number) #number

static const char USAGE[] =
    "usage: bench create FILE                       make an empty cache\n"
    "       bench load FILE CERTIFICATES.csv        put every certificate into it\n"
    "       bench rebuild FILE CERTIFICATES.csv     make it anew, of these certificates and no other\n"
    "       bench compare FILE CERTIFICATES.csv     show what differs\n"
    "       bench get FILE SERIAL                   show one certificate\n"
    "       bench find FILE HALF-A-SERIAL           show every certificate whose serial begins so\n"
    "       bench list FILE                         show all certificates, as load reads them\n"
    "       bench export FILE CERTIFICATES.csv      write them to a new file\n"
    "       bench check FILE                        make the full check, compare the checksum, show slots and buckets\n"
    "       bench drop FILE SERIAL                  delete one certificate\n"
    "       bench --help, bench --version\n"
    "\n"
    "Right after load or rebuild, --older takes certificates that are older than the cache's or than an earlier line's, or\n"
    "have another gain for the cache's revision, and --progress shows how far it is, as on a terminal.\n"
    "Right after create or rebuild, --capacity N makes a cache of N slots, 1 to " TEXT(SLC1_CAPACITY_LIMIT)
    ", one for each serial; without it\n"
    "create makes one of 512, and rebuild one of as many as there were.\n"
    "\n"
    "CERTIFICATES.csv has lines serial,revision,gain, each with a line feed: a serial of 12 characters; a whole number; and\n"
    "a number of 1 to 20 characters, digits with or without a sign, and perhaps a point with digits on both sides.\n"
    "\n"
    "exit status: 0 done, found or the same, 1 needs rebuild or (compare) not the same, 2 incompatible, 3 invalidated,\n"
    "             4 busy, 5 full, 7 invalid input, 9 not present, 10 empty file, 64 wrong usage, 74 input or output failed\n";

enum { EXIT_USAGE = 64 };

/* What stands right after the command. */
enum { OLDER = 1, PROGRESS = 2, CAPACITY = 4, ALL_OPTIONS = OLDER | PROGRESS | CAPACITY };
static int wanted;
static uint64_t wanted_capacity; /* with CAPACITY */

/* Sentences. */

_Noreturn void fail(int status, const char *format, ...)
{
    va_list arguments;

    fputs("bench: ", stderr);
    va_start(arguments, format);
    vfprintf(stderr, format, arguments);
    va_end(arguments);
    fputc('\n', stderr);
    exit(status);
}

_Noreturn void fail_io(const char *path, const char *call)
{
    fail(EXIT_IO, "%s: %s: %s", path, call, strerror(errno));
}

/* What to do about an answer, said of the file. */
static const char *const SENTENCES[] = {
    [SLC1_NEEDS_REBUILD] = "needs a rebuild: run bench rebuild with all certificates",
    [SLC1_INCOMPATIBLE] = "is incompatible, of another format or with other options: name another, or move this one away",
    [SLC1_INVALIDATED] = "was given up: run bench rebuild with all certificates",
    [SLC1_BUSY] = "is busy, a writer is active: try again",
    [SLC1_FULL] = "is full",
    [SLC1_OUT_OF_ORDER] = "is ordered, and a new serial is below its last: load the certificates in order of their serials",
    [SLC1_INVALID_INPUT] = "was not looked at, the input is invalid: see bench --help",
    [SLC1_NOT_PRESENT] = "has no certificate of this serial: see whether it is typed rightly, or load its certificate",
    [SLC1_CREATE_IT] = "is an empty file: run bench create",
    [SLC1_TOO_SHORT] = "lists more than there is room for: this is an error of bench",
};

static _Noreturn void refuse_existing(const char *path)
{
    fail(SLC1_INVALID_INPUT, "%s exists: name another file, or move this one away", path);
}

/* Says what an answer asks for. The answer is the exit status, but for the store's own. */
static int answered(uint32_t answer, const char *path)
{
    if (answer == STORE_FAILED)
        fail(EXIT_IO, "%s: %s", path, strerror(errno));
    if (answer == STORE_EXISTS)
        refuse_existing(path);
    if (answer >= sizeof SENTENCES / sizeof *SENTENCES)
        fail(EXIT_IO, "%s %s", path, store_text(answer));
    if (SENTENCES[answer] != NULL)
        fprintf(stderr, "bench: %s %s\n", path, SENTENCES[answer]);
    return (int)answer;
}

static void require_done(uint32_t answer, const char *path)
{
    if (answer != SLC1_DONE)
        exit(answered(answer, path));
}

static const char *plural(uint64_t count)
{
    return count == 1 ? "" : "s";
}

/* Whether a file is longer or shorter than its slots and buckets ask for, and what these are. */
static void warn_of_length(const struct store_image *image, const char *path)
{
    struct store_shape shape = store_shape_of(image, OPTIONS.slot_capacity);
    char buckets[40] = "";

    if (image->length == shape.total)
        return;
    if (shape.buckets > 0)
        snprintf(buckets, sizeof buckets, " and %" PRIu64 " buckets", shape.buckets);
    fprintf(stderr, "bench: %s is %s than a cache of %" PRIu64 " slot%s%s, which has exactly %" PRIu64 " bytes\n", path,
            image->length > shape.total ? "longer" : "shorter", shape.slots, plural(shape.slots), buckets, shape.total);
}

/* What is wrong with a file beside what its answer says: its length, where it is to be rebuilt, and its checksum. */
static void warn_of(const struct store_image *image, const char *path)
{
    uint32_t answer = slc1_open_check(STORE_LENT(image));

    if (answer == SLC1_NEEDS_REBUILD || answer == SLC1_INVALIDATED)
        warn_of_length(image, path);
    if (image->checksum == STORE_NO_MARK)
        fprintf(stderr, "bench: %s has no checksum, a changed gain would not be noticed: load or rebuild adds one\n", path);
    if (image->checksum == STORE_WRONG)
        fprintf(stderr, "bench: %s has a wrong checksum: bytes have changed since they were written\n", path);
}

/* More serials than slots; or no more, but with those that are deleted. */
static _Noreturn void refuse_full(const char *path, uint64_t slots, size_t serials, uint64_t live)
{
    if (serials > SLC1_CAPACITY_LIMIT)
        fail(SLC1_FULL, "%s is full: no cache has more than %d slots, and %zu serials are too many by %zu: drop those that are "
             "no longer in use, or keep some in a second cache", path, SLC1_CAPACITY_LIMIT, serials,
             serials - SLC1_CAPACITY_LIMIT);
    if (serials > slots)
        fail(SLC1_FULL, "%s is full: it has %" PRIu64 " slot%s, and %zu serials are too many by %zu: drop those that are no "
             "longer in use, or run bench rebuild --capacity %zu with all certificates", path, slots, plural(slots), serials,
             serials - (size_t)slots, serials);
    if (live == 0)
        fail(SLC1_FULL, "%s is full of deleted certificates, which keep their slots: run bench rebuild", path);
    fail(SLC1_FULL, "%s is full: deleted certificates keep their slots. To free these, run bench export %s ALL.csv and bench "
         "rebuild %s ALL.csv, and then load again", path, path, path);
}

/* Certificates shown. */

/* Bytes as text. In a damaged image they can be any: what would not print, or not be read back, is spelled out. */
static void show_text(FILE *out, const uint8_t *bytes, size_t length)
{
    for (size_t i = 0; i < length; i++) {
        if (bytes[i] > ' ' && bytes[i] <= '~' && bytes[i] != ',')
            putc(bytes[i], out);
        else
            fprintf(out, "\\x%02x", bytes[i]);
    }
}

/* The parts of a slot or a record, as a line or as a sentence. All of it is read in the one slot, its serial too. */
static void show_parts(FILE *out, const uint8_t *slot, const char *between, const char *before_gain)
{
    size_t gain_length = INDEX_SIZE;

    while (gain_length > 0 && slot[INDEX_AT + gain_length - 1] == 0)
        gain_length--;
    show_text(out, slot + SLC1_KEY_AT, KEY_SIZE);
    fprintf(out, "%s%" PRId64 "%s", between, (int64_t)slc1_word_at(slot + REVISION_AT), before_gain);
    show_text(out, slot + INDEX_AT, gain_length);
}

/* As a line of a file of certificates. */
static void show_line(FILE *out, const uint8_t *slot)
{
    show_parts(out, slot, ",", ",");
    putc('\n', out);
}

static const uint8_t *slot_in(const struct store_image *image, uint64_t number)
{
    return image->bytes + slc1_key_offset(SLC1_OPTIONS(&image->options), number) - SLC1_KEY_AT;
}

/* As a sentence, without a line feed. */
static void show_slot(const struct store_image *image, uint64_t number)
{
    char between[40];

    snprintf(between, sizeof between, " slot %" PRIu64 " revision ", number);
    show_parts(stdout, slot_in(image, number), between, " gain ");
}

/* Caches read. */

/* Copies a cache, and judges its checksum however large it is. What the store can't do ends the program; other answers are
 * handed back. */
static uint32_t read_cache(struct store_reader *reader, const char *path)
{
    uint32_t answer;

    require_done(store_open_reader(reader, path, &OPTIONS, STORE_VERIFY), path);
    answer = store_read(reader);
    if (answer >= STORE_FAILED)
        exit(answered(answer, path));
    warn_of(&reader->image, path);
    return answer;
}

/* Live slots, in order. */
struct slots {
    uint64_t count;
    uint32_t *numbers;
};

/* Lists the slots whose serials begin so, and with an empty start all. The caller frees the numbers, whatever the answer is. */
static uint32_t list_slots(struct slots *slots, const struct store_image *image, const char *start)
{
    uint64_t results[SLC1_LISTING_RESULTS], room = slc1_image_capacity(STORE_LENT(image));
    uint32_t answer;

    slots->numbers = grown(NULL, (size_t)room * sizeof *slots->numbers);
    if (*start == '\0')
        answer = slc1_scan_results(STORE_LENT(image), 0, room, slots->numbers, (size_t)room, results, SLC1_LISTING_RESULTS);
    else
        answer = slc1_match_results(STORE_LENT(image), 0, 0, (const uint8_t *)start, strlen(start), 0, room, slots->numbers,
                                    (size_t)room, results, SLC1_LISTING_RESULTS);
    slots->count = results[2];
    return answer;
}

static int get(char **words)
{
    struct store_reader reader;
    uint32_t answer;
    uint64_t slot, buckets;

    require_serial("", words[1]);
    answer = read_cache(&reader, words[0]);
    if (answer == SLC1_DONE &&
        slc1_get(reader.image.bytes, reader.image.length, &reader.image.options, (const uint8_t *)words[1], KEY_SIZE, &answer,
                 &slot, NULL, &buckets) != NULL) {
        show_slot(&reader.image, slot);
        printf(" buckets %" PRIu64 "\n", buckets);
    }
    store_close_reader(&reader);
    return answered(answer, words[0]);
}

static int find(char **words)
{
    size_t length = strlen(words[1]);
    struct slots slots = {0, NULL};
    struct store_reader reader;
    uint32_t answer;

    if (length < 1 || length > KEY_SIZE)
        fail(SLC1_INVALID_INPUT, "'%s' has %zu characters: half a serial has 1 to %d", words[1], length, KEY_SIZE);
    answer = read_cache(&reader, words[0]);
    if (answer == SLC1_DONE)
        answer = list_slots(&slots, &reader.image, words[1]);
    for (uint64_t i = 0; i < slots.count; i++) {
        show_slot(&reader.image, slots.numbers[i]);
        putchar('\n');
    }
    free(slots.numbers);
    store_close_reader(&reader);
    if (answer == SLC1_DONE && slots.count == 0)
        fail(SLC1_NOT_PRESENT, "no serial begins with '%s'", words[1]);
    return answered(answer, words[0]);
}

static void show_lines(FILE *out, const struct store_image *image, const struct slots *slots)
{
    fprintf(out, "%s\n", FIRST_LINE);
    for (uint64_t i = 0; i < slots->count; i++)
        show_line(out, slot_in(image, slots->numbers[i]));
}

static int list(char **words)
{
    struct store_reader reader;
    struct slots slots = {0, NULL};
    uint32_t answer = read_cache(&reader, words[0]);

    if (answer == SLC1_DONE)
        answer = list_slots(&slots, &reader.image, "");
    if (answer == SLC1_DONE)
        show_lines(stdout, &reader.image, &slots);
    free(slots.numbers);
    store_close_reader(&reader);
    return answered(answer, words[0]);
}

/* Whether the lines are on the disk. Closes the file. */
static bool write_lines(FILE *file, const struct store_image *image, const struct slots *slots)
{
    bool done;

    show_lines(file, image, slots);
    done = fflush(file) == 0 && !ferror(file) && fsync(fileno(file)) == 0;
    return fclose(file) == 0 && done;
}

/* The file is there whole or not at all: half of one could be taken for all certificates. */
static void write_file(const char *path, const struct store_image *image, const struct slots *slots)
{
    char new_path[PATH_MAX];
    struct stat status;
    FILE *file;
    int kept;

    if (lstat(path, &status) == 0)
        refuse_existing(path);
    if (snprintf(new_path, sizeof new_path, "%s.%ld", path, (long)getpid()) >= (int)sizeof new_path)
        fail(EXIT_IO, "%s is too long a name", path);
    file = fopen(new_path, "wx");
    if (file == NULL)
        fail_io(new_path, "open");
    if (write_lines(file, image, slots) && rename(new_path, path) == 0)
        return;
    kept = errno;
    unlink(new_path);
    errno = kept;
    fail_io(path, "write");
}

/* Within a load a cache has some of its certificates, which could be taken for all: one that is not CLEAN is busy. */
static int export(char **words)
{
    struct store_reader reader;
    struct slots slots = {0, NULL};
    uint32_t answer = read_cache(&reader, words[0]);

    reader.image.options.role = SLC1_NO_WRITER_KNOWN;
    if (answer == SLC1_DONE && slc1_open_check(STORE_LENT(&reader.image)) != SLC1_DONE)
        answer = SLC1_BUSY;
    if (answer == SLC1_DONE)
        answer = list_slots(&slots, &reader.image, "");
    if (answer == SLC1_DONE) {
        write_file(words[1], &reader.image, &slots);
        printf("%" PRIu64 " certificate%s written to %s\n", slots.count, plural(slots.count), words[1]);
    }
    free(slots.numbers);
    store_close_reader(&reader);
    return answered(answer, words[0]);
}

static int check(char **words)
{
    static const char *const CHECKSUMS[] = {
        [STORE_UNCHECKED] = "unknown", [STORE_NO_MARK] = "none", [STORE_RIGHT] = "right", [STORE_WRONG] = "wrong"};
    struct store_reader reader;
    uint64_t results[SLC1_FULL_CHECK_RESULTS];
    uint32_t answer = read_cache(&reader, words[0]);

    slc1_full_check_results(STORE_LENT(&reader.image), results, SLC1_FULL_CHECK_RESULTS);
    printf("answer %" PRIu64 " live %" PRIu64 " tombstones %" PRIu64 " probes %" PRIu64 " checksum %s slots %" PRIu64
           " buckets %" PRIu64 "\n", results[0], results[1], results[2], results[3], CHECKSUMS[reader.image.checksum],
           slc1_image_capacity(STORE_LENT(&reader.image)), slc1_image_buckets(STORE_LENT(&reader.image)));
    if (results[0] != SLC1_DONE)
        answer = (uint32_t)results[0];
    store_close_reader(&reader);
    return answered(answer, words[0]);
}

/* Revision and gain stand side by side. */
enum { SHOWN_SIZE = INDEX_AT + INDEX_SIZE - REVISION_AT };

/* Whether the cache has this very certificate. Where it has not, both are shown. */
static bool is_there(const struct store_image *cache, const uint8_t *record)
{
    uint64_t slot;

    if (slc1_get(cache->bytes, cache->length, &cache->options, record + SLC1_KEY_AT, KEY_SIZE, NULL, &slot, NULL, NULL) !=
        NULL) {
        if (memcmp(slot_in(cache, slot) + REVISION_AT, record + REVISION_AT, SHOWN_SIZE) == 0)
            return true;
        fputs("- ", stdout);
        show_line(stdout, slot_in(cache, slot));
    }
    fputs("+ ", stdout);
    show_line(stdout, record);
    return false;
}

/* The number of serials that differ, each shown. */
static size_t show_differences(const struct store_image *cache, const struct slots *slots, const struct certificates *all)
{
    size_t count = 0;

    for (size_t i = 0; i < all->records.count; i++)
        count += all->lines[i].decides && !is_there(cache, all->records.bytes + i * RECORD_SIZE);
    for (uint64_t i = 0; i < slots->count; i++) {
        const uint8_t *slot = slot_in(cache, slots->numbers[i]);

        if (!certificates_have(all, slot + SLC1_KEY_AT)) {
            fputs("- ", stdout);
            show_line(stdout, slot);
            count++;
        }
    }
    return count;
}

static int compare(char **words)
{
    struct certificates all = certificates_read(words[1]);
    struct store_reader reader;
    struct slots slots = {0, NULL};
    uint32_t answer = read_cache(&reader, words[0]);
    size_t count = 0;

    if (answer == SLC1_DONE)
        answer = slc1_full_check(STORE_LENT(&reader.image));
    if (answer == SLC1_DONE)
        answer = list_slots(&slots, &reader.image, "");
    if (answer == SLC1_DONE)
        count = show_differences(&reader.image, &slots, &all);
    free(slots.numbers);
    store_close_reader(&reader);
    certificates_free(&all);
    return count > 0 ? EXIT_FAILURE : answered(answer, words[0]);
}

/* Caches written. */

static int create(char **words)
{
    slc1_options options = OPTIONS;

    if (wanted & CAPACITY)
        options.slot_capacity = wanted_capacity;
    require_done(store_create(words[0], &options), words[0]);
    printf("%s created, %" PRIu64 " slot%s\n", words[0], options.slot_capacity, plural(options.slot_capacity));
    return SLC1_DONE;
}

/* A line for each hundredth, and none where it would have to wait, or where nobody reads: the cache is not whole meanwhile.
 * On a terminal the next one, or a complaint, is written over it. */
static void show_progress(size_t done, size_t all)
{
    static size_t shown;
    bool stays = done == all || !isatty(STDERR_FILENO);
    struct pollfd err = {STDERR_FILENO, POLLOUT, 0};
    size_t hundredths = done * 100 / all;

    if (all > 2 * SLC1_BATCH_LIMIT && hundredths > shown && poll(&err, 1, 0) == 1 && err.revents == POLLOUT)
        fprintf(stderr, "%zu %% done%s", hundredths, stays ? "\n" : "\r");
    shown = hundredths;
}

static void open_cache(struct store_writer *writer, const char *path)
{
    require_done(store_open_writer(writer, path, &OPTIONS), path);
    if (wanted & PROGRESS || isatty(STDERR_FILENO))
        writer->progress = show_progress;
    warn_of(&writer->image, path);
}

/* The certificates of a file, and the lock of a cache. */
static struct certificates prepare(struct store_writer *writer, char **words)
{
    struct certificates all = certificates_read(words[1]);

    if (!(wanted & OLDER))
        certificates_refuse_older_lines(&all);
    open_cache(writer, words[0]);
    if (!(wanted & OLDER) && store_judge(writer) == SLC1_DONE)
        certificates_refuse_older(&all, &writer->image, words[0]);
    return all;
}

static uint64_t live(const struct store_writer *writer)
{
    return slc1_full_check_live(STORE_LENT(&writer->image));
}

static int load(char **words)
{
    struct store_writer writer;
    struct certificates all = prepare(&writer, words);
    uint32_t answer = store_update(&writer, &all.records);

    if (answer == SLC1_FULL)
        refuse_full(words[0], slc1_image_capacity(STORE_LENT(&writer.image)),
                    live(&writer) + certificates_count(&all, &writer.image), live(&writer));
    if (answer == SLC1_DONE)
        printf("%zu certificate%s loaded, %" PRIu64 " live\n", all.records.count, plural(all.records.count), live(&writer));
    store_close_writer(&writer);
    certificates_free(&all);
    return answered(answer, words[0]);
}

static int rebuild(char **words)
{
    struct store_writer writer;
    struct certificates all = prepare(&writer, words);
    size_t count = certificates_count(&all, NULL);
    uint32_t answer;

    if (wanted & CAPACITY)
        writer.slot_capacity = wanted_capacity;
    answer = store_rebuild(&writer, &all.records);
    if (answer == SLC1_FULL)
        refuse_full(words[0], writer.slot_capacity, count, 0);
    if (answer == SLC1_DONE)
        printf("%s rebuilt: %zu certificate%s\n", words[0], count, plural(count));
    store_close_writer(&writer);
    certificates_free(&all);
    return answered(answer, words[0]);
}

static int drop(char **words)
{
    const uint8_t *serial = (const uint8_t *)words[1];
    uint8_t record[RECORD_SIZE];
    const struct store_records records = {record, 1};
    struct store_writer writer;
    uint32_t answer;

    require_serial("", words[1]);
    slc1_delete_record(record, sizeof record, &OPTIONS, serial, KEY_SIZE);
    open_cache(&writer, words[0]);
    answer = store_judge(&writer);
    if (answer == SLC1_DONE)
        answer = slc1_lookup(STORE_LENT(&writer.image), serial, KEY_SIZE);
    if (answer == SLC1_DONE)
        answer = store_update(&writer, &records);
    if (answer == SLC1_DONE)
        printf("%s dropped, %" PRIu64 " live\n", words[1], live(&writer));
    store_close_writer(&writer);
    return answered(answer, words[0]);
}

/* The program. */

/* Where one of the three standard descriptors is closed, a cache could be opened as it, and what is printed go there.
 * Each is then opened on nothing, so that its use still fails. */
static void open_standard_descriptors(void)
{
    for (int file = STDIN_FILENO; file <= STDERR_FILENO; file++) {
        if (fcntl(file, F_GETFD) < 0 && open("/dev/null", file == STDIN_FILENO ? O_WRONLY : O_RDONLY) != file)
            _exit(EXIT_IO);
    }
}

static const struct command {
    const char *name;
    int words;
    int options;
    int (*run)(char **words);
} COMMANDS[] = {
    {"create", 1, CAPACITY, create},   {"load", 2, OLDER | PROGRESS, load}, {"rebuild", 2, ALL_OPTIONS, rebuild},
    {"compare", 2, 0, compare},        {"get", 2, 0, get},                  {"find", 2, 0, find},
    {"list", 1, 0, list},              {"export", 2, 0, export},            {"check", 1, 0, check},
    {"drop", 2, 0, drop},
};

static const struct option {
    const char *name;
    int option;
} OPTION_NAMES[] = {{"--older", OLDER}, {"--progress", PROGRESS}, {"--capacity", CAPACITY}};

/* Digits alone: strtoull would take a sign and blanks too. */
static uint64_t require_capacity(const char *text)
{
    unsigned long long slots = strtoull(text, NULL, 10);

    if (text[strspn(text, "0123456789")] != '\0' || slots < 1 || slots > SLC1_CAPACITY_LIMIT)
        fail(SLC1_INVALID_INPUT, "--capacity '%s' is not a number of slots: give one from 1 to %d", text, SLC1_CAPACITY_LIMIT);
    return slots;
}

/* Which option of the command a word is, or 0. */
static int option_of(const struct command *command, const char *word)
{
    for (size_t i = 0; i < sizeof OPTION_NAMES / sizeof *OPTION_NAMES; i++) {
        if (strcmp(word, OPTION_NAMES[i].name) == 0)
            return OPTION_NAMES[i].option & command->options;
    }
    return 0;
}

/* Takes the options at the start of a command's words, and gives back the others. */
static char **without_options(const struct command *command, char **words)
{
    int option;

    while (*words != NULL && (option = option_of(command, *words)) != 0) {
        wanted |= option;
        words++;
        if (option == CAPACITY && *words != NULL)
            wanted_capacity = require_capacity(*words++);
    }
    return words;
}

/* Runs a command with the words behind it, ended by NULL. */
static int run(const struct command *command, char **words)
{
    int count = 0;

    words = without_options(command, words);
    while (words[count] != NULL)
        count++;
    if (count == command->words && strncmp(*words, "--", 2) != 0)
        return command->run(words);
    fputs(USAGE, stderr);
    return EXIT_USAGE;
}

static int run_words(char **words)
{
    if (words[0] != NULL && words[1] == NULL && strcmp(words[0], "--help") == 0)
        return fputs(USAGE, stdout) == EOF;
    if (words[0] != NULL && words[1] == NULL && strcmp(words[0], "--version") == 0)
        return puts("bench " SLC1_VERSION) == EOF;
    for (size_t i = 0; words[0] != NULL && i < sizeof COMMANDS / sizeof *COMMANDS; i++) {
        if (strcmp(words[0], COMMANDS[i].name) == 0)
            return run(&COMMANDS[i], words + 1);
    }
    fputs(USAGE, stderr);
    return EXIT_USAGE;
}

int main(int count, char **words)
{
    int status;

    open_standard_descriptors();
    signal(SIGXFSZ, SIG_IGN); /* a write past a limit fails, and is answered */
    status = run_words(words + (count > 0));
    if (fflush(stdout) != 0 || ferror(stdout))
        fail_io("standard output", "write");
    return status;
}
