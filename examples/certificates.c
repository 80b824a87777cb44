/* certificates.c: files of certificates, read and judged. */
#define _POSIX_C_SOURCE 200809L /* getline, under -std=c11 */

#include <errno.h>
#include <inttypes.h>
#include <limits.h>
#include <stdio.h>
#include <stdlib.h>
#include <string.h>
#include <sys/types.h>

#include "certificates.h"

_Static_assert(LLONG_MAX == INT64_MAX, "strtoll judges the range of a revision");

const slc1_options OPTIONS = {KEY_SIZE, INDEX_SIZE, SLOT_CAPACITY, USER_VERSION, ORDERED, SLC1_NO_WRITER_KNOWN};

/* Where a complaint begins: the file and the line. */
enum { WHERE_SIZE = 300 };

void *grown(void *room, size_t size)
{
    room = realloc(room, size);
    if (room == NULL)
        fail(EXIT_IO, "out of memory");
    return room;
}

static uint8_t *record_of(const struct certificates *all, size_t number)
{
    return all->records.bytes + number * RECORD_SIZE;
}

static const struct line *line_of(const struct certificates *all, const uint8_t *record)
{
    return &all->lines[(size_t)(record - all->records.bytes) / RECORD_SIZE];
}

static int64_t revision_of(const uint8_t *record)
{
    return (int64_t)slc1_word_at(record + REVISION_AT);
}

/* Lines read. */

void require_serial(const char *where, const char *serial)
{
    size_t length = strlen(serial);

    if (length != KEY_SIZE)
        fail(SLC1_INVALID_INPUT, "%sserial '%s' has %zu character%s, not %d", where, serial, length, length == 1 ? "" : "s",
             KEY_SIZE);
}

static int64_t require_revision(const char *where, const char *text)
{
    char *end;
    long long number;

    errno = 0;
    number = strtoll(text, &end, 10);
    if (end == text || *end != '\0' || errno != 0)
        fail(SLC1_INVALID_INPUT, "%srevision '%s' is not a whole number of 64 bits", where, text);
    return number;
}

/* A sign or none, digits, and perhaps a point and further digits. */
static bool is_number(const char *text)
{
    static const char DIGITS[] = "0123456789";
    size_t whole, part = 1;

    text += *text == '+' || *text == '-';
    whole = strspn(text, DIGITS);
    text += whole;
    if (*text == '.') {
        part = strspn(text + 1, DIGITS);
        text += 1 + part;
    }
    return whole > 0 && part > 0 && *text == '\0';
}

static void require_gain(const char *where, const char *text)
{
    if (strlen(text) > INDEX_SIZE)
        fail(SLC1_INVALID_INPUT, "%sgain '%s' has %zu characters, not 1 to %d", where, text, strlen(text), INDEX_SIZE);
    if (!is_number(text))
        fail(SLC1_INVALID_INPUT, "%sgain '%s' is not a number such as +21.523", where, text);
}

/* Room for a further certificate. It is doubled where it is used up: what is copied then stays in proportion to the file. */
static uint8_t *add_line(struct certificates *all, size_t number)
{
    size_t count = all->records.count++;

    if (count == all->room) {
        all->room = count == 0 ? SLC1_BATCH_LIMIT : 2 * count;
        all->records.bytes = grown(all->records.bytes, all->room * RECORD_SIZE);
        all->lines = grown(all->lines, all->room * sizeof *all->lines);
    }
    all->lines[count] = (struct line){number, true};
    return record_of(all, count);
}

/* A line without its end becomes a put. */
static void read_line(uint8_t *record, char *line, const char *where)
{
    uint8_t index[INDEX_SIZE] = {0};
    char *revision = strchr(line, ',');
    char *gain = revision == NULL ? NULL : strchr(revision + 1, ',');

    if (gain == NULL || strchr(gain + 1, ',') != NULL)
        fail(SLC1_INVALID_INPUT, "%s'%s' is not serial,revision,gain", where, line);
    *revision++ = '\0';
    *gain++ = '\0';
    require_serial(where, line);
    require_gain(where, gain);
    memcpy(index, gain, strlen(gain));
    slc1_put_record(record, RECORD_SIZE, &OPTIONS, (const uint8_t *)line, strlen(line), require_revision(where, revision),
                    index, sizeof index);
}

/* Cuts off a line's end, which must be there: a file that was cut may end in half a gain. A byte that would not print is
 * refused: what is shown later is then what stands in the file. */
static void cut_line(char *line, size_t length, const char *where)
{
    if (length == 0 || line[length - 1] != '\n')
        fail(SLC1_INVALID_INPUT, "%shas no line feed at its end: see whether the file was cut, or end it with one", where);
    length--;
    if (length > 0 && line[length - 1] == '\r')
        length--;
    for (size_t i = 0; i < length; i++) {
        if (line[i] <= ' ' || line[i] > '~')
            fail(SLC1_INVALID_INPUT, "%scharacter %zu is a blank or does not print", where, i + 1);
    }
    line[length] = '\0';
}

/* The byte order mark with which some programs begin a file of UTF-8. */
static size_t mark_length(const char *line, size_t length)
{
    static const char MARK[] = "\xef\xbb\xbf";

    return length >= strlen(MARK) && memcmp(line, MARK, strlen(MARK)) == 0 ? strlen(MARK) : 0;
}

static void read_lines(struct certificates *all, FILE *file)
{
    char *room = NULL, where[WHERE_SIZE];
    size_t size = 0;
    ssize_t length;

    for (size_t number = 1; (length = getline(&room, &size, file)) >= 0; number++) {
        size_t skipped = number == 1 ? mark_length(room, (size_t)length) : 0;
        char *line = room + skipped;

        snprintf(where, sizeof where, "%.250s line %zu: ", all->path, number);
        cut_line(line, (size_t)length - skipped, where);
        if (*line != '\0' && !(number == 1 && strcmp(line, FIRST_LINE) == 0))
            read_line(add_line(all, number), line, where);
    }
    if (!feof(file))
        fail_io(all->path, "read");
    free(room);
}

/* Lines compared. */

static int by_serial(const void *one, const void *other)
{
    const uint8_t *a = *(const uint8_t *const *)one, *b = *(const uint8_t *const *)other;
    int order = memcmp(a + SLC1_KEY_AT, b + SLC1_KEY_AT, KEY_SIZE);

    return order != 0 ? order : (a > b) - (a < b);
}

static int by_revision(const void *one, const void *other)
{
    const uint8_t *a = *(const uint8_t *const *)one, *b = *(const uint8_t *const *)other;
    int order = memcmp(a + SLC1_KEY_AT, b + SLC1_KEY_AT, KEY_SIZE);

    if (order == 0)
        order = slc1_revision_order(revision_of(b), revision_of(a));
    return order != 0 ? order : (a > b) - (a < b);
}

static const uint8_t **sorted(const struct certificates *all, int (*order)(const void *, const void *))
{
    const uint8_t **records = grown(NULL, all->records.count * sizeof *records);

    for (size_t i = 0; i < all->records.count; i++)
        records[i] = record_of(all, i);
    qsort(records, all->records.count, sizeof *records, order);
    return records;
}

static bool same_serial(const uint8_t *a, const uint8_t *b)
{
    return memcmp(a + SLC1_KEY_AT, b + SLC1_KEY_AT, KEY_SIZE) == 0;
}

static bool same_gain(const uint8_t *index, const uint8_t *record)
{
    return memcmp(index, record + INDEX_AT, INDEX_SIZE) == 0;
}

static _Noreturn void complain(const struct certificates *all, const uint8_t *record, const char *what, const char *where)
{
    fail(SLC1_INVALID_INPUT, "%s line %zu: serial %.*s: revision %" PRId64 " %s %s", all->path, line_of(all, record)->number,
         KEY_SIZE, (const char *)record + SLC1_KEY_AT, revision_of(record), what, where);
}

static void refuse_contradictions(const struct certificates *all)
{
    const uint8_t **records = sorted(all, by_revision);
    char where[WHERE_SIZE];

    for (size_t i = 1; i < all->records.count; i++) {
        const uint8_t *one = records[i - 1], *other = records[i];

        if (same_serial(one, other) && revision_of(one) == revision_of(other) && !same_gain(one + INDEX_AT, other)) {
            snprintf(where, sizeof where, "line %zu: see which is right", line_of(all, one)->number);
            complain(all, other, "has another gain in", where);
        }
    }
    free(records);
}

static void find_deciding(struct certificates *all)
{
    all->by_serial = sorted(all, by_serial);
    for (size_t i = 1; i < all->records.count; i++) {
        const uint8_t *one = all->by_serial[i - 1];

        if (same_serial(one, all->by_serial[i]))
            all->lines[(size_t)(one - all->records.bytes) / RECORD_SIZE].decides = false;
    }
}

struct certificates certificates_read(const char *path)
{
    struct certificates all = {.path = path};
    FILE *file = fopen(path, "r");

    if (file == NULL)
        fail_io(path, "open");
    read_lines(&all, file);
    fclose(file);
    if (all.records.count == 0)
        fail(SLC1_INVALID_INPUT, "%s has no certificates", path);
    refuse_contradictions(&all);
    find_deciding(&all);
    return all;
}

void certificates_free(struct certificates *all)
{
    free(all->records.bytes);
    free(all->lines);
    free(all->by_serial);
}

void certificates_refuse_older_lines(const struct certificates *all)
{
    char where[WHERE_SIZE];

    for (size_t i = 1; i < all->records.count; i++) {
        const uint8_t *one = all->by_serial[i - 1], *other = all->by_serial[i];

        if (same_serial(one, other) && slc1_revision_order(revision_of(one), revision_of(other)) < 0) {
            snprintf(where, sizeof where, "revision %" PRId64 " in line %zu: --older takes it", revision_of(one),
                     line_of(all, one)->number);
            complain(all, other, "is older than", where);
        }
    }
}

void certificates_refuse_older(const struct certificates *all, const struct store_image *cache, const char *path)
{
    char where[WHERE_SIZE];

    for (size_t i = 0; i < all->records.count; i++) {
        const uint8_t *record = record_of(all, i);
        int64_t revision;
        const uint8_t *gain = slc1_get(cache->bytes, cache->length, &cache->options, record + SLC1_KEY_AT, KEY_SIZE, NULL,
                                       NULL, &revision, NULL);

        if (gain == NULL)
            continue;
        snprintf(where, sizeof where, "revision %" PRId64 " in %.200s: --older takes it", revision, path);
        if (slc1_revision_order(revision, revision_of(record)) < 0)
            complain(all, record, "is older than", where);
        if (revision == revision_of(record) && !same_gain(gain, record))
            complain(all, record, "has another gain than", where);
    }
}

size_t certificates_count(const struct certificates *all, const struct store_image *cache)
{
    size_t count = 0;

    for (size_t i = 0; i < all->records.count; i++) {
        const uint8_t *serial = record_of(all, i) + SLC1_KEY_AT;

        count += all->lines[i].decides &&
                 (cache == NULL || slc1_lookup(STORE_LENT(cache), serial, KEY_SIZE) == SLC1_NOT_PRESENT);
    }
    return count;
}

bool certificates_have(const struct certificates *all, const uint8_t *serial)
{
    size_t from = 0, to = all->records.count;

    while (from < to) {
        size_t middle = from + (to - from) / 2;
        int order = memcmp(all->by_serial[middle] + SLC1_KEY_AT, serial, KEY_SIZE);

        if (order == 0)
            return true;
        if (order < 0)
            from = middle + 1;
        else
            to = middle;
    }
    return false;
}
