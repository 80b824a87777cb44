/* certificates.h: the bench's certificates, as they stand in a file of comma-separated lines and as records of a batch. */
#ifndef CERTIFICATES_H
#define CERTIFICATES_H

#include <stdbool.h>
#include <stddef.h>
#include <stdint.h>

#include "slc1.h"
#include "store.h"

enum { KEY_SIZE = 12, INDEX_SIZE = 20, SLOT_CAPACITY = 512, USER_VERSION = 1, ORDERED = 0 };
enum { REVISION_AT = SLC1_REVISION_AT(KEY_SIZE), INDEX_AT = SLC1_INDEX_AT(KEY_SIZE) };
enum { RECORD_SIZE = SLC1_RECORD_SIZE(KEY_SIZE, INDEX_SIZE) };

/* The options of a cache, with the slots of one that is made without asking for another number. */
extern const slc1_options OPTIONS;

/* The first line of a file of certificates. It may be missing in one that is read. */
#define FIRST_LINE "serial,revision,gain"

/* Says why, and ends the program. */
enum { EXIT_IO = 74 }; /* a call of the system failed, or memory is short */
_Noreturn void fail(int status, const char *format, ...);
_Noreturn void fail_io(const char *path, const char *call);

/* As realloc; the program ends where memory is short. */
void *grown(void *room, size_t size);

/* A serial of another length is refused, and never cut or padded. `where` begins the complaint. */
void require_serial(const char *where, const char *serial);

struct line {
    size_t number;
    bool decides; /* whether no later line has the same serial */
};

/* The certificates of a file, in its order. */
struct certificates {
    const char *path;
    struct store_records records; /* a put for each */
    struct line *lines;
    size_t room; /* for so many records and lines */
    const uint8_t **by_serial; /* the records by serial, those of one serial in the file's order */
};

/* All certificates of a file, judged whole: the program ends where one line is not as it should be, the last line has no
 * line feed, or two lines of one serial and one revision have different gains. */
struct certificates certificates_read(const char *path);

void certificates_free(struct certificates *all);

/* Ends the program where a line has an older revision than an earlier line of its serial. */
void certificates_refuse_older_lines(const struct certificates *all);

/* Ends the program where a line is older than the certificate in a cache, or has another gain for the same revision. */
void certificates_refuse_older(const struct certificates *all, const struct store_image *cache, const char *path);

/* The number of serials; of these, those that a cache lacks, and with NULL for the cache all. */
size_t certificates_count(const struct certificates *all, const struct store_image *cache);

/* Whether the file has a serial. */
bool certificates_have(const struct certificates *all, const uint8_t *serial);

#endif
