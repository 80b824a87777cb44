/* slc1.h: SLC1 slot caches, for a host in C.
 *
 * An image is the bytes of one cache: a header, then slots, then buckets. The caller lends it to each call, with the
 * options that it should have, and gets one number back. A call that has several results has a function for each, and
 * each of these does the whole work; slc1_..._results does it once, and writes all of them to a lent list.
 *
 * A slice is a pointer and a length. The pointer must not be NULL, not even where the length is 0. Slices lent to one call
 * do not overlap where one of them is written. Nothing is kept between calls: what is lent is the caller's own again when
 * the call returns. No call allocates, blocks or fails otherwise than by the number that it gives back. A commit uses up to
 * 48 KiB of stack, any other call up to 4 KiB. Calls may run side by side in several threads where none writes what another
 * is lent.
 *
 * Lent bytes stand still during a call. A shared mapping that another process may write is copied first, and the copy
 * lent.
 *
 * Numbers in images and in records are little-endian on every machine.
 */
#ifndef SLC1_H
#define SLC1_H

#include <stddef.h>
#include <stdint.h>
#include <string.h>

/* The version. A host that was built for one major number does not run with another: it is built anew, and may need changes.
 * The shared object's name has that number. SLC1_VERSION is "major.minor.patch".
 * What each major number changed for a host:
 *   2  a match of 0 bits compares the whole pattern; before, it was refused with 7
 *   3  an image is lent with exactly slc1_total_size bytes; before, bytes past these were ignored
 *   4  larger images and batches are taken; before, more than 4,096 slots or 64 records were refused with 7
 *   5  slot_capacity 0 takes the image's own, and images with another number of buckets than slc1_create gives them are taken;
 *      before, the first was refused with 7 and the second with 2 */
#define SLC1_VERSION_MAJOR 5
#define SLC1_VERSION_MINOR 0
#define SLC1_VERSION_PATCH 2
#define SLC1_VERSION SLC1_DOTTED(SLC1_VERSION_MAJOR, SLC1_VERSION_MINOR, SLC1_VERSION_PATCH)
#define SLC1_DOTTED(major, minor, patch) SLC1_DOTTED_AS_GIVEN(major, minor, patch)
#define SLC1_DOTTED_AS_GIVEN(major, minor, patch) #major "." #minor "." #patch

#ifdef __cplusplus
extern "C" {
#endif

/* What a call answers. With any number but SLC1_DONE every lent byte is left alone, but for a list of results, and every
 * other result is 0, save that the number of buckets comes with SLC1_NOT_PRESENT too. */
enum {
    SLC1_DONE = 0,          /* done, or found */
    SLC1_NEEDS_REBUILD = 1, /* damaged, of another length than its header gives, or left dirty by a writer */
    SLC1_INCOMPATIBLE = 2,  /* another format, or other options */
    SLC1_INVALIDATED = 3,   /* the image was given up on purpose */
    SLC1_BUSY = 4,          /* another writer is active */
    SLC1_FULL = 5,          /* no slots left for the new keys */
    SLC1_OUT_OF_ORDER = 6,  /* a new key below the last of an ordered image */
    SLC1_INVALID_INPUT = 7, /* options, role, key, pattern, batch or user data that the call does not take; or no begin */
    SLC1_NOT_PRESENT = 9,   /* the key is not there */
    SLC1_CREATE_IT = 10,    /* an image of length 0 */
    SLC1_TOO_SHORT = 11     /* a lent output that is too short; nothing was written */
};

/* What the caller knows of writers, who make an image DIRTY while they change it. It is the caller's word: where it is
 * not true, an image that a writer left half changed may pass. */
enum {
    SLC1_NO_WRITER_KNOWN = 0, /* refuses a DIRTY image: its writer has died */
    SLC1_ANOTHER_WRITER = 1,  /* accepts one: true only of a writer that made it DIRTY itself and is still at work */
    SLC1_LOCK_HELD = 2        /* accepts one: true only where the caller has held the lock since it became DIRTY */
};

/* An image has at most so many slots and so many buckets, and a batch at most so many records. */
#define SLC1_CAPACITY_LIMIT 1048576
#define SLC1_BUCKET_LIMIT 4194304
#define SLC1_BATCH_LIMIT 1024

/* The options. Calls take them as six numbers, which SLC1_OPTIONS spells out, evaluating its argument more than once:
 *     slc1_full_check(image, length, SLC1_OPTIONS(&options)) */
typedef struct slc1_options {
    uint64_t key_size;      /* 1 to 64 bytes */
    uint64_t index_size;    /* 0 to 256 bytes */
    uint64_t slot_capacity; /* 1 to SLC1_CAPACITY_LIMIT slots; 0, but for slc1_create, is as the image's header says */
    uint64_t user_version;  /* any number */
    uint64_t ordered;       /* 0, or 1: keys never fall */
    uint64_t role;          /* 0, 1 or 2, as above */
} slc1_options;

#define SLC1_OPTIONS(o) \
    (o)->key_size, (o)->index_size, (o)->slot_capacity, (o)->user_version, (o)->ordered, (o)->role

/* The six numbers in the declarations below. */
#define SLC1_SIX_NUMBERS \
    uint64_t key_size, uint64_t index_size, uint64_t slot_capacity, uint64_t user_version, uint64_t ordered, uint64_t role

/* Sizes and places, by the options alone. 0 where these are out of range, or slot is not below slot_capacity; with slot_capacity
 * 0, not below SLC1_CAPACITY_LIMIT. */

/* The number of bytes of an image that slc1_create makes. 0 with slot_capacity 0, too: no header says it here. */
uint64_t slc1_total_size(SLC1_SIX_NUMBERS);

/* Where in the image the key_size bytes of a slot's key begin. It does not depend on the number of slots or buckets. */
uint64_t slc1_key_offset(SLC1_SIX_NUMBERS, uint64_t slot);

/* Where in the image the index_size bytes of a slot's index begin. Nor does this. */
uint64_t slc1_index_offset(SLC1_SIX_NUMBERS, uint64_t slot);

/* The header comes first; behind it stand the slots, and then the buckets. Exactly the bytes of these are lent: an image that is
 * longer or shorter, even by a byte, is refused, with 1 where nothing before its length is wrong. A host that reads or maps whole
 * pages lends the file's length, not theirs. */
#define SLC1_HEADER_SIZE 256

/* A slot, and a record of a batch:
 *
 *     offset                      width        what it holds
 *     0                           8            meta, a u64: 1 live or 0 deleted; in a record, 1 put or 0 delete
 *     SLC1_KEY_AT                 key_size     key, then zeros to a multiple of 8
 *     SLC1_REVISION_AT(key_size)  8            revision, an i64
 *     SLC1_INDEX_AT(key_size)     index_size   index, then zeros to a multiple of 8
 *
 * It takes SLC1_RECORD_SIZE(key_size, index_size) bytes; a slot begins SLC1_KEY_AT before its slc1_key_offset. Of
 * constant sizes these are constant expressions. */
#define SLC1_UP_TO_8(n) (((n) + 7) / 8 * 8)
#define SLC1_KEY_AT 8
#define SLC1_REVISION_AT(key_size) (SLC1_KEY_AT + SLC1_UP_TO_8(key_size))
#define SLC1_INDEX_AT(key_size) (SLC1_REVISION_AT(key_size) + 8)
#define SLC1_RECORD_SIZE(key_size, index_size) (SLC1_INDEX_AT(key_size) + SLC1_UP_TO_8(index_size))

/* Open check: the header test alone. */

/* Whether the image can be used: 0, 1, 2, 3, 4, 7 or 10. Every call below that is lent an image makes this test first,
 * and answers its number where that is not 0. An image has 1 to SLC1_CAPACITY_LIMIT slots, and a power of two of buckets: more than
 * slots, and no more than SLC1_BUCKET_LIMIT. A larger power of two is refused with 2, any other number with 1. */
uint32_t slc1_open_check(const uint8_t *image, size_t length, SLC1_SIX_NUMBERS);

/* How many slots, buckets and bytes the image has. 0 where the open check does not give 0. */
uint64_t slc1_image_capacity(const uint8_t *image, size_t length, SLC1_SIX_NUMBERS);
uint64_t slc1_image_buckets(const uint8_t *image, size_t length, SLC1_SIX_NUMBERS);
uint64_t slc1_image_total(const uint8_t *image, size_t length, SLC1_SIX_NUMBERS);

/* The caller's own flags, from the header. 0 where the open check does not give 0. */
uint64_t slc1_user_flags(const uint8_t *image, size_t length, SLC1_SIX_NUMBERS);

#define SLC1_USER_DATA_SIZE 64

/* Writes the caller's own 64 bytes, from the header, to the start of out. 11 where out is shorter than that. */
uint32_t slc1_user_data(const uint8_t *image, size_t length, SLC1_SIX_NUMBERS, uint8_t *out, size_t out_length);

/* Lookup of a key. */

/* 0 found, 9 not present, 1 where the probe runs into damage, 7 where key_length is not key_size. */
uint32_t slc1_lookup(const uint8_t *image, size_t length, SLC1_SIX_NUMBERS, const uint8_t *key, size_t key_length);

/* The slot of a key that is found: its index stands at slc1_index_offset. Where the key is not found this is 0, and 0 is
 * also the number of a slot: ask slc1_lookup first, or slc1_get. */
uint64_t slc1_lookup_slot(const uint8_t *image, size_t length, SLC1_SIX_NUMBERS, const uint8_t *key, size_t key_length);

/* The revision of a key that is found. */
int64_t slc1_lookup_revision(const uint8_t *image, size_t length, SLC1_SIX_NUMBERS, const uint8_t *key, size_t key_length);

/* The number of buckets examined, the last included, for a key that is found or not present. */
uint64_t slc1_lookup_buckets(const uint8_t *image, size_t length, SLC1_SIX_NUMBERS, const uint8_t *key, size_t key_length);

#define SLC1_LOOKUP_RESULTS 4

/* All of these by one lookup. Writes the answer, the slot, the revision (in two's complement: cast it to int64_t) and the
 * number of buckets to the start of results, also where the answer is not 0, and answers it. 11, before every test, where
 * results has fewer than SLC1_LOOKUP_RESULTS entries: it is left alone then. Entries past those written are unchanged. */
uint32_t slc1_lookup_results(
    const uint8_t *image, size_t length, SLC1_SIX_NUMBERS, const uint8_t *key, size_t key_length, uint64_t *results,
    size_t results_count);

/* Full check: the header, every slot and every bucket. */

/* The header test's number where that is not 0; then 0 where everything fits together, else 1. */
uint32_t slc1_full_check(const uint8_t *image, size_t length, SLC1_SIX_NUMBERS);

/* The number of live slots. */
uint64_t slc1_full_check_live(const uint8_t *image, size_t length, SLC1_SIX_NUMBERS);

/* The number of buckets that deleted keys have left behind. */
uint64_t slc1_full_check_tombstones(const uint8_t *image, size_t length, SLC1_SIX_NUMBERS);

/* The sum of slc1_lookup_buckets over the live keys. */
uint64_t slc1_full_check_probes(const uint8_t *image, size_t length, SLC1_SIX_NUMBERS);

#define SLC1_FULL_CHECK_RESULTS 4

/* All of these by one full check, as slc1_lookup_results does: the answer, the live slots, the buckets left behind and the
 * sum. */
uint32_t slc1_full_check_results(
    const uint8_t *image, size_t length, SLC1_SIX_NUMBERS, uint64_t *results, size_t results_count);

/* Scan: the live slots, ascending. The first skip of them are left out, and at most limit are written to numbers, a list
 * of count entries. Entries past those written are unchanged. Each of the four functions fills the list. With limit 0 nothing
 * is written, and the total is given. */

/* 0, or 11 where the list is shorter than the number of slots to write. */
uint32_t slc1_scan(
    const uint8_t *image, size_t length, SLC1_SIX_NUMBERS, uint64_t skip, uint64_t limit, uint32_t *numbers, size_t count);

/* The number of all live slots, those left out included. */
uint64_t slc1_scan_total(
    const uint8_t *image, size_t length, SLC1_SIX_NUMBERS, uint64_t skip, uint64_t limit, uint32_t *numbers, size_t count);

/* The number of entries written. */
uint64_t slc1_scan_written(
    const uint8_t *image, size_t length, SLC1_SIX_NUMBERS, uint64_t skip, uint64_t limit, uint32_t *numbers, size_t count);

#define SLC1_LISTING_RESULTS 3

/* All of these by one scan, as slc1_lookup_results does: the answer, the total and the number written. Where results is too
 * short, numbers is left alone too. */
uint32_t slc1_scan_results(
    const uint8_t *image, size_t length, SLC1_SIX_NUMBERS, uint64_t skip, uint64_t limit, uint32_t *numbers, size_t count,
    uint64_t *results, size_t results_count);

/* Match: as scan, for the live slots in whose key, from a byte offset on, the first bits are those of the pattern; the
 * most significant bit of a byte comes first. The pattern has (bits + 7) / 8 bytes; spare bits of its last byte are
 * ignored. With bits 0 the pattern is compared whole, and may have any number of bytes from 1 on. */

/* 0, or 11 as with scan; 7 where the pattern is empty, has another length than bits needs, or runs past the key. */
uint32_t slc1_match(
    const uint8_t *image, size_t length, SLC1_SIX_NUMBERS, uint64_t offset, uint64_t bits, const uint8_t *pattern,
    size_t pattern_length, uint64_t skip, uint64_t limit, uint32_t *numbers, size_t count);

/* The number of all slots that match, those left out included. */
uint64_t slc1_match_total(
    const uint8_t *image, size_t length, SLC1_SIX_NUMBERS, uint64_t offset, uint64_t bits, const uint8_t *pattern,
    size_t pattern_length, uint64_t skip, uint64_t limit, uint32_t *numbers, size_t count);

/* The number of entries written. */
uint64_t slc1_match_written(
    const uint8_t *image, size_t length, SLC1_SIX_NUMBERS, uint64_t offset, uint64_t bits, const uint8_t *pattern,
    size_t pattern_length, uint64_t skip, uint64_t limit, uint32_t *numbers, size_t count);

/* All of these by one match, as slc1_scan_results does. */
uint32_t slc1_match_results(
    const uint8_t *image, size_t length, SLC1_SIX_NUMBERS, uint64_t offset, uint64_t bits, const uint8_t *pattern,
    size_t pattern_length, uint64_t skip, uint64_t limit, uint32_t *numbers, size_t count, uint64_t *results,
    size_t results_count);

/* Create. */

/* Writes a fresh image to the start of a lent buffer, over any bytes: 0; 7 where the options are out of range, or slot_capacity
 * is 0; 11 where the buffer is shorter than slc1_total_size. Bytes past the total stay; from then on the total alone is lent. It
 * has the smallest power of two of buckets that is not below twice slot_capacity. */
uint32_t slc1_create(uint8_t *buffer, size_t length, SLC1_SIX_NUMBERS);

/* The writing calls. They want the role SLC1_LOCK_HELD: another writer gives 4, no writer known gives 7. The image is
 * changed in place. A host that keeps it in a file brings the changes there and syncs them in this order:
 *
 *     begin, sync, commits, sync, checkpoint, sync
 *
 * DIRTY is then on the disk before any part of a commit, and all commits before CLEAN: after a power cut the image is as
 * it was, or needs a rebuild, or has every commit.
 *
 * The generation, a u64, is for readers beside a writer. Commit, set user fields and invalidate add 2 to it. The host
 * makes it odd before the first byte of such a change is published, and even, as the call left it, after the last. A
 * reader's copy is of one moment where the generation was one even number before, in and after it; the header test
 * refuses an odd one, with 4 under SLC1_ANOTHER_WRITER. Begin and checkpoint change the one word of 8 bytes at 0x70 and
 * leave the generation alone: beside a writer, a reader's 1 may be half of that word, and worth another try. */
#define SLC1_GENERATION_AT 0x40

/* Before the first change: CLEAN becomes DIRTY. On DIRTY nothing changes. */
uint32_t slc1_begin(uint8_t *image, size_t length, SLC1_SIX_NUMBERS);

/* When all is synced: DIRTY becomes CLEAN. On CLEAN nothing changes. */
uint32_t slc1_checkpoint(uint8_t *image, size_t length, SLC1_SIX_NUMBERS);

/* Gives the image up: every call answers 3 from then on, until slc1_create writes over it. On CLEAN and on DIRTY. 1 where the
 * generation is used up. */
uint32_t slc1_invalidate(uint8_t *image, size_t length, SLC1_SIX_NUMBERS);

/* Replaces the caller's own flags and data. 7 where the data are not exactly 64 bytes, whatever the role. 7 on CLEAN: begin
 * first. 1 where the generation is used up. */
uint32_t slc1_set_user_fields(
    uint8_t *image, size_t length, SLC1_SIX_NUMBERS, uint64_t user_flags, const uint8_t *user_data, size_t data_length);

/* Commits a batch of 0 to SLC1_BATCH_LIMIT records, one after the other, each laid out as a slot (above). A delete has
 * revision and index zero. The last record for a key decides. A put on a live key keeps its slot; a delete of a key that is
 * not there is no error; a deleted key's slot is never used again, not even for that key: only a fresh image has it free.
 *
 * 0, or the first reason that holds: the header test's number; 4 or 7 by the role; 7 on CLEAN (begin first); 1 where the
 * generation is used up; 7 for a batch of another length, over SLC1_BATCH_LIMIT records or with a malformed record; 1 where
 * the full check fails; 5 where the new keys outnumber the slots left; 6 where the image is ordered and a new key is below
 * the key of its last slot. */
uint32_t slc1_commit(uint8_t *image, size_t length, SLC1_SIX_NUMBERS, const uint8_t *batch, size_t batch_length);

/* Revision age. */

/* How the second revision stands against the first: -1 older, 0 the same, 1 newer. */
int32_t slc1_revision_order(int64_t first, int64_t second);

/* The exact distance between two revisions, over the whole range. */
uint64_t slc1_revision_distance(int64_t first, int64_t second);

/* Digests. */

/* The FNV-1a hash of 64 bits: the hash64 of a key. */
uint64_t slc1_fnv1a64(const uint8_t *bytes, size_t length);

/* The CRC32-C (Castagnoli) of bytes. */
uint32_t slc1_crc32c(const uint8_t *bytes, size_t length);

/* Helpers, made of the calls above: they are compiled with the host, and are not proved. */

/* A sentence for an answer. */
static inline const char *slc1_text(uint32_t answer)
{
    switch (answer) {
    case SLC1_DONE: return "done, or found";
    case SLC1_NEEDS_REBUILD: return "the image is damaged, too long or too short, or was left dirty by a writer: build it again";
    case SLC1_INCOMPATIBLE: return "the image is of another format, or has other options";
    case SLC1_INVALIDATED: return "the image was given up on purpose: build it again";
    case SLC1_BUSY: return "another writer is active: try again";
    case SLC1_FULL: return "no slots are left for the new keys";
    case SLC1_OUT_OF_ORDER: return "a new key is below the last of an ordered image";
    case SLC1_INVALID_INPUT: return "the call does not take this input, under this role, or begin is missing";
    case SLC1_NOT_PRESENT: return "the key is not there";
    case SLC1_CREATE_IT: return "the image has length 0: create it";
    case SLC1_TOO_SHORT: return "a lent output is too short";
    default: return "a number that no call answers";
    }
}

/* The u64 that stands little-endian in 8 bytes; of a revision, as (int64_t)slc1_word_at(...). */
static inline uint64_t slc1_word_at(const uint8_t *bytes)
{
    uint64_t word = 0;

    for (int i = 0; i < 8; i++)
        word |= (uint64_t)bytes[i] << 8 * i;
    return word;
}

/* Writes a u64 little-endian to 8 bytes. */
static inline void slc1_put_word(uint8_t *bytes, uint64_t word)
{
    for (int i = 0; i < 8; i++)
        bytes[i] = (uint8_t)(word >> 8 * i);
}

/* The index bytes of a key, in the image, where it is found; else NULL. Answer, slot, revision and buckets are those of
 * slc1_lookup_results; each of these four pointers may be NULL. */
static inline const uint8_t *slc1_get(
    const uint8_t *image, size_t length, const slc1_options *options, const uint8_t *key, size_t key_length,
    uint32_t *answer, uint64_t *slot, int64_t *revision, uint64_t *buckets)
{
    uint64_t results[SLC1_LOOKUP_RESULTS];
    uint32_t found =
        slc1_lookup_results(image, length, SLC1_OPTIONS(options), key, key_length, results, SLC1_LOOKUP_RESULTS);

    if (answer != NULL)
        *answer = found;
    if (slot != NULL)
        *slot = results[1];
    if (revision != NULL)
        *revision = (int64_t)results[2];
    if (buckets != NULL)
        *buckets = results[3];
    return found == SLC1_DONE ? image + slc1_index_offset(SLC1_OPTIONS(options), results[1]) : NULL;
}

/* Writes a record that deletes a key to the start of a lent buffer, padding included: 0; 7 where the options are out of
 * range or key_length is not key_size; 11 where the buffer is shorter than SLC1_RECORD_SIZE. Any other number than 0
 * leaves the buffer alone. */
static inline uint32_t slc1_delete_record(
    uint8_t *record, size_t length, const slc1_options *options, const uint8_t *key, size_t key_length)
{
    if (slc1_key_offset(SLC1_OPTIONS(options), 0) == 0 || key_length != options->key_size)
        return SLC1_INVALID_INPUT;
    if (length < SLC1_RECORD_SIZE(options->key_size, options->index_size))
        return SLC1_TOO_SHORT;
    memset(record, 0, (size_t)SLC1_RECORD_SIZE(options->key_size, options->index_size));
    memcpy(record + SLC1_KEY_AT, key, key_length);
    return SLC1_DONE;
}

/* Writes a record that puts a key, in the same way; 7 also where index_length is not index_size. The index may be NULL
 * where that is 0. */
static inline uint32_t slc1_put_record(
    uint8_t *record, size_t length, const slc1_options *options, const uint8_t *key, size_t key_length, int64_t revision,
    const uint8_t *index, size_t index_length)
{
    uint32_t answer = index_length != options->index_size
        ? (uint32_t)SLC1_INVALID_INPUT
        : slc1_delete_record(record, length, options, key, key_length);

    if (answer != SLC1_DONE)
        return answer;
    slc1_put_word(record, 1);
    slc1_put_word(record + SLC1_REVISION_AT(key_length), (uint64_t)revision);
    if (index_length > 0)
        memcpy(record + SLC1_INDEX_AT(key_length), index, index_length);
    return SLC1_DONE;
}

#ifdef __cplusplus
}
#endif

#endif
