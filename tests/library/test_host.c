/* Calls every function of slc1.h from C. Prints what differs; its exit status is 0 where nothing does. */
#include <inttypes.h>
#include <stdio.h>
#include <string.h>

#include "image_bytes.h"
#include "slc1.h"

static int differences;

static void same(const char *what, uint64_t got, uint64_t wanted)
{
    if (got != wanted) {
        printf("%s: %" PRIu64 ", and not %" PRIu64 "\n", what, got, wanted);
        differences++;
    }
}

/* A list of results with one entry more than any call writes, each first 99. */
enum { ROOM = 5 };

static void fresh_results(uint64_t *results)
{
    for (size_t i = 0; i < ROOM; i++)
        results[i] = 99;
}

static void reported(const char *what, const uint64_t *results, size_t count, const uint64_t *wanted)
{
    for (size_t i = 0; i < ROOM; i++)
        same(what, results[i], i < count ? wanted[i] : 99);
}

static void digests(void)
{
    const uint8_t foobar[] = {'f', 'o', 'o', 'b', 'a', 'r'};
    const uint8_t digits[] = {'1', '2', '3', '4', '5', '6', '7', '8', '9'};

    same("fnv1a64 of nothing", slc1_fnv1a64(foobar, 0), 0xcbf29ce484222325);
    same("fnv1a64 of foobar", slc1_fnv1a64(foobar, sizeof foobar), 0x85944171f73967e8);
    same("crc32c of nothing", slc1_crc32c(digits, 0), 0);
    same("crc32c of 123456789", slc1_crc32c(digits, sizeof digits), 0xe3069283);
}

static void ages(void)
{
    same("older", (uint64_t)slc1_revision_order(7, -7), (uint64_t)-1);
    same("older by", slc1_revision_distance(7, -7), 14);
    same("the same", (uint64_t)slc1_revision_order(-3, -3), 0);
    same("the same by", slc1_revision_distance(-3, -3), 0);
    same("newer", (uint64_t)slc1_revision_order(INT64_MIN, INT64_MAX), 1);
    same("newer by", slc1_revision_distance(INT64_MIN, INT64_MAX), UINT64_MAX);
}

static void sizes(void)
{
    const slc1_options bench = {12, 20, 512, 1, 0, SLC1_NO_WRITER_KNOWN};
    const slc1_options small = {10, 5, 2, 1, 0, SLC1_NO_WRITER_KNOWN};
    const slc1_options wrong = {65, 5, 2, 1, 0, SLC1_NO_WRITER_KNOWN};

    same("total size", slc1_total_size(SLC1_OPTIONS(&bench)), 45312);
    same("total size of wrong options", slc1_total_size(SLC1_OPTIONS(&wrong)), 0);
    same("key offset", slc1_key_offset(SLC1_OPTIONS(&small), 1), 256 + 40 + 8);
    same("key offset past the slots", slc1_key_offset(SLC1_OPTIONS(&small), 2), 0);
    same("index offset", slc1_index_offset(SLC1_OPTIONS(&small), 1), 256 + 40 + 8 + 16 + 8);
    same("index offset past the slots", slc1_index_offset(SLC1_OPTIONS(&small), 2), 0);
}

_Static_assert(SLC1_RECORD_SIZE(12, 20) == 56 && SLC1_RECORD_SIZE(1, 0) == 24, "a record, in a constant expression");

/* As many slots as an image may have, and one more: 1,048,576 slots of 56 bytes, then 2,097,152 buckets of 16. */
static void capacities(void)
{
    const slc1_options most = {12, 20, SLC1_CAPACITY_LIMIT, 1, 0, SLC1_NO_WRITER_KNOWN};
    const slc1_options more = {12, 20, SLC1_CAPACITY_LIMIT + 1, 1, 0, SLC1_NO_WRITER_KNOWN};
    const uint64_t last = SLC1_CAPACITY_LIMIT - 1;
    uint8_t buffer[SLC1_HEADER_SIZE];

    memset(buffer, 99, sizeof buffer);
    same("total size of the most slots", slc1_total_size(SLC1_OPTIONS(&most)), 256 + 1048576 * 56 + 2097152 * 16);
    same("total size of one more", slc1_total_size(SLC1_OPTIONS(&more)), 0);
    same("key offset of the last slot", slc1_key_offset(SLC1_OPTIONS(&most), last), 256 + last * 56 + 8);
    same("key offset past it", slc1_key_offset(SLC1_OPTIONS(&most), last + 1), 0);
    same("index offset of the last slot", slc1_index_offset(SLC1_OPTIONS(&most), last), 256 + last * 56 + 8 + 16 + 8);
    same("index offset past it", slc1_index_offset(SLC1_OPTIONS(&most), last + 1), 0);
    same("key offset of one slot more", slc1_key_offset(SLC1_OPTIONS(&more), 0), 0);
    same("create of the most slots in too short a buffer", slc1_create(buffer, sizeof buffer, SLC1_OPTIONS(&most)), SLC1_TOO_SHORT);
    same("create of one more", slc1_create(buffer, sizeof buffer, SLC1_OPTIONS(&more)), SLC1_INVALID_INPUT);
    same("open check of one more", slc1_open_check(buffer, sizeof buffer, SLC1_OPTIONS(&more)), SLC1_INVALID_INPUT);
    for (size_t i = 0; i < sizeof buffer; i++)
        same("a buffer left alone", buffer[i], 99);
}

/* The macros against the calls, for every size: 2 slots from 256 on, then 4 buckets of 16 bytes. */
static void layouts(void)
{
    slc1_options o = {1, 0, 2, 1, 0, SLC1_NO_WRITER_KNOWN};

    for (o.key_size = 1; o.key_size <= 64; o.key_size++) {
        for (o.index_size = 0; o.index_size <= 256; o.index_size++) {
            uint64_t slot = 256 + SLC1_RECORD_SIZE(o.key_size, o.index_size);

            same("SLC1_KEY_AT", slot + SLC1_KEY_AT, slc1_key_offset(SLC1_OPTIONS(&o), 1));
            same("SLC1_INDEX_AT", slot + SLC1_INDEX_AT(o.key_size), slc1_index_offset(SLC1_OPTIONS(&o), 1));
            same("SLC1_RECORD_SIZE", slot + SLC1_RECORD_SIZE(o.key_size, o.index_size) + 4 * 16,
                 slc1_total_size(SLC1_OPTIONS(&o)));
        }
    }
}

/* An image of 2 slots of 32 bytes at 256, and 4 buckets at 320. The keys "abg", which is deleted, and "abc" both have
 * bucket 3 as their home; "abc" went round the end, to bucket 0. */
enum { TOTAL = 384 };
static uint8_t image[TOTAL];
static const slc1_options options = {3, 5, 2, 9, 0, SLC1_NO_WRITER_KNOWN};

static void put(size_t offset, size_t width, uint64_t value)
{
    put_number(image + offset, width, value);
}

static void lay_out(void)
{
    uint8_t data[SLC1_USER_DATA_SIZE];

    for (uint8_t i = 0; i < sizeof data; i++)
        data[i] = i;
    write_header(image, &options, &(struct header_numbers){2, 1, 1, 0, CLEAN, 0x1122334455667788, data, 0});
    memcpy(image + 256 + 8, "abg", 3);
    put(288, 8, 1);
    memcpy(image + 288 + 8, "abc", 3);
    put(288 + 16, 8, (uint64_t)-7);
    memcpy(image + 288 + 24, "index", 5);
    put(320, 8, 0xe71fa2190541574b); /* fnv1a64 of "abc" */
    put(320 + 8, 8, 2);
    put(320 + 16 * 3, 8, slc1_fnv1a64((const uint8_t *)"abg", 3));
    put(320 + 16 * 3 + 8, 8, UINT64_MAX);
}

static void opened(void)
{
    const slc1_options other = {3, 5, 2, 8, 0, SLC1_NO_WRITER_KNOWN};
    const slc1_options wrong = {3, 5, 2, 9, 0, 3};
    uint8_t data[70];

    same("open check", slc1_open_check(image, TOTAL, SLC1_OPTIONS(&options)), SLC1_DONE);
    same("of nothing", slc1_open_check(image, 0, SLC1_OPTIONS(&options)), SLC1_CREATE_IT);
    same("of a part", slc1_open_check(image, TOTAL - 1, SLC1_OPTIONS(&options)), SLC1_NEEDS_REBUILD);
    same("of another version", slc1_open_check(image, TOTAL, SLC1_OPTIONS(&other)), SLC1_INCOMPATIBLE);
    same("with role 3", slc1_open_check(image, TOTAL, SLC1_OPTIONS(&wrong)), SLC1_INVALID_INPUT);

    same("user flags", slc1_user_flags(image, TOTAL, SLC1_OPTIONS(&options)), 0x1122334455667788);
    same("user flags refused", slc1_user_flags(image, TOTAL, SLC1_OPTIONS(&other)), 0);

    memset(data, 99, sizeof data);
    same("user data, too short", slc1_user_data(image, TOTAL, SLC1_OPTIONS(&options), data, 63), SLC1_TOO_SHORT);
    same("and refused", slc1_user_data(image, TOTAL, SLC1_OPTIONS(&other), data, 70), SLC1_INCOMPATIBLE);
    for (size_t i = 0; i < sizeof data; i++)
        same("user data left alone", data[i], 99);
    same("user data", slc1_user_data(image, TOTAL, SLC1_OPTIONS(&options), data, 70), SLC1_DONE);
    for (size_t i = 0; i < sizeof data; i++)
        same("user data, byte by byte", data[i], i < 64 ? i : 99);
}

static void looked_up(const char *key, size_t length, uint32_t answer, uint64_t slot, int64_t revision, uint64_t buckets)
{
    const uint8_t *bytes = (const uint8_t *)key;
    const uint64_t all[SLC1_LOOKUP_RESULTS] = {answer, slot, (uint64_t)revision, buckets};
    uint64_t results[ROOM];

    fresh_results(results);
    same(key, slc1_lookup_results(image, TOTAL, SLC1_OPTIONS(&options), bytes, length, results, 3), SLC1_TOO_SHORT);
    reported("lookup, results left alone", results, 0, all);
    same(key, slc1_lookup_results(image, TOTAL, SLC1_OPTIONS(&options), bytes, length, results, ROOM), answer);
    reported(key, results, SLC1_LOOKUP_RESULTS, all);
    same(key, slc1_lookup(image, TOTAL, SLC1_OPTIONS(&options), bytes, length), answer);
    same(key, slc1_lookup_slot(image, TOTAL, SLC1_OPTIONS(&options), bytes, length), slot);
    same(key, (uint64_t)slc1_lookup_revision(image, TOTAL, SLC1_OPTIONS(&options), bytes, length), (uint64_t)revision);
    same(key, slc1_lookup_buckets(image, TOTAL, SLC1_OPTIONS(&options), bytes, length), buckets);
}

/* No image, and no room for the results: the room is judged first. */
static void looked_up_refused(void)
{
    const uint64_t all[SLC1_LOOKUP_RESULTS] = {SLC1_CREATE_IT, 0, 0, 0};
    const uint8_t *key = (const uint8_t *)"abc";
    uint64_t results[ROOM];

    fresh_results(results);
    same("of nothing, too short", slc1_lookup_results(image, 0, SLC1_OPTIONS(&options), key, 3, results, 0), SLC1_TOO_SHORT);
    reported("of nothing, left alone", results, 0, all);
    same("of nothing", slc1_lookup_results(image, 0, SLC1_OPTIONS(&options), key, 3, results, 4), SLC1_CREATE_IT);
    reported("of nothing, written", results, SLC1_LOOKUP_RESULTS, all);
}

static void lookups(void)
{
    looked_up("abc", 3, SLC1_DONE, 1, -7, 2);
    looked_up("abg", 3, SLC1_NOT_PRESENT, 0, 0, 3);
    looked_up("abc", 2, SLC1_INVALID_INPUT, 0, 0, 0);
    looked_up_refused();
    same("the index of abc", (uint64_t)memcmp(image + slc1_index_offset(SLC1_OPTIONS(&options), 1), "index", 5), 0);
    same("the key of slot 1", (uint64_t)memcmp(image + slc1_key_offset(SLC1_OPTIONS(&options), 1), "abc", 3), 0);
}

static void checked(uint32_t answer, uint64_t live, uint64_t tombstones, uint64_t probes)
{
    const uint64_t all[SLC1_FULL_CHECK_RESULTS] = {answer, live, tombstones, probes};
    uint64_t results[ROOM];

    fresh_results(results);
    same("full check, too short", slc1_full_check_results(image, TOTAL, SLC1_OPTIONS(&options), results, 3), SLC1_TOO_SHORT);
    reported("full check, results left alone", results, 0, all);
    same("full check, all", slc1_full_check_results(image, TOTAL, SLC1_OPTIONS(&options), results, ROOM), answer);
    reported("full check, results", results, SLC1_FULL_CHECK_RESULTS, all);
    same("full check", slc1_full_check(image, TOTAL, SLC1_OPTIONS(&options)), answer);
    same("live", slc1_full_check_live(image, TOTAL, SLC1_OPTIONS(&options)), live);
    same("tombstones", slc1_full_check_tombstones(image, TOTAL, SLC1_OPTIONS(&options)), tombstones);
    same("probes", slc1_full_check_probes(image, TOTAL, SLC1_OPTIONS(&options)), probes);
}

static void full_checks(void)
{
    checked(SLC1_DONE, 1, 1, 2);
    put(320, 8, 0); /* a hash that is not its key's */
    checked(SLC1_NEEDS_REBUILD, 0, 0, 0);
    put(320, 8, 0xe71fa2190541574b);
}

static void listings(void)
{
    const uint8_t twelve_bits[] = {'a', 0x6f}, other[] = {'a', 0x70}, bcd[] = {'b', 'c', 'd'};
    uint32_t numbers[] = {77, 77};

    same("scan, list too short", slc1_scan(image, TOTAL, SLC1_OPTIONS(&options), 0, 9, numbers, 0), SLC1_TOO_SHORT);
    same("scan past the last", slc1_scan_written(image, TOTAL, SLC1_OPTIONS(&options), 1, 9, numbers, 2), 0);
    same("number 0 left alone", numbers[0], 77);
    same("scan", slc1_scan(image, TOTAL, SLC1_OPTIONS(&options), 0, 9, numbers, 2), SLC1_DONE);
    same("number 0", numbers[0], 1);
    same("number 1", numbers[1], 77);
    same("scan total", slc1_scan_total(image, TOTAL, SLC1_OPTIONS(&options), 1, 9, numbers, 2), 1);
    same("scan written", slc1_scan_written(image, TOTAL, SLC1_OPTIONS(&options), 0, 9, numbers, 2), 1);

    numbers[0] = 77;
    same("match of an empty pattern", slc1_match(image, TOTAL, SLC1_OPTIONS(&options), 0, 0, bcd, 0, 0, 9, numbers, 2), SLC1_INVALID_INPUT);
    same("match past the key", slc1_match(image, TOTAL, SLC1_OPTIONS(&options), 1, 0, bcd, 3, 0, 9, numbers, 2), SLC1_INVALID_INPUT);
    same("match of a whole pattern at another offset", slc1_match_total(image, TOTAL, SLC1_OPTIONS(&options), 0, 0, bcd, 2, 0, 9, numbers, 2), 0);
    same("match of none", slc1_match_total(image, TOTAL, SLC1_OPTIONS(&options), 0, 12, other, 2, 0, 9, numbers, 2), 0);
    same("number 0 left alone", numbers[0], 77);
    same("match", slc1_match(image, TOTAL, SLC1_OPTIONS(&options), 0, 12, twelve_bits, 2, 0, 9, numbers, 2), SLC1_DONE);
    same("number 0", numbers[0], 1);
    same("match total", slc1_match_total(image, TOTAL, SLC1_OPTIONS(&options), 0, 12, twelve_bits, 2, 1, 9, numbers, 2), 1);
    same("match written", slc1_match_written(image, TOTAL, SLC1_OPTIONS(&options), 0, 12, twelve_bits, 2, 0, 9, numbers, 2), 1);

    numbers[0] = 77;
    same("match of a whole pattern", slc1_match(image, TOTAL, SLC1_OPTIONS(&options), 1, 0, bcd, 2, 0, 9, numbers, 2), SLC1_DONE);
    same("number 0", numbers[0], 1);
    same("its total", slc1_match_total(image, TOTAL, SLC1_OPTIONS(&options), 1, 0, bcd, 2, 1, 9, numbers, 2), 1);
    same("its written", slc1_match_written(image, TOTAL, SLC1_OPTIONS(&options), 1, 0, bcd, 2, 0, 9, numbers, 2), 1);
}

/* A scan, or with a pattern a match, of the image, with results of count entries: what it answers, and number 0 afterwards. */
static void listed(uint64_t bits, const uint8_t *pattern, uint64_t skip, size_t count, const uint64_t *all, uint32_t first)
{
    uint32_t numbers[] = {77, 77};
    uint64_t results[ROOM];
    uint32_t answer;

    fresh_results(results);
    if (pattern == NULL)
        answer = slc1_scan_results(image, TOTAL, SLC1_OPTIONS(&options), skip, 9, numbers, 2, results, count);
    else
        answer = slc1_match_results(
            image, TOTAL, SLC1_OPTIONS(&options), 0, bits, pattern, 2, skip, 9, numbers, 2, results, count);
    same("listing, all", answer, count < SLC1_LISTING_RESULTS ? SLC1_TOO_SHORT : all[0]);
    reported("listing, results", results, count < SLC1_LISTING_RESULTS ? 0 : SLC1_LISTING_RESULTS, all);
    same("listing, number 0", numbers[0], first);
    same("listing, number 1", numbers[1], 77);
}

static void listings_reported(void)
{
    const uint8_t twelve_bits[] = {'a', 0x6f}, other[] = {'a', 0x70}, whole[] = {'a', 'b'};
    const uint64_t one[] = {SLC1_DONE, 1, 1}, skipped[] = {SLC1_DONE, 1, 0}, none[] = {SLC1_DONE, 0, 0};
    const uint64_t refused[] = {SLC1_INVALID_INPUT, 0, 0};

    listed(0, NULL, 0, ROOM, one, 1);
    listed(0, NULL, 1, SLC1_LISTING_RESULTS, skipped, 77);
    listed(0, NULL, 0, 2, one, 77);
    listed(12, twelve_bits, 0, ROOM, one, 1);
    listed(12, twelve_bits, 1, SLC1_LISTING_RESULTS, skipped, 77);
    listed(12, twelve_bits, 0, 2, one, 77);
    listed(12, other, 0, ROOM, none, 77);
    listed(0, whole, 0, ROOM, one, 1);
    listed(0, other, 0, ROOM, none, 77);
    listed(3, other, 0, ROOM, refused, 77);
}

static void written(void)
{
    slc1_options own = {12, 20, 1, 1, 0, SLC1_LOCK_HELD};
    uint8_t fresh[256 + 56 + 32 + 1], data[SLC1_USER_DATA_SIZE], back[SLC1_USER_DATA_SIZE];
    uint8_t batch[SLC1_RECORD_SIZE(12, 20)] = {[0] = 1, [SLC1_KEY_AT] = 's', [SLC1_REVISION_AT(12)] = 5};

    memset(fresh, 0xa5, sizeof fresh);
    memset(data, 7, sizeof data);
    same("create in too short a buffer", slc1_create(fresh, 343, SLC1_OPTIONS(&own)), SLC1_TOO_SHORT);
    same("create", slc1_create(fresh, sizeof fresh, SLC1_OPTIONS(&own)), SLC1_DONE);
    same("the byte past the total", fresh[344], 0xa5);
    same("a fresh image", slc1_full_check(fresh, 344, SLC1_OPTIONS(&own)), SLC1_DONE);
    same("and the byte past it", slc1_full_check(fresh, 345, SLC1_OPTIONS(&own)), SLC1_NEEDS_REBUILD);
    same("and without its last", slc1_full_check(fresh, 343, SLC1_OPTIONS(&own)), SLC1_NEEDS_REBUILD);
    same("user fields on CLEAN", slc1_set_user_fields(fresh, 344, SLC1_OPTIONS(&own), 9, data, 64), SLC1_INVALID_INPUT);
    same("begin", slc1_begin(fresh, 344, SLC1_OPTIONS(&own)), SLC1_DONE);
    same("commit to a longer one", slc1_commit(fresh, 345, SLC1_OPTIONS(&own), batch, 56), SLC1_NEEDS_REBUILD);
    same("commit of a record", slc1_commit(fresh, 344, SLC1_OPTIONS(&own), batch, 56), SLC1_DONE);
    same("its revision", (uint64_t)slc1_lookup_revision(fresh, 344, SLC1_OPTIONS(&own), batch + 8, 12), 5);
    same("part of a record", slc1_commit(fresh, 344, SLC1_OPTIONS(&own), batch, 55), SLC1_INVALID_INPUT);
    batch[8] = 'x';
    same("no slot left", slc1_commit(fresh, 344, SLC1_OPTIONS(&own), batch, 56), SLC1_FULL);
    same("user data of 63 bytes", slc1_set_user_fields(fresh, 344, SLC1_OPTIONS(&own), 9, data, 63), SLC1_INVALID_INPUT);
    same("and no image", slc1_set_user_fields(fresh, 0, SLC1_OPTIONS(&own), 9, data, 63), SLC1_CREATE_IT);
    fresh[0] = 'X';
    same("and a foreign image", slc1_set_user_fields(fresh, 344, SLC1_OPTIONS(&own), 9, data, 63), SLC1_INCOMPATIBLE);
    fresh[0] = 'S';
    same("user fields", slc1_set_user_fields(fresh, 344, SLC1_OPTIONS(&own), 9, data, 64), SLC1_DONE);
    same("the flags", slc1_user_flags(fresh, 344, SLC1_OPTIONS(&own)), 9);
    same("the data", slc1_user_data(fresh, 344, SLC1_OPTIONS(&own), back, 64), SLC1_DONE);
    same("byte for byte", (uint64_t)memcmp(back, data, 64), 0);
    own.role = SLC1_NO_WRITER_KNOWN;
    same("DIRTY with no writer known", slc1_open_check(fresh, 344, SLC1_OPTIONS(&own)), SLC1_NEEDS_REBUILD);
    own.role = SLC1_ANOTHER_WRITER;
    same("checkpoint of another", slc1_checkpoint(fresh, 344, SLC1_OPTIONS(&own)), SLC1_BUSY);
    own.role = SLC1_LOCK_HELD;
    same("checkpoint", slc1_checkpoint(fresh, 344, SLC1_OPTIONS(&own)), SLC1_DONE);
    same("the generation", fresh[SLC1_GENERATION_AT], 4);
    same("invalidate", slc1_invalidate(fresh, 344, SLC1_OPTIONS(&own)), SLC1_DONE);
    same("an image given up", slc1_open_check(fresh, 344, SLC1_OPTIONS(&own)), SLC1_INVALIDATED);
}

/* As many records as a batch may have, all for one key, and one more. */
static void batches(void)
{
    const slc1_options own = {1, 0, 1, 1, 0, SLC1_LOCK_HELD};
    enum { RECORD = SLC1_RECORD_SIZE(1, 0), LIMIT = SLC1_BATCH_LIMIT * RECORD };
    uint8_t fresh[256 + RECORD + 32], before[sizeof fresh], batch[LIMIT + RECORD] = {0};
    const uint8_t *key = batch + SLC1_KEY_AT;

    for (size_t i = 0; i <= SLC1_BATCH_LIMIT; i++) {
        batch[i * RECORD] = 1;
        slc1_put_word(batch + i * RECORD + SLC1_REVISION_AT(1), i);
    }
    same("create", slc1_create(fresh, sizeof fresh, SLC1_OPTIONS(&own)), SLC1_DONE);
    same("begin", slc1_begin(fresh, sizeof fresh, SLC1_OPTIONS(&own)), SLC1_DONE);
    same("SLC1_BATCH_LIMIT", slc1_commit(fresh, sizeof fresh, SLC1_OPTIONS(&own), batch, LIMIT), SLC1_DONE);
    same("the last one", (uint64_t)slc1_lookup_revision(fresh, sizeof fresh, SLC1_OPTIONS(&own), key, 1), SLC1_BATCH_LIMIT - 1);
    memcpy(before, fresh, sizeof fresh);
    same("one more", slc1_commit(fresh, sizeof fresh, SLC1_OPTIONS(&own), batch, LIMIT + RECORD), SLC1_INVALID_INPUT);
    same("and nothing changed", (uint64_t)memcmp(before, fresh, sizeof fresh), 0);
}

static void measured(const uint8_t *lent, size_t length, const slc1_options *o, uint64_t slots, uint64_t buckets, uint64_t total)
{
    same("its slots", slc1_image_capacity(lent, length, SLC1_OPTIONS(o)), slots);
    same("its buckets", slc1_image_buckets(lent, length, SLC1_OPTIONS(o)), buckets);
    same("its bytes", slc1_image_total(lent, length, SLC1_OPTIONS(o)), total);
}

/* With slot_capacity 0, as its header says: the image above; places and records; and create, which has no header to ask. */
static void as_the_header_says(void)
{
    const slc1_options any = {3, 5, 0, 9, 0, SLC1_NO_WRITER_KNOWN}, other = {3, 5, 3, 9, 0, SLC1_NO_WRITER_KNOWN};
    const uint64_t last = SLC1_CAPACITY_LIMIT - 1;
    const uint8_t *abc = (const uint8_t *)"abc";
    uint8_t record[32];

    same("a full check", slc1_full_check(image, TOTAL, SLC1_OPTIONS(&any)), SLC1_DONE);
    measured(image, TOTAL, &any, 2, 4, TOTAL);
    measured(image, TOTAL, &options, 2, 4, TOTAL);
    measured(image, TOTAL, &other, 0, 0, 0);
    measured(image, TOTAL - 1, &any, 0, 0, 0);
    same("a key", slc1_get(image, TOTAL, &any, abc, 3, NULL, NULL, NULL, NULL) == image + 288 + 24, 1);
    same("no total size", slc1_total_size(SLC1_OPTIONS(&any)), 0);
    same("key offset of the last slot", slc1_key_offset(SLC1_OPTIONS(&any), last), 256 + last * 32 + 8);
    same("key offset past it", slc1_key_offset(SLC1_OPTIONS(&any), last + 1), 0);
    same("index offset of the last slot", slc1_index_offset(SLC1_OPTIONS(&any), last), 256 + last * 32 + 8 + 8 + 8);
    same("index offset past it", slc1_index_offset(SLC1_OPTIONS(&any), last + 1), 0);
    same("a record", slc1_delete_record(record, sizeof record, &any, abc, 3), SLC1_DONE);
    same("create", slc1_create(image, TOTAL, SLC1_OPTIONS(&any)), SLC1_INVALID_INPUT);
    same("and nothing changed", slc1_open_check(image, TOTAL, SLC1_OPTIONS(&any)), SLC1_DONE);
}

/* 2 slots of 32 bytes under other numbers of buckets: a header and zeros, DIRTY, opened as the header says. */
static uint32_t opened_with(uint64_t bucket_count, uint64_t slot_capacity)
{
    const slc1_options own = {3, 5, slot_capacity, 9, 0, SLC1_LOCK_HELD}, any = {3, 5, 0, 9, 0, SLC1_LOCK_HELD};
    static uint8_t lent[256 + 2 * 32 + 16 * 16];
    size_t length = bucket_count < 16 ? 256 + 2 * 32 + 16 * (size_t)bucket_count : sizeof lent;

    write_header(lent, &own, &(struct header_numbers){.state = DIRTY, .bucket_count = bucket_count});
    return slc1_open_check(lent, length, SLC1_OPTIONS(&any));
}

static void foreign(void)
{
    const slc1_options own = {3, 5, 2, 9, 0, SLC1_LOCK_HELD}, any = {3, 5, 0, 9, 0, SLC1_LOCK_HELD};
    enum { BUCKETS = 16, FOREIGN = 256 + 2 * 32 + BUCKETS * 16 };
    const uint8_t *abc = (const uint8_t *)"abc", *index = (const uint8_t *)"index";
    uint8_t lent[FOREIGN] = {0}, batch[32];

    same("4 buckets", opened_with(4, 2), SLC1_DONE);
    same("16 buckets", opened_with(16, 2), SLC1_DONE);
    same("2 buckets", opened_with(2, 2), SLC1_NEEDS_REBUILD);
    same("6 buckets", opened_with(6, 2), SLC1_NEEDS_REBUILD);
    same("twice the most buckets", opened_with(2 * SLC1_BUCKET_LIMIT, 2), SLC1_INCOMPATIBLE);
    same("no slots", opened_with(4, 0), SLC1_INCOMPATIBLE);
    same("a slot too many", opened_with(4, SLC1_CAPACITY_LIMIT + 1), SLC1_INCOMPATIBLE);

    write_header(lent, &own, &(struct header_numbers){.state = DIRTY, .bucket_count = BUCKETS});
    measured(lent, FOREIGN, &any, 2, BUCKETS, FOREIGN);
    same("a record", slc1_put_record(batch, sizeof batch, &any, abc, 3, -7, index, 5), SLC1_DONE);
    same("a commit", slc1_commit(lent, FOREIGN, SLC1_OPTIONS(&any), batch, sizeof batch), SLC1_DONE);
    same("what it leaves", slc1_full_check_live(lent, FOREIGN, SLC1_OPTIONS(&any)), 1);
    same("in the bucket of 16", slc1_word_at(lent + FOREIGN - BUCKETS * 16 + (0xe71fa2190541574b % BUCKETS) * 16 + 8), 1);
    same("its revision", (uint64_t)slc1_lookup_revision(lent, FOREIGN, SLC1_OPTIONS(&own), abc, 3), (uint64_t)-7);
    measured(lent, FOREIGN, &own, 2, BUCKETS, FOREIGN);
}

/* The helpers of the header: what they refuse, and what they make of keys and indexes of the right length. */
static void helpers(void)
{
    const slc1_options wrong = {65, 5, 2, 9, 0, SLC1_NO_WRITER_KNOWN}, plain = {3, 0, 2, 9, 0, SLC1_NO_WRITER_KNOWN};
    const uint8_t *abc = (const uint8_t *)"abc", *index = (const uint8_t *)"index";
    const uint8_t put_abc[32] = {1, [8] = 'a', 'b', 'c', [16] = 0xf9, 0xff, 0xff, 0xff, 0xff, 0xff, 0xff, 0xff, 'i', 'n', 'd', 'e', 'x'};
    const uint8_t delete_abc[32] = {[8] = 'a', 'b', 'c'};
    uint8_t record[33];

    memset(record, 99, sizeof record);
    same("a put of a short key", slc1_put_record(record, 32, &options, abc, 2, -7, index, 5), SLC1_INVALID_INPUT);
    same("a put of a long key", slc1_put_record(record, 32, &options, abc, 4, -7, index, 5), SLC1_INVALID_INPUT);
    same("a put of a short index", slc1_put_record(record, 32, &options, abc, 3, -7, index, 4), SLC1_INVALID_INPUT);
    same("a put of a long index", slc1_put_record(record, 32, &options, abc, 3, -7, index, 6), SLC1_INVALID_INPUT);
    same("a put of wrong options", slc1_put_record(record, 32, &wrong, abc, 65, -7, index, 5), SLC1_INVALID_INPUT);
    same("a put in too little room", slc1_put_record(record, 31, &options, abc, 3, -7, index, 5), SLC1_TOO_SHORT);
    same("a delete of a short key", slc1_delete_record(record, 32, &options, abc, 2), SLC1_INVALID_INPUT);
    same("a delete in too little room", slc1_delete_record(record, 31, &options, abc, 3), SLC1_TOO_SHORT);
    for (size_t i = 0; i < sizeof record; i++)
        same("a record left alone", record[i], 99);
    same("a put", slc1_put_record(record, 33, &options, abc, 3, -7, index, 5), SLC1_DONE);
    same("its bytes", (uint64_t)memcmp(record, put_abc, 32), 0);
    same("its revision", slc1_word_at(record + SLC1_REVISION_AT(3)), (uint64_t)-7);
    same("a delete", slc1_delete_record(record, 33, &options, abc, 3), SLC1_DONE);
    same("its bytes", (uint64_t)memcmp(record, delete_abc, 32), 0);
    same("a put without an index", slc1_put_record(record, 33, &plain, abc, 3, 0, NULL, 0), SLC1_DONE);
    same("the byte past a record", record[32], 99);

    for (uint32_t answer = 0; answer < 40; answer++)
        same("a sentence for each number", slc1_text(answer)[0] != '\0', 1);
    same("its own", (uint64_t)strcmp(slc1_text(SLC1_FULL), slc1_text(SLC1_BUSY)) != 0, 1);
}

/* slc1_get of keys that are found, not present and refused; and where nothing but the index is asked for. */
static void gets(void)
{
    uint32_t answer = 99;
    uint64_t slot = 99, buckets = 99;
    int64_t revision = 99;
    const uint8_t *index = slc1_get(image, TOTAL, &options, (const uint8_t *)"abc", 3, &answer, &slot, &revision, &buckets);

    same("found", index == image + slc1_index_offset(SLC1_OPTIONS(&options), 1), 1);
    same("its answer", answer, SLC1_DONE);
    same("its slot", slot, 1);
    same("its revision", (uint64_t)revision, (uint64_t)-7);
    same("its buckets", buckets, 2);
    same("found again", slc1_get(image, TOTAL, &options, (const uint8_t *)"abc", 3, NULL, NULL, NULL, NULL) == index, 1);
    same("not present", slc1_get(image, TOTAL, &options, (const uint8_t *)"abg", 3, &answer, &slot, &revision, &buckets) == NULL, 1);
    same("its answer", answer, SLC1_NOT_PRESENT);
    same("no slot", slot, 0);
    same("no revision", (uint64_t)revision, 0);
    same("its buckets", buckets, 3);
    same("refused", slc1_get(image, TOTAL, &options, (const uint8_t *)"abc", 2, &answer, NULL, NULL, &buckets) == NULL, 1);
    same("its answer", answer, SLC1_INVALID_INPUT);
    same("no buckets", buckets, 0);
}

int main(void)
{
    digests();
    ages();
    sizes();
    capacities();
    layouts();
    lay_out();
    opened();
    lookups();
    gets();
    full_checks();
    listings();
    listings_reported();
    written();
    batches();
    as_the_header_says();
    foreign();
    helpers();
    if (differences == 0)
        puts("every call of slc1.h answers as it should");
    return differences != 0;
}
