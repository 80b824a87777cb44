/* The store and the shape of a file, by itself: its own slots and buckets are taken, and a rebuild may make other slots.
 *
 * usage: store_slots FOLDER
 *   FOLDER is an empty folder, where the files are made. */
#define _DEFAULT_SOURCE /* POSIX under -std=c11 */

#include <stdbool.h>
#include <stdio.h>
#include <stdlib.h>
#include <unistd.h>

#include "store_calls.h"

/* A file that is there has the slots of its header, whatever the options say. */
static void slots_of_a_file(void)
{
    static const uint64_t OTHERS[] = {1, 511, 513, SLOTS_OF_MANY, 100000};
    slc1_options other = SMALL;
    struct store_reader reader;
    struct store_writer writer;

    same(SLC1_DONE, store_open_reader(&reader, "slots", &SMALL, 0));
    for (size_t i = 0; i < COUNT(OTHERS); i++) {
        other.slot_capacity = OTHERS[i];
        same(SLC1_DONE, store_create("slots", &other));
        same(SLC1_DONE, store_read(&reader)); /* stays open while the file is another */
        same(OTHERS[i], slc1_image_capacity(STORE_LENT(&reader.image)));
        same(slc1_total_size(SLC1_OPTIONS(&other)), reader.image.length);
        same(SLC1_DONE, store_open_writer(&writer, "slots", &SMALL));
        same(OTHERS[i], slc1_image_capacity(STORE_LENT(&writer.image)));
        same(OTHERS[i], writer.slot_capacity);
        same(SLC1_DONE, store_judge(&writer));
        store_close_writer(&writer);
        same(SLC1_DONE, update("slots", &SMALL, 1, 1));
        same(SLC1_DONE, rebuild("slots", &SMALL, 1, 2));
        same(SLC1_DONE, contents_answer("slots", &other));
        holds(unlink("slots") == 0);
    }
    store_close_reader(&reader);
}

/* Slots and buckets as a reader has them, and what is known of the checksum. */
static void reads_shape(struct store_reader *reader, uint64_t slots, uint64_t buckets, int checksum)
{
    same(SLC1_DONE, store_read(reader));
    same(slots, slc1_image_capacity(STORE_LENT(&reader->image)));
    same(buckets, slc1_image_buckets(STORE_LENT(&reader->image)));
    same((uint32_t)checksum, reader->image.checksum);
}

/* A partner's file has the buckets of its header too. An update keeps them and adds the mark; a rebuild keeps the slots. */
static void partners_files(void)
{
    static const struct {
        uint64_t slots, buckets, usual;
    } SHAPES[] = {{1, 4, 2}, {3, 4, 8}, {511, 512, 1024}, {512, 65536, 1024}, {513, 1024, 2048}, {100, 262144, 256}};
    slc1_options other = SMALL;
    struct store_reader reader;
    struct bytes image;

    same(SLC1_DONE, store_open_reader(&reader, "partner's", &SMALL, STORE_VERIFY));
    for (size_t i = 0; i < COUNT(SHAPES); i++) {
        other.slot_capacity = SHAPES[i].slots;
        image = partners_image(&other, SHAPES[i].buckets);
        write_file("partner's", image.bytes, image.length);
        reads_shape(&reader, SHAPES[i].slots, SHAPES[i].buckets, STORE_NO_MARK);
        same(SLC1_DONE, update("partner's", &SMALL, SHAPES[i].slots, 7));
        reads_shape(&reader, SHAPES[i].slots, SHAPES[i].buckets, STORE_RIGHT);
        same(SHAPES[i].slots, slc1_full_check_live(STORE_LENT(&reader.image)));
        same(7, revision_in(&reader));
        same(image.length, reader.image.length);
        same(SLC1_FULL, update("partner's", &SMALL, SHAPES[i].slots + 1, 8));
        same(SLC1_DONE, rebuild("partner's", &SMALL, 1, 9));
        reads_shape(&reader, SHAPES[i].slots, SHAPES[i].usual, STORE_RIGHT);
        same(9, revision_in(&reader));
        free(image.bytes);
    }
    store_close_reader(&reader);
}

/* A rebuild makes a file of as many slots as it is told, and leaves the old one alone where these are too few. */
static void rebuilds_of_other_slots(void)
{
    static const struct {
        uint64_t slots;
        uint32_t answer;
    } TRIED[] = {{99, SLC1_FULL}, {0, SLC1_INVALID_INPUT}, {SLC1_CAPACITY_LIMIT + 1, SLC1_INVALID_INPUT},
                 {UINT64_MAX, SLC1_INVALID_INPUT}, {100, SLC1_DONE}, {5000, SLC1_DONE}, {512, SLC1_DONE}};
    struct store_records records = puts_of(&SMALL, 100, 1);
    slc1_options other = SMALL;
    struct store_writer writer;
    struct bytes before;

    same(SLC1_DONE, store_create("other slots", &SMALL));
    before = contents("other slots");
    for (size_t i = 0; i < COUNT(TRIED); i++) {
        same(SLC1_DONE, store_open_writer(&writer, "other slots", &SMALL));
        writer.slot_capacity = other.slot_capacity = TRIED[i].slots;
        same(TRIED[i].answer, store_rebuild(&writer, &records));
        if (TRIED[i].answer != SLC1_DONE) {
            holds(is_contents("other slots", &before));
        } else {
            same(SLC1_DONE, store_update(&writer, &records)); /* the writer goes on with the new file */
            same(SLC1_DONE, contents_answer("other slots", &other));
        }
        store_close_writer(&writer);
    }
    free(before.bytes);
    free(records.bytes);
}

/* Options need not know the slots, except where nothing else does: to create a file, or to rebuild one that does not say. */
static void slots_that_nobody_says(void)
{
    const struct store_records none = {NULL, 0};
    slc1_options any = SMALL;
    struct store_reader reader;
    struct store_writer writer;

    any.slot_capacity = 0;
    same(SLC1_INVALID_INPUT, store_create("any", &any));
    holds(access("any", F_OK) != 0);
    same(SLC1_DONE, store_create("any", &SMALL));
    same(SLC1_DONE, store_open_reader(&reader, "any", &any, 0));
    same(SLC1_DONE, store_read(&reader));
    store_close_reader(&reader);
    same(SLC1_DONE, update("any", &any, 1, 1));
    same(SLC1_DONE, rebuild("any", &any, 1, 1));
    same(SLC1_DONE, contents_answer("any", &SMALL));
    write_file("any", "SLC1", 4);
    same(SLC1_DONE, store_open_writer(&writer, "any", &any));
    same(0, writer.slot_capacity);
    same(SLC1_INVALID_INPUT, store_rebuild(&writer, &none));
    holds(is_contents("any", &(struct bytes){(uint8_t *)"SLC1", 4}));
    store_close_writer(&writer);
    same(SLC1_DONE, rebuild("any", &SMALL, 1, 1));
    same(SLC1_DONE, contents_answer("any", &SMALL));
}

/* What a header speaks of, where it ends too soon, or has a number that no image has. Slots take 56 bytes, buckets 16. */
static void shapes_spoken_of(void)
{
    static const struct {
        size_t length;
        uint64_t slots, buckets;
        struct store_shape wanted;
    } HEADERS[] = {
        {0, 700, 1024, {512, 0, 45312}}, {39, 700, 1024, {512, 0, 45312}}, {40, 700, 1024, {700, 0, 72224}},
        {79, 700, 1024, {700, 0, 72224}}, {80, 700, 1024, {700, 1024, 55840}}, {80, 700, 2048, {700, 0, 72224}},
        {80, 700, 512, {700, 0, 72224}}, {80, 700, 0, {700, 0, 72224}}, {80, 700, 1025, {700, 0, 72224}},
        {80, 700, SLC1_BUCKET_LIMIT, {700, SLC1_BUCKET_LIMIT, 67148320}}, {80, 700, 2 * SLC1_BUCKET_LIMIT, {700, 0, 72224}},
        {80, 700, UINT64_MAX, {700, 0, 72224}}, {80, 0, 1024, {512, 0, 45312}}, {80, 0, 2048, {512, 0, 45312}},
        {80, SLC1_CAPACITY_LIMIT + 1, 512, {512, 0, 45312}}, {80, UINT64_MAX, 512, {512, 0, 45312}},
        {80, SLC1_CAPACITY_LIMIT, SLC1_CAPACITY_LIMIT, {SLC1_CAPACITY_LIMIT, 0, 92274944}},
        {80, SLC1_CAPACITY_LIMIT, SLC1_BUCKET_LIMIT, {SLC1_CAPACITY_LIMIT, SLC1_BUCKET_LIMIT, 125829376}},
        {256, 1, 2, {1, 0, 344}}, {256, 1, 4, {1, 4, 376}}, {256, 3, 4, {3, 4, 488}}};
    uint8_t bytes[256] = {0};
    struct store_image image = {bytes, 0, SMALL, STORE_UNCHECKED};

    image.options.slot_capacity = 0;
    for (size_t i = 0; i < COUNT(HEADERS); i++) {
        struct store_shape shape;

        image.length = HEADERS[i].length;
        slc1_put_word(bytes + 0x20, HEADERS[i].slots);
        slc1_put_word(bytes + 0x48, HEADERS[i].buckets);
        shape = store_shape_of(&image, 512);
        same(HEADERS[i].wanted.slots, shape.slots);
        same(HEADERS[i].wanted.buckets, shape.buckets);
        same(HEADERS[i].wanted.total, shape.total);
    }
}

int main(int count, char **words)
{
    static void (*const TESTS[])(void) = {slots_of_a_file, partners_files, rebuilds_of_other_slots, slots_that_nobody_says,
                                          shapes_spoken_of};

    if (count != 2)
        return 64;
    run_tests(TESTS, COUNT(TESTS), words[1]);
    printf("the store's shapes agree: %zu comparisons\n", comparisons);
    return 0;
}
