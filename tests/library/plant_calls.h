/* An image between guard bytes beside its model, and each call of the library with what the model says that it gives. */
#ifndef PLANT_CALLS_H
#define PLANT_CALLS_H

#include "plant_model.h"

enum { GUARD_SIZE = 4096, GUARD_BYTE = 0xa5, UNTOUCHED = 0x5a5a5a5a, WIDEST_RECORD = SLC1_RECORD_SIZE(64, 256) };

struct plant {
    struct model model;
    size_t total, slot_size;
    uint8_t *room, *image;
    uint32_t *numbers, *wanted; /* lists for scan and match, each with room for one entry more than there are slots */
};

#define LENT(p) (p)->image, (p)->total, SLC1_OPTIONS(&(p)->model.options)

/* false where there is no memory for the image. */
static bool made_plant(struct plant *p, slc1_options options)
{
    *p = (struct plant){.total = slc1_total_size(SLC1_OPTIONS(&options))};
    p->room = malloc(p->total + 2 * GUARD_SIZE);
    if (p->room == NULL)
        return false;
    memset(p->room, GUARD_BYTE, p->total + 2 * GUARD_SIZE);
    p->image = p->room + GUARD_SIZE;
    p->slot_size = SLC1_RECORD_SIZE(options.key_size, options.index_size);
    p->model = fresh_model(options);
    p->numbers = zeros(options.slot_capacity + 1, sizeof *p->numbers);
    p->wanted = zeros(options.slot_capacity + 1, sizeof *p->wanted);
    return true;
}

static void free_plant(struct plant *p)
{
    free_model(&p->model);
    free(p->room);
    free(p->numbers);
    free(p->wanted);
}

static void record_bytes(const struct model *m, const struct operation *o, uint8_t *record)
{
    const slc1_options *options = &m->options;
    uint8_t key[64], index[256];

    key_bytes(m, o->key, key);
    for (size_t i = 0; i < options->index_size; i++)
        index[i] = (uint8_t)((uint64_t)o->revision + o->key * 7 + i);
    if (o->put)
        slc1_put_record(record, WIDEST_RECORD, options, key, options->key_size, o->revision, index, options->index_size);
    else
        slc1_delete_record(record, WIDEST_RECORD, options, key, options->key_size);
}

/* A slot as the model has it: a deleted one keeps its bytes, meta apart. */
static void slot_bytes(const struct model *m, uint64_t slot, uint8_t *bytes)
{
    record_bytes(m, &(struct operation){m->slots[slot].key, true, m->slots[slot].revision}, bytes);
    bytes[0] = (uint8_t)m->slots[slot].meta;
}

/* Writes the model's image, without the library. */
static void lay_out(struct plant *p)
{
    const struct model *m = &p->model;
    uint8_t *buckets = p->image + p->total - 16 * m->bucket_count, record[WIDEST_RECORD];

    memset(p->image, 0, p->total);
    write_header(p->image, &m->options, &m->numbers);
    for (uint64_t slot = 0; slot < m->numbers.slot_highwater; slot++) {
        slot_bytes(m, slot, record);
        memcpy(p->image + SLC1_HEADER_SIZE + slot * p->slot_size, record, p->slot_size);
    }
    for (uint64_t b = 0; b < m->bucket_count; b++) {
        slc1_put_word(buckets + 16 * b, m->buckets[b].hash64);
        slc1_put_word(buckets + 16 * b + 8, m->buckets[b].slot_plus1);
    }
}

static bool all_are(const uint8_t *bytes, size_t length, uint8_t byte)
{
    return length == 0 || (bytes[0] == byte && memcmp(bytes, bytes + 1, length - 1) == 0);
}

/* Every byte of the image is the model's, and no guard byte has changed. */
static void image_as_modelled(const struct plant *p)
{
    const struct model *m = &p->model;
    const uint8_t *slots = p->image + SLC1_HEADER_SIZE, *buckets = p->image + p->total - 16 * m->bucket_count;
    uint64_t given_out = m->numbers.slot_highwater;
    uint8_t record[WIDEST_RECORD], header[SLC1_HEADER_SIZE];

    write_header(header, &m->options, &m->numbers);
    for (size_t i = 0; i < sizeof header; i++)
        same(header[i], p->image[i]);
    for (uint64_t slot = 0; slot < given_out; slot++) {
        slot_bytes(m, slot, record);
        holds(memcmp(record, slots + slot * p->slot_size, p->slot_size) == 0);
    }
    holds(all_are(slots + given_out * p->slot_size, (m->options.slot_capacity - given_out) * p->slot_size, 0));
    for (uint64_t b = 0; b < m->bucket_count; b++) {
        same(m->buckets[b].hash64, slc1_word_at(buckets + 16 * b));
        same(m->buckets[b].slot_plus1, slc1_word_at(buckets + 16 * b + 8));
    }
    holds(all_are(p->room, GUARD_SIZE, GUARD_BYTE));
    holds(all_are(p->image + p->total, GUARD_SIZE, GUARD_BYTE));
}

/* What a commit of a batch answers under a role. */
static uint32_t commit_answer(struct plant *p, uint64_t role, const struct operation *batch, size_t count)
{
    static uint8_t records[(SLC1_BATCH_LIMIT + 2) * WIDEST_RECORD];
    slc1_options options = p->model.options;

    options.role = role;
    for (size_t i = 0; i < count; i++)
        record_bytes(&p->model, &batch[i], records + i * p->slot_size);
    return slc1_commit(p->image, p->total, SLC1_OPTIONS(&options), records, count * p->slot_size);
}

static void committed(struct plant *p, const struct operation *batch, size_t count)
{
    same(SLC1_DONE, commit_answer(p, SLC1_LOCK_HELD, batch, count));
    apply(&p->model, batch, count);
}

/* A commit that is refused, and leaves every byte alone. */
static void refused(struct plant *p, uint32_t answer, const struct operation *batch, size_t count)
{
    same(answer, commit_answer(p, SLC1_LOCK_HELD, batch, count));
    image_as_modelled(p);
}

static void created(struct plant *p)
{
    same(SLC1_DONE, slc1_create(LENT(p)));
    image_as_modelled(p);
}

static void begun(struct plant *p)
{
    same(SLC1_DONE, slc1_begin(LENT(p)));
    p->model.numbers.state = DIRTY;
}

static void checkpointed(struct plant *p)
{
    same(SLC1_DONE, slc1_checkpoint(LENT(p)));
    p->model.numbers.state = CLEAN;
}

static void lookup_as_modelled(const struct plant *p, uint32_t number)
{
    const struct model *m = &p->model;
    uint64_t results[SLC1_LOOKUP_RESULTS], place;
    uint32_t plus1 = m->slot_plus1[number];
    uint8_t key[64];

    key_bytes(m, number, key);
    same(plus1 == 0 ? SLC1_NOT_PRESENT : SLC1_DONE,
         slc1_lookup_results(LENT(p), key, m->options.key_size, results, SLC1_LOOKUP_RESULTS));
    same(plus1 == 0 ? 0 : plus1 - 1, results[1]);
    same(plus1 == 0 ? 0 : m->slots[plus1 - 1].revision, results[2]);
    same(examined(m, number, &place), results[3]);
}

/* The slot that a lookup finds a key in. */
static uint64_t slot_found(const struct plant *p, uint32_t number)
{
    uint8_t key[64];

    key_bytes(&p->model, number, key);
    return slc1_lookup_slot(LENT(p), key, p->model.options.key_size);
}

/* Lookups of the key of every slot, live or deleted, and of key numbers all over, most of which were never there. */
static void lookups_as_modelled(const struct plant *p)
{
    for (uint64_t slot = 0; slot < p->model.numbers.slot_highwater; slot++)
        lookup_as_modelled(p, p->model.slots[slot].key);
    for (uint32_t number = 0; number < KEYS; number += 23)
        lookup_as_modelled(p, number);
}

static void full_check_as_modelled(const struct plant *p)
{
    const struct model *m = &p->model;
    uint64_t results[SLC1_FULL_CHECK_RESULTS], place, probes = 0;

    for (uint64_t slot = 0; slot < m->numbers.slot_highwater; slot++)
        probes += m->slots[slot].meta == 1 ? examined(m, m->slots[slot].key, &place) : 0;
    same(SLC1_DONE, slc1_full_check_results(LENT(p), results, SLC1_FULL_CHECK_RESULTS));
    same(m->numbers.live_count, results[1]);
    same(m->numbers.bucket_tombstones, results[2]);
    same(probes, results[3]);
}

#endif
