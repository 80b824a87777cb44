/* A plain model of an image: what each key number has, and beside it the slots and buckets that docs/format.md gives them. It
 * shares nothing with the library but the header's CRC: the map is an array over key numbers, hashes and probes are its own. */
#ifndef PLANT_MODEL_H
#define PLANT_MODEL_H

#include "../facts.h"
#include "image_bytes.h"

enum { KEYS = 1 << 22 }; /* key numbers are below this */

struct operation {
    uint32_t key;
    bool put;
    int64_t revision;
};

struct slot {
    uint32_t key, meta;
    int64_t revision;
};

struct bucket {
    uint64_t hash64, slot_plus1;
};

struct model {
    slc1_options options;
    uint64_t bucket_count;
    struct header_numbers numbers;
    uint32_t *slot_plus1; /* of each key number: 0 where it is not live */
    uint32_t *deciding;   /* of each key number: 1 more than the place of its last record in the batch at hand */
    struct slot *slots;
    struct bucket *buckets;
};

static void *zeros(size_t count, size_t size)
{
    void *room = calloc(count, size);

    holds(room != NULL);
    return room;
}

static struct model fresh_model(slc1_options options)
{
    struct model m = {.options = options, .bucket_count = bucket_count_of(&options)};

    m.slot_plus1 = zeros(KEYS, sizeof *m.slot_plus1);
    m.deciding = zeros(KEYS, sizeof *m.deciding);
    m.slots = zeros(options.slot_capacity, sizeof *m.slots);
    m.buckets = zeros(m.bucket_count, sizeof *m.buckets);
    return m;
}

static void free_model(struct model *m)
{
    free(m->slot_plus1);
    free(m->deciding);
    free(m->slots);
    free(m->buckets);
}

/* The key of a number. The number comes first, its highest byte foremost: keys are ordered as their numbers are. */
static void key_bytes(const struct model *m, uint32_t number, uint8_t *key)
{
    uint64_t mixed = number * UINT64_C(0x9E3779B97F4A7C15);

    for (size_t i = 0; i < m->options.key_size; i++)
        key[i] = (uint8_t)(i < 4 ? number >> (24 - 8 * i) : mixed >> 8 * (i % 8));
}

static uint64_t hash_of(const struct model *m, uint32_t number)
{
    uint8_t key[64];
    uint64_t hash64 = UINT64_C(14695981039346656037);

    key_bytes(m, number, key);
    for (size_t i = 0; i < m->options.key_size; i++)
        hash64 = (hash64 ^ key[i]) * UINT64_C(1099511628211);
    return hash64;
}

static bool is_full(const struct bucket *bucket)
{
    return bucket->slot_plus1 != 0 && bucket->slot_plus1 != UINT64_MAX;
}

/* The number of buckets that a lookup of a key examines: up to its own, or to an EMPTY one. The last of them is left in place. */
static uint64_t examined(const struct model *m, uint32_t key, uint64_t *place)
{
    uint64_t count = 1;

    *place = hash_of(m, key) % m->bucket_count;
    while (m->buckets[*place].slot_plus1 != 0
           && !(is_full(&m->buckets[*place]) && m->slots[m->buckets[*place].slot_plus1 - 1].key == key)) {
        *place = (*place + 1) % m->bucket_count;
        count++;
    }
    return count;
}

/* The bucket of a new key: the first on its way that is EMPTY or a TOMBSTONE. */
static void index_slot(struct model *m, uint64_t slot)
{
    uint64_t hash64 = hash_of(m, m->slots[slot].key), place = hash64 % m->bucket_count;

    while (is_full(&m->buckets[place]))
        place = (place + 1) % m->bucket_count;
    m->numbers.bucket_tombstones -= m->buckets[place].slot_plus1 == UINT64_MAX;
    m->buckets[place] = (struct bucket){hash64, slot + 1};
}

static void append(struct model *m, const struct operation *o)
{
    uint64_t slot = m->numbers.slot_highwater++;

    m->slots[slot] = (struct slot){o->key, 1, o->revision};
    m->slot_plus1[o->key] = (uint32_t)slot + 1;
    m->numbers.live_count++;
    index_slot(m, slot);
}

static void delete_live(struct model *m, uint32_t key)
{
    uint64_t place;

    examined(m, key, &place);
    m->buckets[place].slot_plus1 = UINT64_MAX;
    m->numbers.bucket_tombstones++;
    m->numbers.live_count--;
    m->slots[m->slot_plus1[key] - 1].meta = 0;
    m->slot_plus1[key] = 0;
}

static void rebuild(struct model *m)
{
    memset(m->buckets, 0, m->bucket_count * sizeof *m->buckets);
    m->numbers.bucket_tombstones = 0;
    for (uint64_t slot = 0; slot < m->numbers.slot_highwater; slot++)
        if (m->slots[slot].meta == 1)
            index_slot(m, slot);
}

static int by_key(const void *a, const void *b)
{
    uint32_t x = ((const struct operation *)a)->key, y = ((const struct operation *)b)->key;

    return (x > y) - (x < y);
}

/* What the deciding records do to live keys; the puts of new keys are left in fresh, and their number comes back. */
static size_t act_on_live(struct model *m, const struct operation *batch, size_t count, struct operation *fresh)
{
    size_t new_keys = 0;

    for (size_t i = 0; i < count; i++) {
        uint32_t key = batch[i].key;

        if (m->deciding[key] != i + 1)
            continue;
        if (m->slot_plus1[key] == 0 && batch[i].put)
            fresh[new_keys++] = batch[i];
        else if (m->slot_plus1[key] != 0 && batch[i].put)
            m->slots[m->slot_plus1[key] - 1].revision = batch[i].revision;
        else if (m->slot_plus1[key] != 0)
            delete_live(m, key);
    }
    return new_keys;
}

/* A batch that is accepted. */
static void apply(struct model *m, const struct operation *batch, size_t count)
{
    struct operation fresh[SLC1_BATCH_LIMIT];
    size_t new_keys;

    for (size_t i = 0; i < count; i++)
        m->deciding[batch[i].key] = (uint32_t)i + 1;
    new_keys = act_on_live(m, batch, count, fresh);
    if (m->options.ordered)
        qsort(fresh, new_keys, sizeof *fresh, by_key);
    for (size_t i = 0; i < new_keys; i++)
        append(m, &fresh[i]);
    if (4 * m->numbers.bucket_tombstones > m->bucket_count)
        rebuild(m);
    m->numbers.generation += 2;
}

#endif
