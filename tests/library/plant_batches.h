/* Batches for an image: of records of every kind, of new keys, and of deletes. */
#ifndef PLANT_BATCHES_H
#define PLANT_BATCHES_H

#include "plant_calls.h"

/* A number below a limit, by xorshift. */
static uint32_t any_below(uint64_t limit)
{
    static uint64_t state = 88172645463325252;

    state ^= state << 13;
    state ^= state >> 7;
    state ^= state << 17;
    return (uint32_t)(state % limit);
}

/* Mostly a put of a key that was never there; else a put or a delete of one that stands in a slot, live or deleted, or of one that
 * the batch has already. An ordered image takes new keys from its last key on: a lower one that is not live is only deleted. */
static struct operation any_operation(const struct model *m, const struct operation *batch, size_t count)
{
    uint64_t highwater = m->numbers.slot_highwater;
    uint32_t last = highwater == 0 ? 0 : m->slots[highwater - 1].key, kind = any_below(100);
    struct operation o = {.put = any_below(4) != 0};

    if (kind < 5 && count > 0)
        o.key = batch[any_below(count)].key;
    else if (kind < 30 && highwater > 0)
        o.key = m->slots[any_below(highwater)].key;
    else
        o.key = m->options.ordered ? last + any_below(2 * SLC1_BATCH_LIMIT) : any_below(KEYS);
    if (m->options.ordered && o.key < last && m->slot_plus1[o.key] == 0)
        o.put = false;
    if (o.put)
        o.revision = (int64_t)any_below(UINT32_MAX) - 2147483647;
    return o;
}

static void mixed_batches(struct plant *p, size_t batches)
{
    struct operation batch[SLC1_BATCH_LIMIT];

    for (size_t done = 0; done < batches; done++) {
        for (size_t i = 0; i < SLC1_BATCH_LIMIT; i++)
            batch[i] = any_operation(&p->model, batch, i);
        committed(p, batch, SLC1_BATCH_LIMIT);
    }
}

/* Puts of keys that follow from their place in the cache, no two alike: of an ordered image ascending, the batch's last first. */
static void new_keys(const struct model *m, uint64_t place, size_t count, struct operation *batch)
{
    for (size_t i = 0; i < count; i++) {
        uint64_t key = m->options.ordered ? 3 * (place + count - 1 - i) : (place + i) * 2654435761 % KEYS;

        batch[i] = (struct operation){(uint32_t)key, true, (int64_t)(place + i)};
    }
}

/* Deletes of the keys of slots that are live. */
static void deletes_from(const struct model *m, uint64_t slot, size_t count, struct operation *batch)
{
    for (size_t i = 0; i < count; i++) {
        same(1, m->slots[slot + i].meta);
        batch[i] = (struct operation){.key = m->slots[slot + i].key};
    }
}

#endif
