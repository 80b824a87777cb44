/* Scan and match of an image, with what its model says that they list. */
#ifndef PLANT_LISTINGS_H
#define PLANT_LISTINGS_H

#include "plant_calls.h"

/* What a match asks for. A scan is one with no pattern. */
struct pattern {
    uint64_t offset, bits;
    const uint8_t *bytes;
    size_t length;
};

static bool bit_at(const uint8_t *bytes, uint64_t bit)
{
    return bytes[bit / 8] >> (7 - bit % 8) & 1;
}

static bool matches(const struct model *m, const struct slot *slot, const struct pattern *pattern)
{
    uint64_t bits = pattern->bits == 0 ? 8 * pattern->length : pattern->bits;
    uint8_t key[64];

    key_bytes(m, slot->key, key);
    for (uint64_t bit = 0; bit < bits; bit++)
        if (bit_at(key + pattern->offset, bit) != bit_at(pattern->bytes, bit))
            return false;
    return slot->meta == 1;
}

/* Leaves the slots to list in wanted, and gives the number of all that match. */
static uint64_t list_modelled(
    const struct plant *p, const struct pattern *pattern, uint64_t skip, uint64_t limit, size_t *written)
{
    uint64_t total = 0;

    *written = 0;
    for (uint64_t slot = 0; slot < p->model.numbers.slot_highwater; slot++) {
        if (!matches(&p->model, &p->model.slots[slot], pattern))
            continue;
        if (total >= skip && *written < limit)
            p->wanted[(*written)++] = (uint32_t)slot;
        total++;
    }
    return total;
}

/* What a listing answers with room for count slots; the list is UNTOUCHED before it. */
static uint32_t list_answer(
    const struct plant *p, const struct pattern *pattern, uint64_t skip, uint64_t limit, size_t count, uint64_t *results)
{
    for (size_t i = 0; i <= p->model.options.slot_capacity; i++)
        p->numbers[i] = UNTOUCHED;
    if (pattern->length == 0)
        return slc1_scan_results(LENT(p), skip, limit, p->numbers, count, results, SLC1_LISTING_RESULTS);
    return slc1_match_results(
        LENT(p), pattern->offset, pattern->bits, pattern->bytes, pattern->length, skip, limit, p->numbers, count, results,
        SLC1_LISTING_RESULTS);
}

/* The entries are those that the model wants, and the others are left alone. */
static void entries_are(const struct plant *p, size_t written)
{
    for (size_t i = 0; i <= p->model.options.slot_capacity; i++)
        same(i < written ? p->wanted[i] : UNTOUCHED, p->numbers[i]);
}

/* A listing in a list that has room for its slots and no more; and in one that is short of one. */
static uint64_t listing_as_modelled(const struct plant *p, const struct pattern *pattern, uint64_t skip, uint64_t limit)
{
    uint64_t results[SLC1_LISTING_RESULTS];
    size_t written;
    uint64_t total = list_modelled(p, pattern, skip, limit, &written);

    same(SLC1_DONE, list_answer(p, pattern, skip, limit, written, results));
    same(total, results[1]);
    same(written, results[2]);
    entries_are(p, written);
    if (written > 0) {
        same(SLC1_TOO_SHORT, list_answer(p, pattern, skip, limit, written - 1, results));
        entries_are(p, 0);
    }
    return total;
}

static void scans_as_modelled(const struct plant *p)
{
    const struct pattern none = {0};
    uint64_t live = p->model.numbers.live_count;

    same(live, listing_as_modelled(p, &none, 0, UINT64_MAX));
    listing_as_modelled(p, &none, live / 3, 1000);
    listing_as_modelled(p, &none, live - 1, 5);
    listing_as_modelled(p, &none, live, 5);
    listing_as_modelled(p, &none, 0, 0);
    listing_as_modelled(p, &none, UINT64_MAX, UINT64_MAX);
}

/* Patterns out of the key of one live slot, of several bit counts and from several offsets: each matches that key at least. */
static void matches_as_modelled(const struct plant *p, uint64_t slot)
{
    static const struct { uint64_t offset, bits; size_t length; } asked[] = {
        {0, 1, 1}, {0, 12, 2}, {0, 19, 3}, {1, 8, 1}, {1, 0, 2}, {2, 16, 2}, {3, 5, 1}, {4, 3, 1}, {5, 13, 2}, {0, 0, 12},
        {0, 96, 12}};
    uint8_t key[64];

    same(1, p->model.slots[slot].meta);
    key_bytes(&p->model, p->model.slots[slot].key, key);
    for (size_t i = 0; i < sizeof asked / sizeof *asked; i++) {
        struct pattern pattern = {asked[i].offset, asked[i].bits, key + asked[i].offset, asked[i].length};

        holds(listing_as_modelled(p, &pattern, 0, UINT64_MAX) > 0);
        listing_as_modelled(p, &pattern, 1, 100);
    }
}

#endif
