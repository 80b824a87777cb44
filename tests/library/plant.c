/* The library at full size, each image beside a plain model of it: every byte, lookups, scans, matches and the full check's
 * numbers are the model's. What is random is the same in each run.
 *
 * usage: plant [unordered | ordered]
 * With a word, a whole cache is filled by commits of new keys; with none, images are filled in part, or laid out by the model. */
#include <time.h>

#include "plant_batches.h"
#include "plant_listings.h"

static slc1_options plant_options(uint64_t ordered)
{
    return (slc1_options){12, 20, SLC1_CAPACITY_LIMIT, 1, ordered, SLC1_LOCK_HELD};
}

static void made(struct plant *p, uint64_t ordered)
{
    holds(made_plant(p, plant_options(ordered)));
    created(p);
    begun(p);
    same(92274944, p->total);
    same(2097152, slc1_word_at(p->image + 0x48)); /* bucket_count */
}

/* Everything that reads, which leaves every byte alone. */
static void reads_as_modelled(const struct plant *p)
{
    uint64_t slot = p->model.numbers.slot_highwater - 1;

    while (p->model.slots[slot].meta == 0)
        slot--;
    image_as_modelled(p);
    full_check_as_modelled(p);
    lookups_as_modelled(p);
    scans_as_modelled(p);
    matches_as_modelled(p, slot);
    image_as_modelled(p);
}

static uint32_t open_answer(struct plant *p, uint64_t role)
{
    slc1_options options = p->model.options;

    options.role = role;
    return slc1_open_check(p->image, p->total, SLC1_OPTIONS(&options));
}

/* Batches of records of every kind, then everything that reads, before and after the checkpoint. */
static void filled_in_part(uint64_t ordered)
{
    struct plant p;

    made(&p, ordered);
    mixed_batches(&p, 100);
    holds(p.model.numbers.bucket_tombstones > 0);
    if (ordered) {
        uint32_t gone = 0;

        while (p.model.slot_plus1[gone] != 0)
            gone++;
        holds(gone < p.model.slots[p.model.numbers.slot_highwater - 1].key);
        refused(&p, SLC1_OUT_OF_ORDER, &(struct operation){gone, true, 5}, 1);
    }
    same(SLC1_NEEDS_REBUILD, open_answer(&p, SLC1_NO_WRITER_KNOWN));
    same(SLC1_DONE, open_answer(&p, SLC1_ANOTHER_WRITER));
    reads_as_modelled(&p);
    checkpointed(&p);
    same(SLC1_DONE, open_answer(&p, SLC1_NO_WRITER_KNOWN));
    image_as_modelled(&p);
    free_plant(&p);
}

/* A batch of one record too many: refused after the role and the generation, and before the full check. */
static void batches_too_long(void)
{
    const size_t over = SLC1_BATCH_LIMIT + 1;
    struct operation batch[SLC1_BATCH_LIMIT + 1];
    struct plant p;
    uint64_t place;

    made(&p, 0);
    mixed_batches(&p, 2);
    new_keys(&p.model, 0, over, batch);
    refused(&p, SLC1_INVALID_INPUT, batch, over);
    same(SLC1_BUSY, commit_answer(&p, SLC1_ANOTHER_WRITER, batch, over));
    same(SLC1_NEEDS_REBUILD, commit_answer(&p, SLC1_NO_WRITER_KNOWN, batch, over)); /* DIRTY */

    p.model.numbers.generation = UINT64_MAX - 1;
    lay_out(&p);
    same(SLC1_BUSY, commit_answer(&p, SLC1_ANOTHER_WRITER, batch, over));
    refused(&p, SLC1_NEEDS_REBUILD, batch, over);
    p.model.numbers.generation = 8;

    examined(&p.model, p.model.slots[0].key, &place);
    p.model.buckets[place].hash64 ^= 1;
    lay_out(&p);
    refused(&p, SLC1_INVALID_INPUT, batch, over);
    refused(&p, SLC1_NEEDS_REBUILD, batch, SLC1_BATCH_LIMIT);
    p.model.buckets[place].hash64 ^= 1;
    lay_out(&p);
    committed(&p, batch, SLC1_BATCH_LIMIT);
    checkpointed(&p);
    refused(&p, SLC1_INVALID_INPUT, batch, 1);
    same(SLC1_INVALID_INPUT, commit_answer(&p, SLC1_NO_WRITER_KNOWN, batch, over));
    image_as_modelled(&p);
    free_plant(&p);
}

/* One slot too many, in a buffer with room for it: 1,048,577 slots of 24 bytes, and 4,194,304 buckets. */
static void slots_too_many(void)
{
    slc1_options more = plant_options(0);
    struct plant p;

    made(&p, 0);
    more.slot_capacity = SLC1_CAPACITY_LIMIT + 1;
    more.key_size = 1;
    more.index_size = 0;
    holds(256 + 1048577 * 24 + 4194304 * 16 <= p.total + GUARD_SIZE);
    same(0, slc1_total_size(SLC1_OPTIONS(&more)));
    same(SLC1_INVALID_INPUT, slc1_create(p.image, p.total + GUARD_SIZE, SLC1_OPTIONS(&more)));
    image_as_modelled(&p);
    free_plant(&p);
}

enum { DELETED_FROM = 2 * SLC1_BATCH_LIMIT }; /* the slots before it stay live, for batches to act on */

/* The model's image of a cache with few slots left and as many TOMBSTONE buckets as there may be without a rebuild. */
static void laid_out_nearly_full(struct plant *p, uint64_t left)
{
    struct operation batch[SLC1_BATCH_LIMIT];
    struct model *m = &p->model;

    for (uint64_t first = 0; first < m->options.slot_capacity - left; first = m->numbers.slot_highwater) {
        uint64_t count = m->options.slot_capacity - left - first;

        count = count < SLC1_BATCH_LIMIT ? count : SLC1_BATCH_LIMIT;
        new_keys(m, first, count, batch);
        apply(m, batch, count);
    }
    for (uint64_t slot = DELETED_FROM; m->numbers.bucket_tombstones < m->bucket_count / 4; slot += SLC1_BATCH_LIMIT) {
        deletes_from(m, slot, SLC1_BATCH_LIMIT, batch);
        apply(m, batch, SLC1_BATCH_LIMIT);
    }
    lay_out(p);
}

/* The last batch that fits, and batches with a new key too many: deletes of the same batch give no slot back. */
static void last_batches(struct plant *p, uint64_t left)
{
    struct operation batch[SLC1_BATCH_LIMIT + 1];
    struct model *m = &p->model;
    uint64_t first = m->numbers.slot_highwater, capacity = m->options.slot_capacity;

    new_keys(m, first, left + 1, batch);
    deletes_from(m, 0, SLC1_BATCH_LIMIT - left - 1, batch + left + 1);
    refused(p, SLC1_FULL, batch, SLC1_BATCH_LIMIT);
    for (size_t i = left; i < SLC1_BATCH_LIMIT; i++)
        batch[i] = (struct operation){m->slots[i - left].key, true, -(int64_t)i};
    committed(p, batch, SLC1_BATCH_LIMIT);
    same(capacity, m->numbers.slot_highwater);
    same(capacity - 1, slot_found(p, m->slots[capacity - 1].key));
    image_as_modelled(p);

    new_keys(m, capacity, SLC1_BATCH_LIMIT + 1, batch);
    refused(p, SLC1_FULL, batch, 1);
    refused(p, SLC1_FULL, batch, SLC1_BATCH_LIMIT);
    refused(p, SLC1_INVALID_INPUT, batch, SLC1_BATCH_LIMIT + 1);
    refused(p, SLC1_FULL, &(struct operation){m->slots[DELETED_FROM].key, true, 1}, 1);
}

/* Deletes up to the last that needs no rebuild, and one more. */
static void rebuilt(struct plant *p)
{
    struct operation batch[SLC1_BATCH_LIMIT];
    struct model *m = &p->model;
    uint64_t most = m->bucket_count / 4, room = most - m->numbers.bucket_tombstones;

    holds(0 < room && room <= SLC1_BATCH_LIMIT);
    deletes_from(m, 0, room, batch);
    committed(p, batch, room);
    same(most, m->numbers.bucket_tombstones);
    image_as_modelled(p);
    lookups_as_modelled(p);
    deletes_from(m, room, 1, batch);
    committed(p, batch, 1);
    same(0, m->numbers.bucket_tombstones);
    reads_as_modelled(p);
}

static void full(void)
{
    const uint64_t left = 1000;
    struct plant p;

    made(&p, 0);
    laid_out_nearly_full(&p, left);
    full_check_as_modelled(&p);
    last_batches(&p, left);
    rebuilt(&p);
    free_plant(&p);
}

/* The largest image there is: keys of 64 bytes, indexes of 256. */
static void widest(void)
{
    slc1_options options = {64, 256, SLC1_CAPACITY_LIMIT, 1, 0, SLC1_LOCK_HELD};
    uint64_t total = slc1_total_size(SLC1_OPTIONS(&options));
    struct plant p;

    same(385876224, total);
    if (!made_plant(&p, options)) {
        printf("plant: NOT TRIED: there is no memory for the largest image, of %" PRIu64 " bytes\n", total);
        return;
    }
    created(&p);
    begun(&p);
    mixed_batches(&p, 2);
    full_check_as_modelled(&p);
    lookups_as_modelled(&p);
    image_as_modelled(&p);
    free_plant(&p);
}

static double seconds(void)
{
    struct timespec t;

    timespec_get(&t, TIME_UTC);
    return (double)t.tv_sec + (double)t.tv_nsec / 1e9;
}

/* A cache filled by commits from its first slot to its last. */
static void filled_whole(uint64_t ordered)
{
    struct operation batch[SLC1_BATCH_LIMIT];
    struct plant p;
    double began = seconds(), filled;

    made(&p, ordered);
    for (uint64_t slot = 0; slot < SLC1_CAPACITY_LIMIT; slot += SLC1_BATCH_LIMIT) {
        new_keys(&p.model, slot, SLC1_BATCH_LIMIT, batch);
        committed(&p, batch, SLC1_BATCH_LIMIT);
    }
    filled = seconds();
    same(SLC1_CAPACITY_LIMIT, p.model.numbers.live_count);
    new_keys(&p.model, SLC1_CAPACITY_LIMIT, 1, batch);
    refused(&p, SLC1_FULL, batch, 1);
    reads_as_modelled(&p);
    checkpointed(&p);
    same(SLC1_DONE, open_answer(&p, SLC1_NO_WRITER_KNOWN));
    image_as_modelled(&p);
    printf("%d slots filled by commits of %d records in %.0f s, and read in %.0f s\n", SLC1_CAPACITY_LIMIT, SLC1_BATCH_LIMIT,
           filled - began, seconds() - filled);
    free_plant(&p);
}

/* Said where a fact does not hold. */
static void trying(const char *what)
{
    snprintf(doing, sizeof doing, "(%s)", what);
}

int main(int argc, char **argv)
{
    bool ordered = argc == 2 && strcmp(argv[1], "ordered") == 0;

    if (argc == 1) {
        trying("unordered"), filled_in_part(0);
        trying("ordered"), filled_in_part(1);
        trying("a batch too long"), batches_too_long();
        trying("a slot too many"), slots_too_many();
        trying("a full image"), full();
        trying("the largest image"), widest();
    } else if (ordered || (argc == 2 && strcmp(argv[1], "unordered") == 0)) {
        trying(argv[1]), filled_whole(ordered);
    } else {
        fprintf(stderr, "usage: plant [unordered | ordered]\n");
        return 64;
    }
    printf("the library at full size: %zu facts hold\n", comparisons);
    return 0;
}
