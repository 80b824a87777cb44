/* The header of an image as docs/format.md lays it out, for tests that make images without the library; of the library only the
 * CRC is asked. */
#ifndef IMAGE_BYTES_H
#define IMAGE_BYTES_H

#include "slc1.h"

enum { CLEAN = 0, DIRTY = 2 };

struct header_numbers {
    uint64_t slot_highwater, live_count, bucket_tombstones, generation, state, user_flags;
    const uint8_t *user_data; /* SLC1_USER_DATA_SIZE bytes, or NULL for zeros */
    uint64_t bucket_count;    /* or 0 for as many as slc1_create gives */
};

static inline void put_number(uint8_t *bytes, size_t width, uint64_t value)
{
    for (size_t i = 0; i < width; i++)
        bytes[i] = (uint8_t)(value >> 8 * i);
}

/* B, the smallest power of two not below twice slot_capacity. */
static inline uint64_t bucket_count_of(const slc1_options *o)
{
    uint64_t count = 1;

    while (count < 2 * o->slot_capacity)
        count *= 2;
    return count;
}

static inline void write_header(uint8_t *header, const slc1_options *o, const struct header_numbers *n)
{
    uint64_t slot_size = SLC1_RECORD_SIZE(o->key_size, o->index_size);

    memset(header, 0, SLC1_HEADER_SIZE);
    memcpy(header, "SLC1", 4);
    put_number(header + 0x04, 4, 1);   /* version */
    put_number(header + 0x08, 4, 256); /* header_size */
    put_number(header + 0x0C, 4, o->key_size);
    put_number(header + 0x10, 4, o->index_size);
    put_number(header + 0x14, 4, slot_size);
    put_number(header + 0x18, 4, 1); /* hash_alg */
    put_number(header + 0x1C, 4, o->ordered);
    put_number(header + 0x20, 8, o->slot_capacity);
    put_number(header + 0x28, 8, n->slot_highwater);
    put_number(header + 0x30, 8, n->live_count);
    put_number(header + 0x38, 8, o->user_version);
    put_number(header + 0x48, 8, n->bucket_count > 0 ? n->bucket_count : bucket_count_of(o));
    put_number(header + 0x50, 8, n->live_count); /* bucket_used */
    put_number(header + 0x58, 8, n->bucket_tombstones);
    put_number(header + 0x60, 8, 256); /* slots_offset */
    put_number(header + 0x68, 8, 256 + o->slot_capacity * slot_size); /* buckets_offset */
    put_number(header + 0x74, 4, n->state);
    put_number(header + 0x78, 8, n->user_flags);
    if (n->user_data != NULL)
        memcpy(header + 0x80, n->user_data, SLC1_USER_DATA_SIZE);
    put_number(header + 0x70, 4, slc1_crc32c(header, SLC1_HEADER_SIZE));
    put_number(header + SLC1_GENERATION_AT, 8, n->generation); /* zero in the CRC */
}

#endif
