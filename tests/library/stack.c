/* How much of a stack a call uses: at most what slc1.h says, a commit of the largest batch and any other call. Each runs in a
 * thread of its own, on a stack of known bytes. */
#define _POSIX_C_SOURCE 200809L
#include <pthread.h>
#include <string.h>

#include "../facts.h"
#include "slc1.h"

enum { STACK = 1 << 20, UNTOUCHED = 0xA7, COMMIT_MOST = 48 << 10, OTHERS_MOST = 4 << 10 };
enum { KEY = 64, INDEX = 256, RECORD = 8 + KEY + 8 + INDEX };

static const slc1_options options = {KEY, INDEX, SLC1_BATCH_LIMIT, 1, 1, SLC1_LOCK_HELD};
static uint8_t *image;
static size_t total;
static uint8_t batch[SLC1_BATCH_LIMIT * RECORD];
static uint32_t numbers[SLC1_BATCH_LIMIT];

#define LENT image, total, SLC1_OPTIONS(&options)

static void commit(void)
{
    same(SLC1_DONE, slc1_commit(LENT, batch, sizeof batch));
}

static void create(void)
{
    same(SLC1_DONE, slc1_create(LENT));
}

static void begin(void)
{
    same(SLC1_DONE, slc1_begin(LENT));
}

static void lookup(void)
{
    same(SLC1_DONE, slc1_lookup(LENT, batch + 8, KEY));
}

static void match(void)
{
    same(1, slc1_match_total(LENT, 0, 0, batch + 8, KEY, 0, SLC1_BATCH_LIMIT, numbers, SLC1_BATCH_LIMIT));
}

static void full_check(void)
{
    same(SLC1_DONE, slc1_full_check(LENT));
}

static void (*call)(void);
static uintptr_t top; /* where the stack stood when the call was made */

static void *made(void *unused)
{
    uint8_t here;

    top = (uintptr_t)&here;
    call();
    return unused;
}

/* The bytes from there down to the lowest that was touched. */
static size_t used(void)
{
    uint8_t *stack = aligned_alloc(1 << 16, STACK);
    pthread_attr_t attributes;
    pthread_t thread;
    size_t bytes, left = 0;

    holds(stack != NULL && pthread_attr_init(&attributes) == 0);
    memset(stack, UNTOUCHED, STACK);
    same(0, pthread_attr_setstack(&attributes, stack, STACK));
    same(0, pthread_create(&thread, &attributes, made, NULL));
    same(0, pthread_join(thread, NULL));
    while (stack[left] == UNTOUCHED)
        left++;
    bytes = top - (uintptr_t)(stack + left);
    free(stack);
    return bytes;
}

int main(void)
{
    const struct { const char *name; void (*call)(void); size_t most; } calls[] = {
        {"create", create, OTHERS_MOST}, {"begin", begin, OTHERS_MOST}, {"commit", commit, COMMIT_MOST},
        {"lookup", lookup, OTHERS_MOST}, {"match", match, OTHERS_MOST}, {"full check", full_check, OTHERS_MOST}};
    uint32_t mixed = 1;

    total = (size_t)slc1_total_size(SLC1_OPTIONS(&options));
    image = malloc(total);
    holds(image != NULL);
    for (size_t at = 0; at < sizeof batch; at += RECORD) { /* new keys in no order, so that they are sorted */
        batch[at] = 1;
        for (size_t byte = 0; byte < KEY; byte++)
            batch[at + 8 + byte] = (uint8_t)((mixed = mixed * 1103515245 + 12345) >> 16);
    }
    for (size_t i = 0; i < sizeof calls / sizeof *calls; i++) {
        size_t bytes;

        call = calls[i].call;
        bytes = used();
        printf("%s uses %zu bytes of stack\n", calls[i].name, bytes);
        holds(bytes <= calls[i].most);
    }
    free(image);
    return 0;
}
