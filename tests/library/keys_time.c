/* How long two equal keys are compared by each of two libraries that keys.py makes: in one process, pinned to a processor, by turns.
 * Medians, beside each the tenth and the ninetieth percentile, and the ratio of the first to the second.
 *
 * usage: keys_time LIBRARY LIBRARY */
#define _GNU_SOURCE
#include <dlfcn.h>
#include <sched.h>
#include <stdbool.h>
#include <stdint.h>
#include <stdio.h>
#include <stdlib.h>
#include <time.h>

typedef bool comparison(const uint8_t *a, size_t a_length, const uint8_t *b, size_t b_length);

enum { ROUNDS = 201, CALLS = 20000 };

static double now(void)
{
    struct timespec t;
    clock_gettime(CLOCK_MONOTONIC, &t);
    return (double)t.tv_sec * 1e9 + (double)t.tv_nsec;
}

static int by_size(const void *a, const void *b)
{
    double x = *(const double *)a, y = *(const double *)b;
    return (x > y) - (x < y);
}

/* Nanoseconds of one call, through a pointer that the compiler can't see through. */
static double timed(comparison *volatile function, size_t length)
{
    static const uint8_t a[64], b[64];
    double began = now();
    for (int i = 0; i < CALLS; i++)
        function(a, length, b, length);
    return (now() - began) / CALLS;
}

static comparison *loaded(const char *path, const char *name)
{
    void *library = dlopen(path, RTLD_NOW | RTLD_LOCAL);
    void *found = library != NULL ? dlsym(library, name) : NULL;
    if (found == NULL) {
        fprintf(stderr, "keys_time: %s\n", dlerror());
        exit(74);
    }
    return (comparison *)found;
}

static void row(char **paths, const char *name, size_t length)
{
    static double times[2][ROUNDS];
    comparison *functions[] = {loaded(paths[0], name), loaded(paths[1], name)};
    for (int round = 0; round < ROUNDS; round++)
        for (int i = 0; i < 2; i++)
            times[i][round] = timed(functions[i], length);
    printf("%-11s  %zu bytes", name, length);
    for (int i = 0; i < 2; i++) {
        qsort(times[i], ROUNDS, sizeof times[i][0], by_size);
        printf("  %6.2f ns (%.2f to %.2f)", times[i][ROUNDS / 2], times[i][ROUNDS / 10], times[i][ROUNDS - ROUNDS / 10]);
    }
    printf("  ratio %.2f\n", times[0][ROUNDS / 2] / times[1][ROUNDS / 2]);
}

int main(int argc, char **argv)
{
    cpu_set_t one;
    if (argc != 3) {
        fprintf(stderr, "usage: keys_time LIBRARY LIBRARY\n");
        return 64;
    }
    CPU_ZERO(&one);
    CPU_SET(0, &one);
    sched_setaffinity(0, sizeof one, &one);
    row(argv + 1, "keys_same", 12);
    row(argv + 1, "keys_same", 64);
    row(argv + 1, "keys_before", 12);
    row(argv + 1, "keys_before", 64);
    return 0;
}
