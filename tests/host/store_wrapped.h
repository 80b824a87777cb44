/* The calls of the system that store.c makes, wrapped: one of them fails, does half of its work, or comes after another program
 * has changed the file, as is planned. What the store allocates is counted. bench.sh links by --wrap what is named __wrap here.
 * For one file that includes it. */
#ifndef STORE_WRAPPED_H
#define STORE_WRAPPED_H

#include <errno.h>
#include <fcntl.h>
#include <stdarg.h>
#include <stdbool.h>
#include <stdlib.h>
#include <string.h>
#include <sys/file.h>
#include <sys/stat.h>
#include <sys/types.h>
#include <time.h>
#include <unistd.h>

#include "store_tools.h"

/* What fails. */

enum kind { OTHER, MEMORY, TRANSFER, SYNC, LOCK, OWNER };

enum how {
    ONCE,         /* the chosen call alone, by EIO or ENOMEM */
    FROM_THEN_ON, /* as where a disk is full: the chosen call, and each later one that writes or syncs */
    INTERRUPTED,  /* the chosen call, if it transfers bytes, by EINTR */
    SHORTENED,    /* it transfers half of its bytes, and does not fail */
    BROKEN_OFF,   /* so, and the next that transfers fails */
    LOCKED,       /* every lock is another's */
    UNHARMED      /* none fails */
};

static struct {
    bool armed;
    enum how how;
    long chosen, calls;
    void (*before)(void); /* what another program does before the chosen call, or NULL */
    enum kind kind; /* of the call that failed */
    int error;      /* 0 until one failed */
} plan;

static bool fails(enum kind kind)
{
    bool now;

    if (!plan.armed)
        return false;
    now = ++plan.calls == plan.chosen;
    if (now && plan.before != NULL) {
        plan.armed = false;
        plan.before();
        plan.armed = true;
    }
    switch (plan.how) {
    case ONCE: break;
    case FROM_THEN_ON: now = plan.calls >= plan.chosen && (now || kind == TRANSFER || kind == SYNC); break;
    case INTERRUPTED: now = now && kind == TRANSFER; break;
    case BROKEN_OFF: now = plan.calls == plan.chosen + 1 && kind == TRANSFER; break;
    case LOCKED: now = kind == LOCK; break;
    default: now = false;
    }
    if (!now)
        return false;
    if (plan.error == 0)
        plan.kind = kind;
    plan.error = plan.how == LOCKED ? EWOULDBLOCK : plan.how == INTERRUPTED ? EINTR : kind == MEMORY ? ENOMEM : EIO;
    errno = plan.error;
    return true;
}

static void arm(enum how how, long chosen)
{
    memset(&plan, 0, sizeof plan);
    plan.how = how;
    plan.chosen = chosen;
    plan.armed = true;
}

static size_t at_once(size_t length)
{
    bool shortened = plan.armed && (plan.how == SHORTENED || plan.how == BROKEN_OFF) && plan.calls == plan.chosen;

    return shortened && length > 1 ? length / 2 : length;
}

#define WRAPPED(type, name, kind, failed, parameters, arguments) \
    type __real_##name parameters;                               \
    type __wrap_##name parameters;                               \
    type __wrap_##name parameters                                \
    {                                                            \
        return fails(kind) ? (failed) : __real_##name arguments; \
    }

WRAPPED(int, fstat, OTHER, -1, (int file, struct stat *status), (file, status))
WRAPPED(int, stat, OTHER, -1, (const char *path, struct stat *status), (path, status))
WRAPPED(int, lstat, OTHER, -1, (const char *path, struct stat *status), (path, status))
WRAPPED(int, flock, how & LOCK_UN ? OTHER : LOCK, -1, (int file, int how), (file, how))
WRAPPED(ssize_t, pread, TRANSFER, -1, (int file, void *bytes, size_t length, off_t offset),
        (file, bytes, at_once(length), offset))
WRAPPED(ssize_t, pwrite, TRANSFER, -1, (int file, const void *bytes, size_t length, off_t offset),
        (file, bytes, at_once(length), offset))
WRAPPED(int, fdatasync, SYNC, -1, (int file), (file))
WRAPPED(int, fsync, SYNC, -1, (int file), (file))
WRAPPED(int, ftruncate, OTHER, -1, (int file, off_t length), (file, length))
WRAPPED(int, rename, OTHER, -1, (const char *from, const char *to), (from, to))
WRAPPED(int, link, OTHER, -1, (const char *from, const char *to), (from, to))
WRAPPED(int, unlink, OTHER, -1, (const char *path), (path))
WRAPPED(int, fchmod, OTHER, -1, (int file, mode_t mode), (file, mode))
WRAPPED(int, fchown, OWNER, -1, (int file, uid_t owner, gid_t group), (file, owner, group))
WRAPPED(char *, realpath, OTHER, NULL, (const char *path, char *real), (path, real))

int __real_open(const char *path, int flags, ...);
int __wrap_open(const char *path, int flags, ...);
int __wrap_open(const char *path, int flags, ...)
{
    va_list more;
    mode_t mode = 0;

    va_start(more, flags);
    if (flags & O_CREAT)
        mode = (mode_t)va_arg(more, int);
    va_end(more);
    return fails(OTHER) ? -1 : __real_open(path, flags, mode);
}

/* Nobody waits. */
int __wrap_nanosleep(const struct timespec *wanted, struct timespec *left);
int __wrap_nanosleep(const struct timespec *wanted, struct timespec *left)
{
    (void)wanted, (void)left;
    return 0;
}

/* What the store has allocated and not given back. */

static void *held[64];

static void *hold(void *room)
{
    for (size_t i = 0; plan.armed && room != NULL; i++) {
        holds(i < COUNT(held));
        if (held[i] == NULL) {
            held[i] = room;
            break;
        }
    }
    return room;
}

static size_t count_held(void)
{
    size_t count = 0;

    for (size_t i = 0; i < COUNT(held); i++)
        count += held[i] != NULL;
    return count;
}

static void release(const void *room)
{
    for (size_t i = 0; i < COUNT(held); i++) {
        if (room != NULL && held[i] == room)
            held[i] = NULL;
    }
}

void *__real_malloc(size_t size);
void *__real_realloc(void *room, size_t size);
void __real_free(void *room);
void *__wrap_malloc(size_t size);
void *__wrap_realloc(void *room, size_t size);
void __wrap_free(void *room);

void *__wrap_malloc(size_t size)
{
    return fails(MEMORY) ? NULL : hold(__real_malloc(size));
}

void *__wrap_realloc(void *room, size_t size)
{
    if (fails(MEMORY))
        return NULL;
    release(room);
    return hold(__real_realloc(room, size));
}

void __wrap_free(void *room)
{
    release(room);
    __real_free(room);
}

#endif
