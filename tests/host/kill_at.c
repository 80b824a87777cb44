/* Loaded before the C library into a process under test (LD_PRELOAD), to end or hold it at a chosen place, and to note
 * what it does. All that is wanted comes from the environment:
 *
 *     KILL_AT       the number, from 1, of the call of pwrite, fdatasync, fsync, unlink or rename at which the process ends
 *     KILL_SIGNAL   by which signal; SIGKILL if it is not set. After SIGSTOP and SIGCONT the call is made
 *     KILL_ERROR    an errno: the process does not end, but the call fails so
 *     KILL_HALF     if set, the first half of a write's bytes is written before
 *     KILL_CALLS    a file: one line for each of these calls that was made, a write's with its offset and bytes
 *     KILL_HELD     a file: one byte for each lock that was refused, since another process holds it
 *     KILL_LOCK     the number, from 1, of the call of flock before which the process stops itself. A lock that it has is
 *                   given back before, as flock gives it back before it gets another kind
 *     KILL_COPY     if set, the process stops itself once in the middle of reading an image
 *     KILL_PAUSE    microseconds to wait before each of the calls
 */
#define _GNU_SOURCE /* RTLD_NEXT */

#include <dlfcn.h>
#include <errno.h>
#include <fcntl.h>
#include <signal.h>
#include <stdio.h>
#include <stdlib.h>
#include <sys/file.h>
#include <sys/types.h>
#include <unistd.h>

enum { READ_BEFORE = 4096, IMAGE_AT_LEAST = 8192 };

static long calls;

static long number(const char *name, long otherwise)
{
    const char *text = getenv(name);

    return text == NULL ? otherwise : atol(text);
}

static int is_chosen(void)
{
    if (number("KILL_PAUSE", 0) > 0)
        usleep((useconds_t)number("KILL_PAUSE", 0));
    return ++calls == number("KILL_AT", 0);
}

/* Ends or holds the process; or gives back that the call fails. */
static int fails(void)
{
    long error = number("KILL_ERROR", 0);

    if (error == 0) {
        kill(getpid(), (int)number("KILL_SIGNAL", SIGKILL));
        return 0;
    }
    errno = (int)error;
    return 1;
}

/* Appends to the file that a variable names, if it is set. */
static FILE *note(const char *variable)
{
    const char *path = getenv(variable);

    return path == NULL ? NULL : fopen(path, "ae");
}

static void note_call(const char *name, const unsigned char *bytes, size_t length, off_t offset)
{
    FILE *file = note("KILL_CALLS");

    if (file == NULL)
        return;
    fprintf(file, "%s %lld ", name, (long long)offset);
    for (size_t i = 0; i < length; i++)
        fprintf(file, "%02x", bytes[i]);
    fputc('\n', file);
    fclose(file);
}

ssize_t pwrite(int file, const void *bytes, size_t length, off_t offset)
{
    ssize_t (*next)(int, const void *, size_t, off_t) = dlsym(RTLD_NEXT, "pwrite");

    if (is_chosen()) {
        if (number("KILL_HALF", 0))
            next(file, bytes, length / 2, offset);
        if (fails())
            return -1;
    }
    note_call("pwrite", bytes, length, offset);
    return next(file, bytes, length, offset);
}

ssize_t pread(int file, void *bytes, size_t length, off_t offset)
{
    static int stopped;
    ssize_t (*next)(int, void *, size_t, off_t) = dlsym(RTLD_NEXT, "pread");
    ssize_t before, after;

    if (length < IMAGE_AT_LEAST || stopped || !number("KILL_COPY", 0))
        return next(file, bytes, length, offset);
    stopped = 1;
    before = next(file, bytes, READ_BEFORE, offset);
    kill(getpid(), SIGSTOP);
    if (before < READ_BEFORE)
        return before;
    after = next(file, (char *)bytes + READ_BEFORE, length - READ_BEFORE, offset + READ_BEFORE);
    return after < 0 ? after : before + after;
}

static int synced(const char *name, int file)
{
    int (*next)(int) = dlsym(RTLD_NEXT, name);

    if (is_chosen() && fails())
        return -1;
    note_call(name, NULL, 0, 0);
    return next(file);
}

int fdatasync(int file)
{
    return synced("fdatasync", file);
}

int fsync(int file)
{
    return synced("fsync", file);
}

int unlink(const char *path)
{
    int (*next)(const char *) = dlsym(RTLD_NEXT, "unlink");

    if (is_chosen() && fails())
        return -1;
    note_call("unlink", NULL, 0, 0);
    return next(path);
}

int rename(const char *from, const char *to)
{
    int (*next)(const char *, const char *) = dlsym(RTLD_NEXT, "rename");

    if (is_chosen() && fails())
        return -1;
    note_call("rename", NULL, 0, 0);
    return next(from, to);
}

int flock(int file, int how)
{
    static long locks;
    int (*next)(int, int) = dlsym(RTLD_NEXT, "flock");
    int done;

    if (++locks == number("KILL_LOCK", 0)) {
        next(file, LOCK_UN);
        kill(getpid(), SIGSTOP);
    }
    done = next(file, how);
    if (done != 0 && errno == EWOULDBLOCK) {
        FILE *held = note("KILL_HELD");

        if (held != NULL) {
            fputc('x', held);
            fclose(held);
        }
        errno = EWOULDBLOCK;
    }
    return done;
}
