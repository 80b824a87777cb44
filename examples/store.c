/* store.c: SLC1 images in files. store.h says what for, and who holds which lock. */
#ifndef _DEFAULT_SOURCE
#define _DEFAULT_SOURCE /* flock, and POSIX under -std=c11 */
#endif

#include <errno.h>
#include <fcntl.h>
#include <limits.h>
#include <signal.h>
#include <stdatomic.h>
#include <stdbool.h>
#include <stdio.h>
#include <stdlib.h>
#include <string.h>
#include <sys/file.h>
#include <sys/stat.h>
#include <sys/types.h>
#include <time.h>
#include <unistd.h>

#include "store.h"

enum { WORD = 8 };

/* Where the header has slot_capacity and bucket_count. */
enum { CAPACITY_AT = 0x20, BUCKETS_AT = 0x48 };

/* A reader waits a quarter of a second for the end of a commit, a writer two seconds for readers and writers. */
enum { READ_TRIES = 250, LOCK_TRIES = 2000, PAUSE_NANOSECONDS = 1000000 };

const char *store_text(uint32_t answer)
{
    switch (answer) {
    case STORE_FAILED: return "a call of the system failed";
    case STORE_NOT_REGULAR: return "is not a regular file";
    case STORE_EXISTS: return "exists, and is not empty";
    case STORE_HARD_LINKS: return "has other names (hard links), which a rebuild would leave with the old bytes";
    case STORE_IN_THE_WAY: return "can't be rebuilt: its name with .rebuilding is taken by another file, move that away";
    case STORE_OTHER_OWNER: return "belongs to another user or group, to which a rebuild can't give the new file";
    default: return slc1_text(answer);
    }
}

/* Images. */

/* Makes room for that many bytes, in place of what there is, which stays where memory is short. */
static uint32_t make_room(uint8_t **bytes, size_t size)
{
    uint8_t *room = realloc(*bytes, size > 0 ? size : 1);

    if (room == NULL)
        return STORE_FAILED;
    *bytes = room;
    return SLC1_DONE;
}

/* An image that nothing has been copied to yet: the pointer that is lent is never NULL. */
static uint32_t new_image(struct store_image *image, const slc1_options *options)
{
    *image = (struct store_image){NULL, 0, *options, STORE_UNCHECKED};
    image->options.role = SLC1_NO_WRITER_KNOWN;
    if (slc1_open_check((const uint8_t *)"", 0, SLC1_OPTIONS(&image->options)) == SLC1_INVALID_INPUT)
        return SLC1_INVALID_INPUT;
    image->options.slot_capacity = 0; /* as the header says */
    return make_room(&image->bytes, 0);
}

/* The bytes of an image with so many slots and buckets. */
static uint64_t total_of(const struct store_image *image, uint64_t slots, uint64_t buckets)
{
    enum { BUCKET_SIZE = 2 * WORD };

    return SLC1_HEADER_SIZE + slots * SLC1_RECORD_SIZE(image->options.key_size, image->options.index_size) +
           buckets * BUCKET_SIZE;
}

/* A number of the header; 0 where the file ends before it. */
static uint64_t number_at(const struct store_image *image, size_t offset)
{
    return image->length < offset + WORD ? 0 : slc1_word_at(image->bytes + offset);
}

struct store_shape store_shape_of(const struct store_image *image, uint64_t otherwise)
{
    uint64_t slots = number_at(image, CAPACITY_AT), buckets = number_at(image, BUCKETS_AT), total;
    slc1_options fresh = image->options;

    if (slots < 1 || slots > SLC1_CAPACITY_LIMIT) {
        slots = otherwise;
        buckets = 0;
    }
    fresh.slot_capacity = slots;
    total = slc1_total_size(SLC1_OPTIONS(&fresh));
    if (buckets <= slots || buckets > SLC1_BUCKET_LIMIT || (buckets & (buckets - 1)) != 0 ||
        total_of(image, slots, buckets) == total)
        return (struct store_shape){slots, 0, total};
    return (struct store_shape){slots, buckets, total_of(image, slots, buckets)};
}

/* The same bytes under another role. */
static struct store_image under(const struct store_image *image, uint64_t role)
{
    struct store_image other = *image;

    other.options.role = role;
    return other;
}

/* The checksum. */

/* At the start of the user data, before the checksum. */
static const uint8_t MARK[WORD] = {'s', 'l', 'o', 't', 's', 'C', 'R', 'C'};

static uint64_t checksum_of(const struct store_image *image)
{
    return slc1_crc32c(image->bytes + SLC1_HEADER_SIZE, image->length - SLC1_HEADER_SIZE);
}

/* What is known of the checksum, which holds for CLEAN images: those that pass under role 0. */
static int judge_checksum(const struct store_image *image, int flags)
{
    struct store_image alone = under(image, SLC1_NO_WRITER_KNOWN);
    uint8_t data[SLC1_USER_DATA_SIZE];

    if (slc1_user_data(STORE_LENT(&alone), data, sizeof data) != SLC1_DONE)
        return STORE_UNCHECKED;
    if (memcmp(data, MARK, WORD) != 0)
        return STORE_NO_MARK;
    if (image->length > STORE_SMALL && !(flags & STORE_VERIFY))
        return STORE_UNCHECKED;
    return slc1_word_at(data + WORD) == checksum_of(image) ? STORE_RIGHT : STORE_WRONG;
}

static uint32_t renew_checksum(struct store_image *image)
{
    uint8_t data[SLC1_USER_DATA_SIZE];
    uint64_t flags = slc1_user_flags(STORE_LENT(image));
    uint32_t answer = slc1_user_data(STORE_LENT(image), data, sizeof data);

    if (answer != SLC1_DONE)
        return answer;
    memcpy(data, MARK, WORD);
    slc1_put_word(data + WORD, checksum_of(image));
    return slc1_set_user_fields(STORE_LENT(image), flags, data, sizeof data);
}

/* Files. In what cleans up, errno stays what it was. */

static void pause_briefly(void)
{
    nanosleep(&(struct timespec){0, PAUSE_NANOSECONDS}, NULL);
}

static void close_file(int file)
{
    int kept = errno;

    if (file >= 0)
        close(file);
    errno = kept;
}

static void remove_file(const char *path)
{
    int kept = errno;

    unlink(path);
    errno = kept;
}

/* Opens a regular file, and waits for nobody: a pipe would. SLC1_BUSY where another process has a lease on it. */
static uint32_t open_file(int *file, const char *path, int flags, mode_t mode)
{
    struct stat status;
    uint32_t answer = SLC1_DONE;

    *file = open(path, flags | O_CLOEXEC | O_NONBLOCK | O_NOCTTY, mode);
    if (*file < 0 && errno == EWOULDBLOCK)
        return SLC1_BUSY;
    if (*file < 0)
        return errno == EISDIR || errno == ENXIO ? STORE_NOT_REGULAR : STORE_FAILED;
    if (fstat(*file, &status) != 0)
        answer = STORE_FAILED;
    else if (!S_ISREG(status.st_mode))
        answer = STORE_NOT_REGULAR;
    if (answer != SLC1_DONE)
        close_file(*file);
    return answer;
}

/* SLC1_BUSY where another process holds a lock that forbids this one. */
static uint32_t lock(int file, int how)
{
    if (flock(file, how | LOCK_NB) == 0)
        return SLC1_DONE;
    return errno == EWOULDBLOCK ? SLC1_BUSY : STORE_FAILED;
}

static bool is_same_file(const struct stat *one, const struct stat *other)
{
    return one->st_dev == other->st_dev && one->st_ino == other->st_ino;
}

/* The number of bytes read, fewer only where the file ends; -1 where it fails. */
static ssize_t read_at(int file, uint8_t *bytes, size_t length, size_t offset)
{
    size_t done = 0;

    while (done < length) {
        ssize_t got = pread(file, bytes + done, length - done, (off_t)(offset + done));

        if (got < 0 && errno != EINTR)
            return -1;
        if (got == 0)
            break;
        if (got > 0)
            done += (size_t)got;
    }
    return (ssize_t)done;
}

static uint32_t write_at(int file, const uint8_t *bytes, size_t length, size_t offset)
{
    while (length > 0) {
        ssize_t written = pwrite(file, bytes, length, (off_t)offset);

        if (written < 0 && errno != EINTR)
            return STORE_FAILED;
        if (written > 0) {
            bytes += written;
            length -= (size_t)written;
            offset += (size_t)written;
        }
    }
    return SLC1_DONE;
}

/* Copies a file. Of one that is longer than any image a byte more than that is enough: the library refuses it. */
static uint32_t copy_file(struct store_image *image, int file)
{
    const off_t most = (off_t)total_of(image, SLC1_CAPACITY_LIMIT, SLC1_BUCKET_LIMIT) + 1;
    struct stat status;
    ssize_t length;
    size_t size;

    if (fstat(file, &status) != 0)
        return STORE_FAILED;
    size = (size_t)(status.st_size < most ? status.st_size : most);
    if (make_room(&image->bytes, size) != SLC1_DONE)
        return STORE_FAILED;
    length = read_at(file, image->bytes, size, 0);
    if (length < 0)
        return STORE_FAILED;
    image->length = (size_t)length;
    return SLC1_DONE;
}

/* Readers. */

/* Copies the file for a reader. Where the generation moves meanwhile, parts of the copy may come from different commits: it
 * gets an odd one, as within a commit, and the library refuses it. */
static uint32_t copy_between_commits(struct store_image *image, int file)
{
    uint8_t before[WORD] = {0}, after[WORD] = {0};

    if (read_at(file, before, WORD, SLC1_GENERATION_AT) < 0)
        return STORE_FAILED;
    atomic_thread_fence(memory_order_seq_cst);
    if (copy_file(image, file) != SLC1_DONE)
        return STORE_FAILED;
    atomic_thread_fence(memory_order_seq_cst);
    if (read_at(file, after, WORD, SLC1_GENERATION_AT) < 0)
        return STORE_FAILED;
    if (image->length > SLC1_GENERATION_AT && memcmp(before, after, WORD) != 0)
        image->bytes[SLC1_GENERATION_AT] |= 1;
    return SLC1_DONE;
}

/* Whether the copy is CLEAN, with no wrong checksum, and the file that was copied, with the same length and header. */
static bool is_up_to_date(const struct store_reader *reader, int file)
{
    struct store_image alone = under(&reader->image, SLC1_NO_WRITER_KNOWN);
    uint8_t header[SLC1_HEADER_SIZE];
    struct stat copied, named;

    return reader->file >= 0 && reader->image.checksum != STORE_WRONG &&
           slc1_open_check(STORE_LENT(&alone)) == SLC1_DONE && fstat(reader->file, &copied) == 0 &&
           fstat(file, &named) == 0 && is_same_file(&copied, &named) && named.st_size == (off_t)reader->image.length &&
           read_at(file, header, sizeof header, 0) == (ssize_t)sizeof header &&
           memcmp(header, reader->image.bytes, sizeof header) == 0;
}

/* Copies and judges the file. The role is true of the bytes copied, so the lock is given back at once: no writer waits
 * for what is done with them. */
static uint32_t read_file(struct store_reader *reader, int file)
{
    struct store_image *image = &reader->image;
    uint32_t locked = lock(file, LOCK_SH), answer;

    image->length = 0; /* until there is a new copy */
    if (locked == STORE_FAILED)
        return STORE_FAILED;
    image->options.role = locked == SLC1_DONE ? SLC1_NO_WRITER_KNOWN : SLC1_ANOTHER_WRITER;
    answer = copy_between_commits(image, file);
    if (flock(file, LOCK_UN) != 0 || answer != SLC1_DONE) {
        image->length = 0;
        return STORE_FAILED;
    }
    answer = slc1_open_check(STORE_LENT(image));
    image->checksum = judge_checksum(image, reader->flags);
    return image->checksum == STORE_WRONG ? (uint32_t)SLC1_NEEDS_REBUILD : answer;
}

/* One try to read the file, which is opened anew each time: a rebuild may have replaced it. The one that was copied stays
 * open, so that no other gets its number. */
static uint32_t try_read(struct store_reader *reader)
{
    int file;
    uint32_t answer = open_file(&file, reader->path, O_RDONLY, 0);

    if (answer != SLC1_DONE)
        return answer;
    if (is_up_to_date(reader, file)) {
        close_file(file);
        return SLC1_DONE;
    }
    close_file(reader->file);
    reader->file = file;
    return read_file(reader, file);
}

/* Whether a writer may soon make an image usable. Beside one, 4 is a commit under way, and 1 may be the CRC of a begin
 * or checkpoint without its state, since these two leave the generation alone. */
static bool may_soon_pass(const struct store_image *image, uint32_t answer)
{
    return image->options.role == SLC1_ANOTHER_WRITER && (answer == SLC1_BUSY || answer == SLC1_NEEDS_REBUILD);
}

uint32_t store_open_reader(struct store_reader *reader, const char *path, const slc1_options *options, int flags)
{
    *reader = (struct store_reader){.path = path, .flags = flags, .file = -1};
    return new_image(&reader->image, options);
}

uint32_t store_read(struct store_reader *reader)
{
    uint32_t answer = try_read(reader);

    for (int tries = 1; tries < READ_TRIES && may_soon_pass(&reader->image, answer); tries++) {
        pause_briefly();
        answer = try_read(reader);
    }
    return answer;
}

void store_close_reader(struct store_reader *reader)
{
    close_file(reader->file);
    free(reader->image.bytes);
}

/* Publishing. */

/* Makes the file's generation odd, which was even. */
static uint32_t write_odd(const struct store_writer *writer)
{
    uint8_t odd[WORD];

    memcpy(odd, writer->published + SLC1_GENERATION_AT, WORD);
    odd[0] |= 1;
    return write_at(writer->file, odd, WORD, SLC1_GENERATION_AT);
}

/* Writes the words from one offset up to another that differ from the file's; neighbours in one piece. */
static uint32_t publish_words(const struct store_writer *writer, size_t from, size_t to)
{
    const uint8_t *bytes = writer->image.bytes;
    uint32_t answer = SLC1_DONE;

    while (from < to && answer == SLC1_DONE) {
        size_t end = from;

        while (end < to && memcmp(bytes + end, writer->published + end, WORD) != 0)
            end += WORD;
        answer = write_at(writer->file, bytes + from, end - from, from);
        from = end + WORD;
    }
    return answer;
}

/* Brings the file to the private copy. Where the generation moves, it is odd before the first word changes, and even
 * after the last: a reader whose copy began and ended with one even generation has no part of a commit. */
static uint32_t publish(struct store_writer *writer)
{
    const uint8_t *bytes = writer->image.bytes;
    size_t size = writer->image.length;
    bool moves = memcmp(bytes + SLC1_GENERATION_AT, writer->published + SLC1_GENERATION_AT, WORD) != 0;
    uint32_t answer = moves ? write_odd(writer) : (uint32_t)SLC1_DONE;

    atomic_thread_fence(memory_order_seq_cst);
    if (answer == SLC1_DONE)
        answer = publish_words(writer, 0, SLC1_GENERATION_AT);
    if (answer == SLC1_DONE)
        answer = publish_words(writer, SLC1_GENERATION_AT + WORD, size);
    atomic_thread_fence(memory_order_seq_cst);
    if (answer == SLC1_DONE && moves)
        answer = write_at(writer->file, bytes + SLC1_GENERATION_AT, WORD, SLC1_GENERATION_AT);
    memcpy(writer->published, bytes, size);
    return answer;
}

/* Locking. */

static uint32_t read_whole(struct store_writer *writer)
{
    struct store_image *image = &writer->image;
    uint32_t answer = copy_file(image, writer->file);

    if (answer == SLC1_DONE)
        answer = make_room(&writer->published, image->length);
    if (answer == SLC1_DONE)
        memcpy(writer->published, image->bytes, image->length);
    return answer;
}

/* One that a dead writer or a power cut left: only its role, 0, tells it from one that a writer is at work on. */
static bool is_left_dirty(const struct store_image *alone)
{
    struct store_image beside = under(alone, SLC1_ANOTHER_WRITER);

    return slc1_open_check(STORE_LENT(alone)) == SLC1_NEEDS_REBUILD && slc1_open_check(STORE_LENT(&beside)) == SLC1_DONE;
}

/* A reader that finds the lock held believes a DIRTY image with an even generation. One that was left so must not be
 * believed: it is struck out, its generation made odd, before the exclusive lock is asked for. */
static uint32_t strike_out(struct store_writer *writer)
{
    uint32_t answer = read_whole(writer);

    if (answer == SLC1_DONE && is_left_dirty(&writer->image))
        answer = write_odd(writer);
    return answer;
}

/* SLC1_BUSY where a path no longer names the file that was opened. */
static uint32_t judge_name(const char *path, int file)
{
    struct stat named, opened;

    if (stat(path, &named) != 0)
        return errno == ENOENT ? (uint32_t)SLC1_BUSY : STORE_FAILED;
    if (fstat(file, &opened) != 0)
        return STORE_FAILED;
    return is_same_file(&named, &opened) ? SLC1_DONE : SLC1_BUSY;
}

/* The exclusive lock of an open file, by way of the shared one; the private copy is then the file's. The shared lock is
 * given back before the exclusive one is got. Where another process came in between, and replaced the file or died over
 * it, all of this is tried again. */
static uint32_t lock_for_writing(struct store_writer *writer)
{
    uint32_t answer = lock(writer->file, LOCK_SH);

    if (answer == SLC1_DONE)
        answer = strike_out(writer);
    if (answer == SLC1_DONE)
        answer = lock(writer->file, LOCK_EX);
    if (answer == SLC1_DONE)
        answer = judge_name(writer->path, writer->file);
    if (answer == SLC1_DONE)
        answer = read_whole(writer);
    if (answer == SLC1_DONE && is_left_dirty(&writer->image))
        answer = SLC1_BUSY;
    return answer;
}

static uint32_t try_lock(struct store_writer *writer)
{
    uint32_t answer = open_file(&writer->file, writer->path, O_RDWR, 0);

    if (answer != SLC1_DONE)
        return answer;
    answer = lock_for_writing(writer);
    if (answer != SLC1_DONE)
        close_file(writer->file);
    return answer;
}

static void free_writer(struct store_writer *writer)
{
    int kept = errno;

    free(writer->image.bytes);
    free(writer->published);
    errno = kept;
}

uint32_t store_open_writer(struct store_writer *writer, const char *path, const slc1_options *options)
{
    uint32_t answer;

    *writer = (struct store_writer){.path = path};
    answer = new_image(&writer->image, options);
    if (answer == SLC1_DONE)
        answer = try_lock(writer);
    for (int tries = 1; tries < LOCK_TRIES && answer == SLC1_BUSY; tries++) {
        pause_briefly();
        answer = try_lock(writer);
    }
    if (answer != SLC1_DONE) {
        free_writer(writer);
        return answer;
    }
    writer->slot_capacity = store_shape_of(&writer->image, options->slot_capacity).slots;
    writer->image.checksum = judge_checksum(&writer->image, STORE_VERIFY);
    return SLC1_DONE;
}

void store_close_writer(struct store_writer *writer)
{
    close_file(writer->file);
    free_writer(writer);
}

/* Writing. */

/* From the first change to the last, a signal that would end or stop the process waits. */
static void hold_signals(sigset_t *before)
{
    sigset_t held;

    sigemptyset(&held);
    sigaddset(&held, SIGINT);
    sigaddset(&held, SIGTERM);
    sigaddset(&held, SIGHUP);
    sigaddset(&held, SIGPIPE);
    sigaddset(&held, SIGTSTP);
    sigaddset(&held, SIGTTOU);
    pthread_sigmask(SIG_BLOCK, &held, before);
}

static void let_signals(const sigset_t *before)
{
    int kept = errno;

    pthread_sigmask(SIG_SETMASK, before, NULL);
    errno = kept;
}

/* Where the batch that begins with a record ends. */
static size_t batch_end(const struct store_records *records, size_t first)
{
    return records->count - first < SLC1_BATCH_LIMIT ? records->count : first + SLC1_BATCH_LIMIT;
}

static uint32_t commit(struct store_image *image, const struct store_records *records, size_t first)
{
    size_t record_size = SLC1_RECORD_SIZE(image->options.key_size, image->options.index_size);
    size_t count = batch_end(records, first) - first;

    return slc1_commit(STORE_LENT(image), records->bytes + first * record_size, count * record_size);
}

/* What a step on the private copy answered. Where it is done, the file follows; a rehearsal has no writer. */
static uint32_t followed(struct store_writer *writer, uint32_t answer)
{
    return writer == NULL || answer != SLC1_DONE ? answer : publish(writer);
}

static uint32_t synced(struct store_writer *writer, uint32_t answer)
{
    if (writer == NULL || answer != SLC1_DONE)
        return answer;
    return fdatasync(writer->file) != 0 ? STORE_FAILED : SLC1_DONE;
}

/* Who is told how far the work is, if anybody: that many records of all were done before. */
struct told {
    void (*progress)(size_t done, size_t all);
    size_t before, all;
};

/* Commits the records to an image, and where there is a writer to its file. DIRTY is on the disk before any commit is,
 * and every commit before CLEAN is: after a power cut the file is as it was, or needs a rebuild, or the work is done. */
static uint32_t change(struct store_image *image, const struct store_records *records, struct store_writer *writer,
                       struct told told)
{
    uint32_t answer;

    image->options.role = SLC1_LOCK_HELD;
    answer = synced(writer, followed(writer, slc1_begin(STORE_LENT(image))));
    for (size_t first = 0; answer == SLC1_DONE && first < records->count; first += SLC1_BATCH_LIMIT) {
        answer = followed(writer, commit(image, records, first));
        if (answer == SLC1_DONE && told.progress != NULL)
            told.progress(told.before + batch_end(records, first), told.all);
    }
    if (answer == SLC1_DONE)
        answer = synced(writer, followed(writer, renew_checksum(image)));
    if (answer == SLC1_DONE)
        answer = synced(writer, followed(writer, slc1_checkpoint(STORE_LENT(image))));
    return answer;
}

/* What the records will be answered, tried on a copy: where they are refused, nothing has been written. */
static uint32_t rehearse(const struct store_image *image, const struct store_records *records, struct told told)
{
    struct store_image trial = *image;
    uint32_t answer;

    trial.bytes = malloc(image->length);
    if (trial.bytes == NULL)
        return STORE_FAILED;
    memcpy(trial.bytes, image->bytes, image->length);
    answer = change(&trial, records, NULL, told);
    free(trial.bytes);
    return answer;
}

/* The role is 0: no writer is active, so a DIRTY image was left by one that died. */
uint32_t store_judge(const struct store_writer *writer)
{
    struct store_image alone = under(&writer->image, SLC1_NO_WRITER_KNOWN);

    return alone.checksum == STORE_WRONG ? (uint32_t)SLC1_NEEDS_REBUILD : slc1_full_check(STORE_LENT(&alone));
}

uint32_t store_update(struct store_writer *writer, const struct store_records *records)
{
    struct told told = {writer->progress, 0, 2 * records->count};
    uint32_t answer = store_judge(writer);
    sigset_t before;

    if (answer == SLC1_DONE)
        answer = rehearse(&writer->image, records, told);
    if (answer != SLC1_DONE)
        return answer;
    told.before = records->count;
    hold_signals(&before);
    answer = change(&writer->image, records, writer, told);
    let_signals(&before);
    if (answer == SLC1_DONE)
        writer->image.checksum = STORE_RIGHT;
    return answer;
}

/* Rebuilding. */

static const uint8_t MAGIC[] = {'S', 'L', 'C', '1'};

/* Whether bytes are such as may be given up: none, or those of an image, damaged or not. */
static bool is_nothing_else(const uint8_t *bytes, size_t length)
{
    return length == 0 || (length >= sizeof MAGIC && memcmp(bytes, MAGIC, sizeof MAGIC) == 0);
}

/* Whether another file may take this one's place. */
static uint32_t judge_replacement(const struct store_writer *writer)
{
    const struct store_image *image = &writer->image;
    struct stat status;

    if (!is_nothing_else(image->bytes, image->length) || slc1_open_check(STORE_LENT(image)) == SLC1_INCOMPATIBLE)
        return SLC1_INCOMPATIBLE;
    if (fstat(writer->file, &status) != 0)
        return STORE_FAILED;
    return status.st_nlink > 1 ? STORE_HARD_LINKS : SLC1_DONE;
}

/* Gives a new file the owner and the mode of the old one. */
static uint32_t take_over(int new_file, int old_file)
{
    struct stat is, was;

    if (fstat(new_file, &is) != 0 || fstat(old_file, &was) != 0)
        return STORE_FAILED;
    if ((is.st_uid != was.st_uid || is.st_gid != was.st_gid) && fchown(new_file, was.st_uid, was.st_gid) != 0)
        return STORE_OTHER_OWNER;
    return fchmod(new_file, was.st_mode & 07777) != 0 ? STORE_FAILED : SLC1_DONE;
}

/* What stands behind a file's name in that of the file that will replace it. */
#define REBUILDING ".rebuilding"

/* Removes what a rebuild left that was cut off: nothing yet, an image, or the zeros of a power cut. */
static uint32_t remove_leftover(const char *new_path)
{
    uint8_t first[sizeof MAGIC];
    ssize_t length;
    int file;
    uint32_t answer = open_file(&file, new_path, O_RDONLY | O_NOFOLLOW, 0);

    if (answer == STORE_FAILED && errno == ENOENT)
        return SLC1_DONE;
    if (answer == STORE_NOT_REGULAR || (answer == STORE_FAILED && errno == ELOOP)) /* or a symbolic link */
        return STORE_IN_THE_WAY;
    if (answer != SLC1_DONE)
        return answer;
    length = read_at(file, first, sizeof first, 0);
    close_file(file);
    if (length < 0)
        return STORE_FAILED;
    if (!is_nothing_else(first, (size_t)length) && memcmp(first, (uint8_t[sizeof MAGIC]){0}, sizeof MAGIC) != 0)
        return STORE_IN_THE_WAY;
    return unlink(new_path) != 0 ? STORE_FAILED : SLC1_DONE;
}

/* Writes the private copy to a new file, locks it and syncs it. */
static uint32_t fill_new_file(const struct store_writer *writer, int file)
{
    uint32_t answer = lock(file, LOCK_EX);

    if (answer == SLC1_DONE)
        answer = take_over(file, writer->file);
    if (answer == SLC1_DONE)
        answer = write_at(file, writer->image.bytes, writer->image.length, 0);
    if (answer == SLC1_DONE && fsync(file) != 0)
        answer = STORE_FAILED;
    return answer;
}

/* The new file takes the place of the old one when it is whole, and becomes the writer's: it is locked before anybody can
 * find it. Only the file that was judged is replaced, and no other that has its name by now. */
static uint32_t write_and_rename(struct store_writer *writer, const char *new_path, const char *real_path)
{
    int file;
    uint32_t answer = open_file(&file, new_path, O_RDWR | O_CREAT | O_EXCL, 0600);

    if (answer != SLC1_DONE) {
        if (errno != EEXIST)
            remove_file(new_path);
        return answer;
    }
    answer = fill_new_file(writer, file);
    if (answer == SLC1_DONE)
        answer = judge_name(real_path, writer->file);
    if (answer == SLC1_DONE && rename(new_path, real_path) != 0)
        answer = STORE_FAILED;
    if (answer != SLC1_DONE) {
        remove_file(new_path);
        close_file(file);
        return answer;
    }
    close_file(writer->file);
    writer->file = file;
    return SLC1_DONE;
}

/* The folder of a file, to be synced with the names in it. */
static int open_folder(const char *real_path)
{
    char path[PATH_MAX];

    snprintf(path, sizeof path, "%.*s", (int)(strrchr(real_path, '/') - real_path) + 1, real_path);
    return open(path, O_RDONLY | O_DIRECTORY | O_CLOEXEC);
}

/* Replaces the file that `path` names behind symbolic links. */
static uint32_t replace_file(struct store_writer *writer)
{
    char real_path[PATH_MAX], new_path[sizeof real_path + sizeof REBUILDING];
    int folder;
    uint32_t answer;

    if (realpath(writer->path, real_path) == NULL)
        return STORE_FAILED;
    folder = open_folder(real_path);
    if (folder < 0)
        return STORE_FAILED;
    snprintf(new_path, sizeof new_path, "%s" REBUILDING, real_path);
    answer = remove_leftover(new_path);
    if (answer == SLC1_DONE)
        answer = write_and_rename(writer, new_path, real_path);
    if (answer == SLC1_DONE && fsync(folder) != 0)
        answer = STORE_FAILED;
    close_file(folder);
    return answer;
}

/* Makes the private copy anew, of the records alone, and room for what stands in the file then. */
static uint32_t make_anew(struct store_writer *writer, const struct store_records *records)
{
    struct store_image *image = &writer->image;
    slc1_options fresh = image->options;
    uint32_t answer;

    fresh.slot_capacity = writer->slot_capacity;
    image->length = (size_t)slc1_total_size(SLC1_OPTIONS(&fresh));
    answer = make_room(&image->bytes, image->length);
    if (answer == SLC1_DONE)
        answer = make_room(&writer->published, image->length);
    if (answer == SLC1_DONE)
        answer = slc1_create(image->bytes, image->length, SLC1_OPTIONS(&fresh));
    if (answer == SLC1_DONE)
        answer = change(image, records, NULL, (struct told){writer->progress, 0, records->count});
    return answer;
}

uint32_t store_rebuild(struct store_writer *writer, const struct store_records *records)
{
    struct store_image *image = &writer->image;
    uint32_t answer = judge_replacement(writer);
    sigset_t before;

    if (answer != SLC1_DONE)
        return answer;
    answer = make_anew(writer, records);
    hold_signals(&before);
    if (answer == SLC1_DONE)
        answer = replace_file(writer);
    let_signals(&before);
    if (answer != SLC1_DONE) {
        image->length = 0; /* it is not the file's: an update is refused */
        return answer;
    }
    memcpy(writer->published, image->bytes, image->length);
    image->checksum = STORE_RIGHT;
    return SLC1_DONE;
}

/* Removes a file that is locked, unless another has its name by now. */
static void remove_locked(const char *path, int file)
{
    int kept = errno;

    if (judge_name(path, file) == SLC1_DONE)
        unlink(path);
    errno = kept;
}

/* Removes a file that this process has made and could not fill, unless another process has locked, filled or replaced it. */
static void remove_made(const char *path, int made)
{
    int kept = errno;
    struct stat status;

    if (lock(made, LOCK_EX) == SLC1_DONE && fstat(made, &status) == 0 && status.st_size == 0)
        remove_locked(path, made);
    errno = kept;
}

/* Fills an empty file; made is it, where this process has made it, else -1. */
static uint32_t fill_empty(const char *path, const slc1_options *options, int made)
{
    const struct store_records none = {NULL, 0};
    struct store_writer writer;
    uint32_t answer = store_open_writer(&writer, path, options);

    if (answer != SLC1_DONE) {
        if (made >= 0)
            remove_made(path, made);
        return answer;
    }
    answer = writer.image.length > 0 ? (uint32_t)STORE_EXISTS : store_rebuild(&writer, &none);
    if (made >= 0 && answer != SLC1_DONE && answer != STORE_EXISTS)
        remove_locked(path, writer.file);
    store_close_writer(&writer);
    return answer;
}

static uint32_t make_and_fill(const char *path, const slc1_options *options)
{
    int made = open(path, O_WRONLY | O_CREAT | O_EXCL | O_CLOEXEC, 0666);
    uint32_t answer;

    if (made < 0 && errno != EEXIST)
        return STORE_FAILED;
    answer = fill_empty(path, options, made);
    close_file(made);
    return answer;
}

uint32_t store_create(const char *path, const slc1_options *options)
{
    sigset_t before;
    uint32_t answer;

    hold_signals(&before);
    answer = make_and_fill(path, options);
    let_signals(&before);
    return answer;
}
