"""Caches that a partner made: with other numbers of slots and buckets than bench makes, and without a checksum. The header says
the numbers, and no command is told."""

import os
import signal
import subprocess
import sys

import second
from bench_capacity import counted, left_dirty_beside_a_rebuild, read_and_dropped
from bench_readers import beside_a_writer_held
from bench_shim import LOAD_MANY, calls_of, commits_of, stopped
from bench_tools import (
    ADVICE, MANY_NEW, MANY_OLD, NEW, REBUILT, ROOT, SENTENCES, holds, of, path_of, read, rows, same, says, there, write,
    write_certificates)
from bench_wanted import (
    CHECKSUM_SAID, NONE, changed, flipped, fresh, mark_of, partners, reads, rebuilt, stored, struck_out, without_generation)

LIMIT = 4194304
WARNING = f"bench: cache {CHECKSUM_SAID[NONE]}"
# Of more than two batches, in buckets just above the slots: bench would make 8,192 of them.
MANY_FOREIGN = stored(partners(2400, 4096), MANY_OLD)


def shape_of(name):
    return [second.field(read(name), field) for field in ("slot_capacity", "bucket_count")]


def refused_by_every_command(bench, answer, *parts):
    """The file cache is refused and left alone by every command but create and rebuild, each with parts of its complaint."""
    serial = NEW[7].serial
    for command, *words in (("get", serial), ("find", serial[:8]), ("list",), ("export", "made.csv"), ("compare", "new.csv"),
                            ("load", "new.csv"), ("drop", serial)):
        says(bench.leaves_alone("cache", bench.refused, answer, SENTENCES[answer], command, "cache", *words),
             ADVICE.get(answer, ""), *parts)
    ran = reads(bench, "cache", "check")
    same("check", ran.status, answer)
    says(ran, *parts)
    holds("nothing is made", not there("made.csv"))
    return ran


def made_anew(bench, slots):
    """A rebuild of the file cache makes what bench makes of so many slots, up to 512."""
    same("rebuild", rebuilt(bench, "cache", "new.csv"), REBUILT)
    same("the shape", shape_of("cache"), [slots, 1024])
    holds("the file", without_generation(read("cache")) == without_generation(stored(fresh(of(slots)), NEW)))


# Every command.

def read_without_checksum(bench, certificates):
    """What a partner has filled is read with a warning. A load of the same adds the checksum, and changes no slot or bucket."""
    before = read("cache")
    for command, *words in (("get", certificates[0].serial), ("find", certificates[0].serial[:4]), ("list",), ("check",)):
        same("the warning", reads(bench, "cache", command, *words).err, WARNING)
    ran = bench.run("compare", "cache", "some.csv")
    same("compare", (ran.status, ran.out, ran.err), (0, "", WARNING))
    ran = bench.run("export", "cache", "made.csv")
    same("export", (ran.status, read("made.csv").decode(), ran.err), (0, rows(certificates), WARNING))
    os.unlink(path_of("made.csv"))
    holds("no read changed the file", read("cache") == before)
    ran = bench.run("load", "cache", "some.csv")
    same("load", (ran.status, ran.err), (0, WARNING))
    same("the mark", second.field(read("cache"), "user_data").to_bytes(64, "little"), mark_of(before).ljust(64, b"\0"))
    holds("slots and buckets", read("cache")[256:] == before[256:])


def every_command(bench):
    """Buckets just above the slots, where one is left when all slots are full, and far above. Load and drop keep the buckets; a
    rebuild keeps the slots alone."""
    for slots, buckets, usual, certificates in (
            (1, 4, 2, NEW[:1]), (3, 4, 8, NEW[:3]), (300, 512, 1024, NEW), (511, 512, 1024, MANY_NEW[:511]),
            (512, 2048, 1024, NEW), (300, 65536, 1024, NEW)):
        some, all_of_them = write_certificates("some.csv", certificates), counted(len(certificates), "certificate")
        empty = partners(slots, buckets)
        filled = stored(empty, certificates)
        write("cache", changed(filled, user_data=0))
        read_without_checksum(bench, certificates)
        write("cache", empty)
        ran = bench.run("load", "cache", some)
        same("load", ran[:], (0, f"{all_of_them} loaded, {len(certificates)} live\n", WARNING))
        holds("the file is what the second program makes", read("cache") == filled)
        out = bench.silent("check", "cache")
        holds(out, out.endswith(f" checksum right slots {slots} buckets {buckets}\n"))
        read_and_dropped(bench, certificates)
        same("the shape after a drop", shape_of("cache"), [slots, buckets])
        same("rebuild", bench.silent("rebuild", "cache", some), f"cache rebuilt: {all_of_them}\n")
        same("the shape after a rebuild", shape_of("cache"), [slots, usual])
        holds("what rebuild makes",
              without_generation(read("cache")) == without_generation(stored(fresh(of(slots)), certificates)))


def deleted(bench):
    """The index is made anew by the third drop from 8 buckets, when over a quarter are deleted keys'. bench makes 16."""
    image = stored(partners(7, 8), NEW[:7])
    write("cache", image)
    for number, c in enumerate(NEW[:7], 1):
        same("drop", bench.silent("drop", "cache", c.serial), f"{c.serial} dropped, {7 - number} live\n")
        image = stored(image, [c], put=False)
        holds(f"the file after {number} drops", read("cache") == image)
        same("tombstones", second.field(image, "bucket_tombstones"), number % 3)
        reads(bench, "cache", "check")


def full(bench):
    """A partner's cache that is full names its own slots; a rebuild with more makes room."""
    write("cache", stored(partners(300, 512), NEW))
    every = write_certificates("every.csv", NEW + MANY_NEW[:1])
    says(bench.leaves_alone("cache", bench.refused, 5, SENTENCES[5], "load", "cache", every),
         "it has 300 slots", "301 serials are too many by 1", "bench rebuild --capacity 301 with all certificates")
    bench.silent("rebuild", "--capacity", "301", "cache", every)
    same("the shape", shape_of("cache"), [301, 1024])
    same("list", reads(bench, "cache", "list").out, rows(NEW + MANY_NEW[:1]))


def largest(bench):
    """As many slots and buckets as there can be, and a byte or much more behind them. The plain build alone takes seconds."""
    if bench.step > 1:
        return
    slots_end = 256 + 1048576 * 56
    total = slots_end + LIMIT * 16
    write("cache", changed(partners(1, 4)[:256], slot_capacity=1048576, bucket_count=LIMIT, buckets_offset=slots_end))
    os.truncate(path_of("cache"), total)
    same("check", bench.run("check", "cache").out,
         "answer 0 live 0 tombstones 0 probes 0 checksum none slots 1048576 buckets 4194304\n")
    bench.done("load", "cache", write_certificates("one.csv", NEW[:1]))
    same("list", bench.silent("list", "cache"), rows(NEW[:1]))
    for length, word in ((total + 1, "longer"), (2**34, "longer"), (total - 1, "shorter")):
        os.truncate(path_of("cache"), length)
        says(bench.refused(1, SENTENCES[1], "get", "cache", NEW[0].serial),
             f"bench: cache is {word} than a cache of 1048576 slots and 4194304 buckets, which has exactly 125829376 bytes\n")
    os.unlink(path_of("cache"))


# Refusals.

def wrong_shapes(bench):
    """Buckets that no cache has, not above the slots, no power of two or over their limit; no slots, or slots over theirs."""
    image = stored(partners(300, 512), NEW)
    slots_end = 256 + 300 * 56
    wrong = [(1, changed(image[:slots_end] + bytes(16 * buckets), bucket_count=buckets))
             for buckets in (0, 1, 2, 256, 300, 511, 513)]
    wrong += [(1, changed(image[:256] + bytes(512 * 56 + 512 * 16), slot_capacity=512, buckets_offset=256 + 512 * 56))]
    wrong += [(1, changed(image, bucket_count=buckets)) for buckets in (LIMIT - 1, LIMIT + 1, 2**64 - 1)]
    wrong += [(2, changed(image, bucket_count=buckets)) for buckets in (2 * LIMIT, 2**32, 2**63)]
    wrong += [(2, changed(image, slot_capacity=slots)) for slots in (0, 1048577, 2**64 - 1)]
    for answer, data in wrong:
        write("cache", data)
        same("check", refused_by_every_command(bench, answer).out,
             f"answer {answer} live 0 tombstones 0 probes 0 checksum unknown slots 0 buckets 0\n")
        if answer == 1:
            made_anew(bench, second.field(data, "slot_capacity"))
        else:
            bench.leaves_alone("cache", bench.answers, 2, "rebuild", "cache", "new.csv")


def lengths(bench):
    """A file that is longer or shorter than its own total, perhaps as long as bench would make it. Its numbers are said."""
    for slots, buckets, total in ((300, 512, 25248), (300, 2048, 49824)):
        image = stored(partners(slots, buckets), NEW)
        same("the total", len(image), total)
        for length in (80, 256, total - 1, total + 1, total + 16, 33440, 100000):
            write("cache", (image + bytes(length))[:length])
            word = "longer" if length > total else "shorter"
            cache = f"a cache of {slots} slots and {buckets} buckets"
            refused_by_every_command(bench, 1, f"cache is {word} than {cache}, which has exactly {total} bytes\n")
            made_anew(bench, slots)


def damages(bench):
    """A bit of a slot, a bucket or the header, a writer that died, a cache given up: nothing is said of the right length."""
    image = stored(partners(300, 2048), NEW)
    left = changed(image, state=second.DIRTY)
    for answer, data in ((1, flipped(image, 256 + 56 * 7 + 34, 1)), (1, flipped(image, len(image) - 1, 1)),
                         (1, flipped(image, 0xA0, 1)), (1, struck_out(left)), (3, changed(image, state=second.INVALIDATED))):
        write("cache", data)
        ran = refused_by_every_command(bench, answer)
        holds(ran.err, "than a cache" not in ran.err)
        made_anew(bench, 300)
    write("cache", left)
    bench.answers(1, "load", "cache", "new.csv")
    holds("what a dead writer left is struck out", read("cache") == struck_out(left) != left)


# Beside others.

def beside_a_writer(bench):
    """Readers of a partner's cache while a load into it is held between commits and within one, or a rebuild of it."""
    calls = calls_of(bench, MANY_FOREIGN, *LOAD_MANY)
    same("the shape after a load", shape_of("cache"), [2400, 4096])
    odd, even = commits_of(calls)[1]
    points = ((2, 0), (odd, 0), (odd + 1, 0), (odd + 17, 1), (even, 1), (len(calls), 0))
    beside_a_writer_held(bench, MANY_FOREIGN, calls, points)
    left_dirty_beside_a_rebuild(bench, MANY_FOREIGN)


def replaced_by_another_shape(bench):
    """A drop that has opened a file, and asks for its lock when one of another shape has its name, drops from that one."""
    write("cache", partners(3, 4))
    write("other", stored(partners(511, 2048), NEW))
    with stopped(bench, "drop", "cache", NEW[0].serial, KILL_LOCK=1) as drop:
        os.rename(path_of("other"), path_of("cache"))
        drop.send_signal(signal.SIGCONT)
        ran = bench.ended(drop)
        same(f"drop: {ran.err}", (ran.status, ran.out), (0, f"{NEW[0].serial} dropped, 299 live\n"))
    same("the shape", shape_of("cache"), [511, 2048])
    same("list", reads(bench, "cache", "list").out, rows(NEW[1:]))


# The picture.

def pictures(bench):
    """Of a partner's buckets too; of a number that no image has a sentence says that there is none."""
    program = os.path.join(ROOT, "examples", "strip.py")
    for data, title, complaint in (
            (stored(partners(300, 512), NEW), "512 buckets: 300 FULL, 0 TOMBSTONE, 212 EMPTY", ""),
            (stored(partners(3, 4), NEW[:3]), "4 buckets: 3 FULL, 0 TOMBSTONE, 1 EMPTY", ""),
            (partners(300, 16384), "", "drawn has 16,384 buckets, and more than 8,192 are not drawn"),
            (partners(300, 256), "", "its bucket_count is 256, and not a power of two above its slot_capacity, 300"),
            (partners(300, 600), "", "its bucket_count is 600, and not a power of two above its slot_capacity, 300"),
            (changed(partners(1, 1), slot_capacity=0), "", "its bucket_count is 1, and not a power of two above")):
        ran = subprocess.run([sys.executable, program, path_of(write("drawn", data))], capture_output=True, text=True)
        same(f"a picture: {ran.stderr}", ran.returncode, int(title == ""))
        holds(ran.stdout + ran.stderr, f"<title>{title}</title>" in ran.stdout if title else complaint in ran.stderr)


SHAPES_PARTS = (every_command, deleted, full, largest, wrong_shapes, lengths, damages, beside_a_writer,
                replaced_by_another_shape, pictures)
