"""Caches of any number of slots: the option --capacity, every command on them, and what a rebuild makes of their number."""

import os
import signal
import subprocess
import sys

import second
from bench_damage import refused_by_checksum
from bench_shim import calls_of, held, stopped
from bench_tools import (
    MANY_NEW, MANY_OLD, NEW, REBUILT, ROOT, SENTENCES, Certificate, holds, of, path_of, read, row, rows,
    same, says, there, write, write_certificates)
from bench_wanted import MANY_IMAGE, OLD_IMAGE, changed, flipped, fresh, pairs, reads, rebuilt, stored, without_generation

LIMIT = second.CAPACITY_LIMIT
USAGE = "usage: bench create FILE"
ONE_MORE = Certificate("CM9-2501-000", 1, "+1.5")


def counted(number, what):
    return f"{number} {what}{'s' * (number != 1)}"


# The option.

WRONG = ("0", "00", "-1", "+1", "1.0", "1e3", "0x10", " 1", "1 ", "12x", "x", "", "cache", str(LIMIT + 1), str(2**32 + 1),
         str(2**64 + 1), "9" * 30)


def wrong_capacities(bench):
    """Anything but a number from 1 to the limit is refused, and nothing is made or changed."""
    write("cache", OLD_IMAGE)
    for text in WRONG:
        sentence = f"--capacity '{text}' is not a number of slots: give one from 1 to 1048576"
        bench.refused(7, sentence, "create", "--capacity", text, "made")
        bench.leaves_alone("cache", bench.refused, 7, sentence, "rebuild", "--older", "--capacity", text, "cache", "new.csv")
    bench.refused(7, "--capacity 'made' is not a number", "create", "--capacity", "made")
    for words in (("create", "--capacity"), ("create", "--capacity", "5"), ("create", "made", "--capacity", "5"),
                  ("create", "--capacity=5", "made"), ("create", "--capacity", "5", "made", "made"),
                  ("rebuild", "--capacity"), ("rebuild", "--capacity", "5", "cache")):
        bench.refused(64, USAGE, *words)
    for command in ("load", "compare", "get", "find", "list", "export", "check", "drop"):
        for more in (("cache",), ("cache", NEW[0].serial)):
            bench.leaves_alone("cache", bench.refused, 64, USAGE, command, "--capacity", "5", *more)
    holds("nothing is made", not there("made"))
    os.unlink(path_of("cache"))


def the_largest(bench):
    """A cache of as many slots as there can be. The second program would take minutes for its buckets; the plain build alone
    takes seconds."""
    if bench.step > 1:
        return
    same("create", bench.silent("create", "--capacity", str(LIMIT), "largest"), f"largest created, {LIMIT} slots\n")
    image = read("largest")
    same("the header test", second.header_test(image, of(LIMIT)), 0)
    same("zeros behind the header", image.count(0, 256), len(image) - 256)
    same("load", bench.silent("load", "largest", write_certificates("one.csv", [ONE_MORE])), "1 certificate loaded, 1 live\n")
    same("get", pairs(bench.silent("get", "largest", ONE_MORE.serial)), [ONE_MORE])
    os.unlink(path_of("largest"))


# Every command.

def read_and_dropped(bench, certificates):
    """A cache that has these certificates, read by every command, and without one of them."""
    chosen = certificates[len(certificates) // 2]
    for command, *words in (("get", chosen.serial), ("get", ONE_MORE.serial), ("find", chosen.serial[:9]), ("list",),
                            ("check",)):
        reads(bench, "cache", command, *words)
    same("list", bench.silent("list", "cache"), rows(certificates))
    same("compare", bench.silent("compare", "cache", "some.csv"), "")
    same("drop", bench.silent("drop", "cache", chosen.serial), f"{chosen.serial} dropped, {len(certificates) - 1} live\n")
    for command, *words in (("get", chosen.serial), ("list",), ("check",)):
        reads(bench, "cache", command, *words)
    ran = bench.run("compare", "cache", "some.csv")
    same("compare", (ran.status, ran.out, ran.err), (1, "+ " + row(chosen), ""))


def every_command(bench):
    """Caches of other numbers of slots than 512, full or not, loaded by one batch or several; a rebuild keeps the number."""
    for slots, certificates in ((1, NEW[:1]), (2, NEW[:2]), (300, NEW), (513, NEW), (len(MANY_NEW), MANY_NEW)):
        some, all_of_them = write_certificates("some.csv", certificates), counted(len(certificates), "certificate")
        same("create", bench.silent("create", "--capacity", str(slots), "cache"), f"cache created, {counted(slots, 'slot')}\n")
        holds("what create makes", read("cache") == fresh(of(slots)))
        same("load", bench.silent("load", "cache", some), f"{all_of_them} loaded, {len(certificates)} live\n")
        image = stored(fresh(of(slots)), certificates)
        holds(f"the file of {slots} slots is what the second program makes", read("cache") == image)
        read_and_dropped(bench, certificates)
        same("rebuild", bench.silent("rebuild", "cache", some), f"cache rebuilt: {all_of_them}\n")
        holds("what rebuild makes", without_generation(read("cache")) == without_generation(image))
        same("export", bench.silent("export", "cache", "made.csv"), f"{all_of_them} written to made.csv\n")
        same("what export writes", read("made.csv").decode(), rows(certificates))
        for name in ("cache", "made.csv"):
            os.unlink(path_of(name))


def changed_bits(bench):
    """In a cache over 256 KiB too a bit of a slot or a bucket is noticed by every command that would hand it out."""
    holds("over 256 KiB", len(MANY_IMAGE) > 256 * 1024)
    serial = MANY_OLD[7].serial
    for place in (256 + 56 * 7 + 34, len(MANY_IMAGE) - 1):
        write("cache", flipped(MANY_IMAGE, place, 1))
        for words in (("get", "cache", serial), ("find", "cache", serial[:8]), ("list", "cache"), ("drop", "cache", serial),
                      ("export", "cache", "made.csv"), ("compare", "cache", "many_old.csv"), ("load", "cache", "many_new.csv")):
            bench.leaves_alone("cache", refused_by_checksum, bench, *words)
        holds("nothing is made", not there("made.csv"))
        reads(bench, "cache", "check")


# Rebuilds.

def grown(bench):
    """A full cache says what to do, and that helps: a rebuild with more slots."""
    write("cache", stored(fresh(of(300)), NEW))
    one = write_certificates("one.csv", [ONE_MORE])
    says(bench.leaves_alone("cache", bench.refused, 5, SENTENCES[5], "load", "cache", one),
         "it has 300 slots", "301 serials are too many by 1", "bench rebuild --capacity 301 with all certificates")
    every = write_certificates("every.csv", NEW + [ONE_MORE])
    for words in (("rebuild",), ("rebuild", "--capacity", "300"), ("rebuild", "--capacity", "1")):
        says(bench.leaves_alone("cache", bench.refused, 5, SENTENCES[5], *words, "cache", every), "--capacity 301 ")
    same("rebuild", bench.silent("rebuild", "--capacity", "301", "cache", every), "cache rebuilt: 301 certificates\n")
    same("list", reads(bench, "cache", "list").out, rows(NEW + [ONE_MORE]))
    for slots in (301, 5000, 302):
        bench.silent("rebuild", "--capacity", str(slots), "cache", every)
        holds(f"a cache of {slots} slots",
              without_generation(read("cache")) == without_generation(stored(fresh(of(slots)), NEW + [ONE_MORE])))


def more_than_any_cache(bench):
    """One serial more than a cache can have slots: no number of slots is advised. For the plain build, as the largest is."""
    if bench.step > 1:
        return
    write("cache", fresh(of(1)))
    with open(path_of("more.csv"), "w") as file:
        file.writelines(f"CM{number:010},1,1\n" for number in range(LIMIT + 1))
    ran = bench.leaves_alone("cache", bench.refused, 5, SENTENCES[5], "rebuild", "cache", "more.csv")
    says(ran, "no cache has more than 1048576 slots", "1048577 serials are too many by 1", "second cache")
    holds(ran.err, "--capacity" not in ran.err)
    os.unlink(path_of("more.csv"))


def number_after_a_rebuild(bench):
    """Without --capacity a rebuild makes as many slots as the header speaks of, where a cache may have so many, else 512."""
    image = stored(fresh(of(700)), NEW)
    field = second.FIELDS["slot_capacity"][0]
    for damaged, slots in ((image[:-1], 700), (image + b"\0", 700), (image[:100], 700), (image[:40], 700), (image[:39], 512),
                           (changed(image, state=second.INVALIDATED), 700), (changed(image, state=second.DIRTY), 700),
                           (flipped(image, field, 0), 701), (flipped(image, field + 7, 7), 512), (image[:4], 512), (b"", 512)):
        write("cache", damaged)
        reads(bench, "cache", "check")
        same("rebuild", rebuilt(bench, "cache", "new.csv"), REBUILT)
        same("the slots", second.field(read("cache"), "slot_capacity"), slots)
        write("cache", damaged)
        bench.done("rebuild", "--capacity", "600", "cache", "new.csv")
        holds("those asked for", without_generation(read("cache")) == without_generation(stored(fresh(of(600)), NEW)))


def replaced_by_other_slots(bench):
    """A drop that has opened a file, and asks for its lock when a rebuild has replaced it, drops from the new one."""
    write("cache", OLD_IMAGE)
    with stopped(bench, "drop", "cache", NEW[0].serial, KILL_LOCK=1) as drop:
        bench.done("rebuild", "--capacity", "2000", "cache", "new.csv")
        drop.send_signal(signal.SIGCONT)
        ran = bench.ended(drop)
        same(f"drop: {ran.err}", (ran.status, ran.out), (0, f"{NEW[0].serial} dropped, 299 live\n"))
    same("list", reads(bench, "cache", "list").out, rows(NEW[1:]))


def left_dirty(bench):
    left_dirty_beside_a_rebuild(bench, MANY_IMAGE)


def left_dirty_beside_a_rebuild(bench, image):
    """What a dead writer left is not believed beside a rebuild, whatever its numbers of slots and buckets."""
    image, words = changed(image, state=second.DIRTY), ("rebuild", "cache", "many_new.csv")
    for number in range(1, len(calls_of(bench, image, *words)) - 1):
        write("cache", image)
        with held(bench, number, *words):
            same(f"get beside a rebuild held at {number}", bench.run("get", "cache", MANY_NEW[0].serial).status,
                 1 if number == 1 else 4)


# The picture.

def pictures(bench):
    """Of up to 8,192 buckets; of more a sentence says that there is none."""
    program = os.path.join(ROOT, "examples", "strip.py")
    for slots, buckets in ((1, "2"), (4096, "8,192"), (4097, "16,384")):
        bench.silent("create", "--capacity", str(slots), "drawn")
        ran = subprocess.run([sys.executable, program, path_of("drawn")], capture_output=True, text=True)
        if slots <= 4096:
            same(f"a picture of {slots} slots: {ran.stderr}", ran.returncode, 0)
            holds(ran.stdout, f"{buckets} buckets: 0 FULL, 0 TOMBSTONE, {buckets} EMPTY</title>" in ran.stdout)
        else:
            same("no picture", (ran.returncode, ran.stdout), (1, ""))
            holds(ran.stderr, f"drawn has {buckets} buckets" in ran.stderr and "8,192" in ran.stderr)
        os.unlink(path_of("drawn"))


CAPACITY_PARTS = (wrong_capacities, the_largest, every_command, changed_bits, grown, more_than_any_cache,
                  number_after_a_rebuild, replaced_by_other_slots, left_dirty, pictures)
