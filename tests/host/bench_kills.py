"""The host bench killed at every call that writes, and what a power cut leaves of its file."""

import os

from bench_shim import CREATE, DROP, LOAD, LOAD_MANY, REBUILD, calls_of, commits_of
from bench_tools import (
    COUNTS, LOADED, MANY_NEW, NEW, OLD, RANDOM, REBUILT, SENTENCES, Bench, certificates_in, holds, path_of, read, rows, same,
    there, write)
from bench_wanted import MANY_IMAGE, OLD_IMAGE, fresh, pairs, reads, struck_out


def right(ran, certificates):
    """A get answered one of these certificates, or that the file needs a rebuild."""
    if ran.status == 1:
        return holds(ran.err, SENTENCES[1] in ran.err)
    same(f"get: {ran.err}", ran.status, 0)
    holds(f"{ran.out} is none of {certificates}", pairs(ran.out)[0] in certificates)


def after_a_kill(bench, numbers, wholes):
    """What readers see of the file; then what a load and a rebuild make of it."""
    ran = reads(bench, "cache", "list")
    holds(f"neither refused nor whole: {ran}", ran.status == 1 or ran.out in wholes)
    for number in numbers:
        right(bench.run("get", "cache", NEW[number].serial), (OLD[number], NEW[number]))
    if ran.status == 1:
        image = read("cache")
        bench.answers(1, *LOAD)
        holds("a load that is refused", read("cache") in (image, struck_out(image)))
        same("rebuild after a kill", bench.done(*REBUILD), REBUILT)
    else:
        same("load after a kill", bench.done(*LOAD), LOADED)
    same("list after a kill", sorted(certificates_in(reads(bench, "cache", "list").out)), sorted(NEW))
    COUNTS["kills"] += 1


def begin_with(image):
    """The cache as it was when the calls were counted: a file that a kill left beside it would bring one more."""
    write("cache", image)
    if there("cache.rebuilding"):
        os.unlink(path_of("cache.rebuilding"))


def kills(bench, image, calls, chosen, wholes, *words):
    """SIGKILL at the chosen calls of a run, and in the middle of those that write."""
    for number, half in ((number, half) for number in chosen for half in (0, 1)):
        if half and calls[number - 1].name != "pwrite":
            continue
        begin_with(image)
        same("a killed run", bench.run(*words, KILL_AT=number, KILL_HALF=half).status, -9)
        every = half == 0 and number in (1, 100, len(calls))
        after_a_kill(bench, bench.some(range(300)) if every else (number % 300,), wholes)
    begin_with(image)
    same("a run that ends before the kill", bench.run(*words, KILL_AT=len(calls) + 1).status, 0)


def killed_loads(bench):
    calls = calls_of(bench, OLD_IMAGE, *LOAD)
    same("the shim sees each call once, whatever else intercepts it", calls, calls_of(Bench("bench", 1), OLD_IMAGE, *LOAD))
    chosen = sorted({*bench.some(range(1, len(calls) + 1)), 1, 2, *range(len(calls) - 4, len(calls) + 1)})
    kills(bench, OLD_IMAGE, calls, chosen, (rows(OLD), rows(NEW)), *LOAD)


def killed_between_commits(bench):
    """A load of several batches, killed at the ends of each commit: some are in the file, and it needs a rebuild."""
    commits = commits_of(calls_of(bench, MANY_IMAGE, *LOAD_MANY))
    for number in (number for odd, even in commits for number in (odd, odd + 1, even, even + 1)):
        begin_with(MANY_IMAGE)
        same("a killed load", bench.run(*LOAD_MANY, KILL_AT=number).status, -9)
        same(f"list after a kill at {number}", reads(bench, "cache", "list").status, 1)
        COUNTS["kills"] += 1
    same("rebuild after a kill", bench.done("rebuild", "cache", "many_new.csv"), "cache rebuilt: 2098 certificates\n")
    same("list after a rebuild", reads(bench, "cache", "list").out, rows(MANY_NEW))


def killed_drops(bench):
    calls = calls_of(bench, OLD_IMAGE, *DROP)
    for number in range(1, len(calls) + 1):
        write("cache", OLD_IMAGE)
        same("a killed drop", bench.run(*DROP, KILL_AT=number).status, -9)
        after_a_kill(bench, (), (rows(OLD), rows(OLD[1:])))


def killed_creates(bench):
    """What a create left that was killed is no cache, or a whole one; the next create makes it one."""
    for number in range(1, len(calls_of(bench, b"", *CREATE)) + 1):
        for name in filter(there, ("cache", "cache.rebuilding")):
            os.unlink(path_of(name))
        same("a killed create", bench.run(*CREATE, KILL_AT=number).status, -9)
        holds(f"a create killed at {number}", not there("cache") or read("cache") in (b"", fresh()))
        holds("the next create", bench.run(*CREATE).status in (0, 7) and read("cache") == fresh())
        same("load", bench.silent(*LOAD), LOADED)
        COUNTS["kills"] += 1


def disk_after(calls, synced, cut, image):
    """Every write up to the sync, and of each sector any state that it had between that and the cut."""
    disk, kept = bytearray(image), {}
    for number, call in enumerate(calls[:cut], 1):
        for at, byte in enumerate(call.data, call.offset):
            last = kept.setdefault(at // 512, RANDOM.choice((synced, cut, RANDOM.randrange(synced, cut + 1))))
            if number <= max(synced, last):
                disk[at] = byte
    return disk


def power_cuts(bench):
    """Whatever the disk has after a power cut, it is refused, or it is whole. Most cuts are around a sync."""
    calls = calls_of(bench, OLD_IMAGE, *LOAD)
    syncs = [number for number, call in enumerate(calls, 1) if call.name == "fdatasync"]
    same("begin, sync, commits, sync, checkpoint, sync", (len(syncs), syncs[-1], syncs[1]), (3, len(calls), len(calls) - 2))
    around = [sync + by for sync in syncs for by in (-2, -1, 0, 1, 2) for _ in range(5)]
    for cut in bench.some(around + [RANDOM.randrange(len(calls) + 1) for _ in range(60)]):
        synced = max((sync for sync in syncs if sync <= cut), default=0)
        write("disk", disk_after(calls, synced, max(cut, 0), OLD_IMAGE))
        ran = reads(bench, "disk", "list")
        holds(f"a power cut after call {cut}: {ran}", ran.status == 1 or ran.out in (rows(OLD), rows(NEW)))
        COUNTS["power cuts"] += 1


KILLS_PARTS = (killed_loads, killed_between_commits, killed_drops, killed_creates, power_cuts)
