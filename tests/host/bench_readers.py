"""Readers and writers of bench at the same time: a process held at a call while others run, and a reader beside a writer
at full speed.
"""

import os
import signal
import threading
import time
from contextlib import ExitStack
from itertools import count, product

import second
from bench_kills import kills
from bench_shim import CREATE, LOAD, LOAD_MANY, REBUILD, calls_of, commits_of, held, renaming, stopped, wait_for_stop
from bench_tools import (
    BATCH, BETWEEN, COUNTS, MANY, MANY_NEW, MANY_OLD, NEW, OLD, OPTIONS, RANDOM, SENTENCES, TOTAL, certificates_in,
    holds, path_of, read, rows, same, says, there, write)
from bench_wanted import MANY_IMAGE, OLD_IMAGE, agrees, changed, fresh, pairs


def points_to_hold(calls):
    """Before each commit, and at the calls around it; within the first and the last, also after a call, or half of one."""
    commits = commits_of(calls)
    same("commits", len(commits), len(BETWEEN) - 1)
    points = {(odd, 0) for odd, _ in commits} | {(2, 0), (len(calls) - 2, 0), (len(calls), 0)}
    within = {(at, half) for odd, even in commits[::4] for at in (odd + 1, odd + 17, even) for half in (0, 1)}
    return sorted(points | within)


def beside_a_writer_held(bench, image, calls, points):
    """Readers while a writer holds the lock and stands still: between commits they see the last one, within one busy. What
    is DIRTY has no checksum."""
    commits = commits_of(calls)
    for number, half in points:
        published = sum(even < number + half for _, even in commits)
        within = any(odd < number and number + half <= even for odd, even in commits)
        write("cache", image)
        with held(bench, number, *LOAD_MANY, half=half):
            tried = [("list",), ("check",), ("get", RANDOM.choice(MANY_NEW).serial)]
            started = [bench.start(command, "cache", *words) for command, *words in tried]
            for ran, words in zip(map(bench.ended, started), tried):
                agrees(ran, read("cache"), 1, *words)
                same(f"{words} while the writer is held at {number}: {ran.err}", ran.status, 4 if within else 0)
                if words == ("list",) and not within:
                    same("list of the last commit", ran.out, rows(BETWEEN[published]))
                COUNTS["reads beside a held writer"] += 1


def beside_a_held_writer(bench):
    calls = calls_of(bench, MANY_IMAGE, *LOAD_MANY)
    beside_a_writer_held(bench, MANY_IMAGE, calls, bench.some(points_to_hold(calls)))


def exports_are_whole(bench):
    """Beside a writer an export is of a CLEAN cache, or there is none: half a load could be taken for all certificates."""
    calls = calls_of(bench, MANY_IMAGE, *LOAD_MANY)
    for number in (1, 2, commits_of(calls)[1][0], len(calls) - 1, len(calls)):
        write("cache", MANY_IMAGE)
        with held(bench, number, *LOAD_MANY):
            clean = second.header_test(read("cache"), MANY) == 0
            same(f"export while the writer is held at {number}", bench.run("export", "cache", "part.csv").status,
                 0 if clean else 4)
            same("the file", there("part.csv"), clean)
        if clean:
            os.unlink(path_of("part.csv"))


def going_on(bench):
    """A reader that meets a commit, a begin or a checkpoint half done waits for its end, and does not answer 4 or 1."""
    calls = calls_of(bench, MANY_IMAGE, *LOAD_MANY)
    odd, even = commits_of(calls)[1]
    for number, half in ((odd + 5, 0), (odd + 20, 1), (even, 0), (1, 1), (len(calls) - 1, 1)):
        write("cache", MANY_IMAGE)
        write("held", b"")
        with held(bench, number, *LOAD_MANY, half=half) as writer:
            reader = bench.start("list", "cache", KILL_HELD=path_of("held"))
            while not read("held") and reader.poll() is None:
                time.sleep(0.001)
            writer.send_signal(signal.SIGCONT)
            ran = bench.ended(reader)
            same(f"a reader at {number}: {ran.err}", ran.status, 0)
            holds("a list between commits", ran.out in map(rows, BETWEEN))
            bench.ended(writer)


def torn_copies(bench):
    """A reader that stops in the middle of its copy while commits go on: the copy is not used."""
    for odd, _ in commits_of(calls_of(bench, MANY_IMAGE, *LOAD_MANY)):
        write("cache", MANY_IMAGE)
        with held(bench, odd, *LOAD_MANY) as writer, stopped(bench, "list", "cache", KILL_COPY=1) as reader:
            writer.send_signal(signal.SIGCONT)
            same("the writer", bench.ended(writer).status, 0)
            reader.send_signal(signal.SIGCONT)
            ran = bench.ended(reader)
            same(f"the reader: {ran.err}", (ran.status, ran.out), (0, rows(MANY_NEW)))


def locked_out(bench):
    """A writer beside a writer, and beside a reader in the middle of its copy, gives up and says busy."""
    write("cache", OLD_IMAGE)
    with held(bench, 3, *LOAD):
        write("other", OLD_IMAGE)
        with stopped(bench, "list", "other", KILL_COPY=1) as reader:
            started = [bench.start("drop", "cache", NEW[0].serial), bench.start("load", "other", "new.csv")]
            for process in started:
                ran = bench.ended(process)
                holds(f"{process.args}: {ran}", ran.status == 4 and SENTENCES[4] in ran.err)
            reader.send_signal(signal.SIGCONT)
            same("the reader", bench.ended(reader).out, rows(OLD))
    same("the writer", bench.done("list", "cache"), rows(NEW))


def shrinking(bench):
    """Another program cuts a file off in the middle of a copy: no copy of it is believed, and no process dies of it."""
    commands = (("list",), ("get", NEW[0].serial), ("check",), ("export", "made.csv"), ("compare", "new.csv"),
                ("load", "new.csv"), ("drop", NEW[0].serial))
    for length, (command, *more) in bench.some(product((0, 1, 255, 256, 4095, 4096, 5000, TOTAL - 1), commands)):
        write("cache", OLD_IMAGE)
        with stopped(bench, command, "cache", *more, KILL_COPY=1) as process:
            os.truncate(path_of("cache"), length)
            process.send_signal(signal.SIGCONT)
            ran = bench.ended(process)
            holds(f"{command} of a file cut to {length} bytes: {ran}", ran.status == 1 or (ran.status, length) == (10, 0))
            says(ran, SENTENCES[ran.status])
            same("what is left of the file", read("cache"), OLD_IMAGE[:length])


def left_by_a_power_cut():
    """DIRTY with an even generation, and one gain half written: an image that only role 0 refuses."""
    image = bytearray(changed(OLD_IMAGE, state=second.DIRTY))
    image[256 + 32:256 + 40] = b"+99.9999"
    same("under role 1 it passes", second.header_test(image, OPTIONS._replace(role=1)), 0)
    return bytes(image)


def rebuilt_beside_readers(bench):
    """Nobody believes what a power cut left, not even while a rebuild holds the lock to replace it."""
    image = left_by_a_power_cut()
    calls = calls_of(bench, image, *REBUILD)
    renamed = renaming(calls)
    same("the calls", [call.name for call in calls], ["pwrite", "pwrite", "fsync", "rename", "fsync"])
    same("the new file is written whole", (calls[1].offset, len(calls[1].data)), (0, TOTAL))
    for number in range(1, len(calls) + 1):
        write("cache", image)
        with held(bench, number, *REBUILD):
            ran = bench.run("get", "cache", NEW[0].serial)
            wanted = 1 if number == 1 else 4 if number <= renamed else 0
            same(f"get beside a rebuild held at {number}: {ran.out}{ran.err}", ran.status, wanted)
        same("list after a rebuild", bench.done("list", "cache"), rows(NEW))
    kills(bench, image, calls, range(1, len(calls) + 1), (rows(NEW),), *REBUILD)


def rebuilt_from_what_is_right(bench):
    """Beside a rebuild of a good cache readers see the old certificates or the new ones; so they do after a kill."""
    calls = calls_of(bench, OLD_IMAGE, *REBUILD)
    same("the calls", [call.name for call in calls], ["pwrite", "fsync", "rename", "fsync"])
    for number in range(1, len(calls) + 1):
        write("cache", OLD_IMAGE)
        with held(bench, number, *REBUILD):
            same(f"list beside a rebuild held at {number}", bench.done("list", "cache"),
                 rows(OLD if number <= renaming(calls) else NEW))
    kills(bench, OLD_IMAGE, calls, range(1, len(calls) + 1), (rows(OLD), rows(NEW)), *REBUILD)


def replaced_meanwhile(bench):
    """A drop that has opened the file, and asks for its lock when a rebuild has replaced it, drops from the new one."""
    write("cache", left_by_a_power_cut())
    with stopped(bench, "drop", "cache", NEW[0].serial, KILL_LOCK=1) as drop:
        bench.done(*REBUILD)
        drop.send_signal(signal.SIGCONT)
        ran = bench.ended(drop)
        same(f"drop: {ran.err}", (ran.status, ran.out), (0, f"{NEW[0].serial} dropped, 299 live\n"))
    same("list", bench.done("list", "cache"), rows(NEW[1:]))


def left_in_the_gap(bench):
    """A shared lock is given back before it becomes an exclusive one. What a writer begins and leaves in between, is not
    believed beside the one that then has the lock."""
    _, even = commits_of(calls_of(bench, OLD_IMAGE, *LOAD))[0]
    write("cache", OLD_IMAGE)
    with stopped(bench, *REBUILD, KILL_LOCK=2, KILL_AT=1, KILL_SIGNAL=signal.SIGSTOP) as rebuild:
        same("a killed load", bench.run(*LOAD, KILL_AT=even + 1).status, -9)
        rebuild.send_signal(signal.SIGCONT)
        wait_for_stop(rebuild)
        ran = bench.run("list", "cache")
        holds(f"list of what was left, beside a rebuild: {ran}", ran.status in (1, 4))
    same("list", bench.silent("list", "cache"), rows(NEW))


def two_creates(bench):
    """Of two creates at the same time one makes the cache, and the other harms nothing. All pairs wait together."""
    names = {number: f"made {number}" for number in range(1, len(calls_of(bench, b"", *CREATE)) + 1)}
    with ExitStack() as stack:
        firsts = [stack.enter_context(held(bench, number, "create", name)) for number, name in names.items()]
        others = [bench.ended(other).status for other in [bench.start("create", name) for name in names.values()]]
        for first, other, name in zip(firsts, others, names.values()):
            first.send_signal(signal.SIGCONT)
            statuses = (bench.ended(first).status, other)
            holds(f"two creates: {statuses}", statuses in ((0, 4), (0, 7), (7, 0)))
            holds("one cache", read(name) == fresh() and not there(name + ".rebuilding"))


# A reader beside a writer at full speed.

DROPPED = [c.serial for c in MANY_NEW[20::600]]


def keep_writing(bench, until, failures):
    """Loads one set of certificates over the other, again and again; sometimes slowly, sometimes after a drop. Each drop
    costs a slot."""
    try:
        for turn in count():
            if time.monotonic() > until:
                return
            if turn % 3 == 0 and turn < 600:
                bench.done("drop", "cache", DROPPED[turn % len(DROPPED)])
            words = ("load", "--older", "cache", ("many_old.csv", "many_new.csv")[turn % 2])
            bench.done(*words, **({"KILL_PAUSE": 1} if turn % 4 == 3 else {}))
    except SystemExit as failure:
        failures.append(failure)


def one_moment(out):
    """A list is of one moment: the commits before it are of one set of certificates, those after it of the other."""
    sets = {c: name for name, certificates in (("old", MANY_OLD), ("new", MANY_NEW)) for c in certificates}
    certificates = certificates_in(out)
    listed = {c.serial: sets.get(c) for c in certificates}
    holds(f"a wrong gain, or a serial twice: {out}", None not in listed.values() and len(listed) == len(certificates))
    holds(f"missing: {out}", all(c.serial in listed or c.serial in DROPPED for c in MANY_NEW))
    firm = [{listed[c.serial] for c in MANY_NEW[at:at + BATCH] if c.serial not in DROPPED}
            for at in range(0, len(MANY_NEW), BATCH)]
    holds(f"half a commit: {out}", all(len(names) == 1 for names in firm))
    holds(f"commits out of order: {out}", sum(a != b for a, b in zip(firm, firm[1:])) <= 1)


def read_once(bench):
    """One read: a right certificate, busy, or not present where it may have been dropped."""
    serial = RANDOM.choice((RANDOM.choice(MANY_NEW).serial, RANDOM.choice(DROPPED)))
    words = RANDOM.choice((("list", "cache"), ("get", "cache", serial)))
    held = len(read("held"))
    ran = bench.run(*words, KILL_HELD=path_of("held"))
    holds(f"{words} beside a writer: {ran}", ran.status in (0, 4) or ran.status == 9 and serial in DROPPED)
    if ran.status == 0 and words[0] == "get":
        holds(ran.out, pairs(ran.out)[0] in [c for c in MANY_OLD + MANY_NEW if c.serial == serial])
    elif ran.status == 0:
        one_moment(ran.out)
    COUNTS["reads beside a writer"] += 1
    COUNTS["of them while it held the lock"] += len(read("held")) > held
    COUNTS["of them answered busy"] += ran.status == 4


def beside(bench):
    write("cache", MANY_IMAGE)
    write("held", b"")
    failures = []
    writer = threading.Thread(target=keep_writing, args=(bench, time.monotonic() + 4, failures))
    writer.start()
    while writer.is_alive():
        read_once(bench)
    writer.join()
    holds(failures, not failures)
    holds(f"the lock was held for some reads: {COUNTS}", COUNTS["of them while it held the lock"] >= 20)


READERS_PARTS = (beside_a_held_writer, exports_are_whole, going_on, torn_copies, locked_out, shrinking, rebuilt_beside_readers,
                 rebuilt_from_what_is_right, replaced_meanwhile, left_in_the_gap, two_creates,
                 beside)
