"""Bench and the system: descriptors that are closed, signals, calls that fail."""

import errno
import os
import resource
import signal
from contextlib import suppress
from itertools import chain, combinations

import second
from bench_shim import CREATE, DROP, LOAD, REBUILD, calls_of, held, renaming
from bench_tools import COUNTS, LOADED, MANY_NEW, NEW, OLD, OPTIONS, WORK, holds, path_of, read, rows, same, says, there, write
from bench_wanted import MANY_IMAGE, OLD_IMAGE, changed, fresh, listed, reads, stored, struck_out

EXPORT = ("export", "cache", "made.csv")
FILES = ("cache", "cache.rebuilding", "made.csv")


def prepare(image):
    """A file with an image, or none; and nothing beside it."""
    for name in filter(there, FILES):
        os.unlink(path_of(name))
    if image is not None:
        write("cache", image)


def left():
    """What a run has left of the files."""
    return [read(name) if there(name) else None for name in FILES]


# Closed descriptors.

CLOSED = tuple(chain.from_iterable(combinations(range(3), count) for count in (1, 2, 3)))


def without(bench, closed, *words):
    """A run that begins without some of the descriptors 0, 1 and 2."""
    return bench.ended(bench.start(*words, before=lambda: [os.close(descriptor) for descriptor in closed]))


def closed_descriptors(bench):
    """Whichever of the three is closed, what it would have printed goes nowhere, and never to the cache."""
    shown = (("list", "cache"), ("get", "cache", NEW[0].serial), ("find", "cache", "CM"), ("check", "cache"))
    many = ("load", "--progress", "cache", "many_new.csv")
    for words in (CREATE, LOAD, many, REBUILD, DROP, EXPORT, *shown):
        image = None if words == CREATE else MANY_IMAGE if words == many else OLD_IMAGE
        prepare(image)
        bench.done(*words)
        wanted = left()
        for closed in CLOSED:
            prepare(image)
            same(f"{words} without {closed}", without(bench, closed, *words).status, 74 if 1 in closed else 0)
            holds(f"{words} without {closed} writes the same", left() == wanted)


def refused_without_descriptors(bench):
    """A refusal that nobody hears has the same status, and writes nothing."""
    write("bad.csv", b"x\n")
    for image, status, words in (
            (OLD_IMAGE, 7, ("load", "cache", "bad.csv")), (OLD_IMAGE[:-1], 1, LOAD), (b"text", 2, REBUILD),
            (OLD_IMAGE, 9, ("drop", "cache", "CM9-9999-999")), (OLD_IMAGE, 7, CREATE)):
        for closed in CLOSED:
            prepare(image)
            same(f"{words} without {closed}", without(bench, closed, *words).status, status)
            holds("nothing is written", left() == [image, None, None])


# Signals.

SIGNALS = (signal.SIGINT, signal.SIGTERM, signal.SIGHUP, signal.SIGPIPE)


def moments(bench, calls):
    """Numbers of calls, each with one of the signals; the first and the last ones with each."""
    numbers = range(1, len(calls) + 1)
    ends = {(number, sent) for number in (*numbers[:2], *numbers[-2:]) for sent in SIGNALS}
    return sorted(ends.union((number, SIGNALS[number % len(SIGNALS)]) for number in bench.some(numbers)))


def signalled(bench, image, *words):
    """A signal while a command is held at one of its calls: it finishes its work, and then ends by the signal."""
    calls = calls_of(bench, image, *words)
    wanted = read("cache")
    for number, sent in moments(bench, calls):
        write("cache", image)
        with held(bench, number, *words) as process:
            process.send_signal(sent)
            process.send_signal(signal.SIGCONT)
            same(f"{words} after {sent.name} at call {number}", bench.ended(process, sent).status, -sent)
        holds(f"the file after {words} and {sent.name} at call {number}", read("cache") == wanted)
        holds("nothing is left beside it", not there("cache.rebuilding"))
        COUNTS["signals"] += 1


def signals(bench):
    signalled(bench, OLD_IMAGE, *LOAD)
    holds("all certificates are there", read("cache") == stored(OLD_IMAGE, NEW))
    signalled(bench, OLD_IMAGE, *REBUILD)
    holds("all certificates are there", listed(read("cache")) == rows(NEW))
    signalled(bench, OLD_IMAGE, *DROP)
    same("the others are there", reads(bench, "cache", "list").out, rows(OLD[1:]))
    signalled(bench, b"", *CREATE)
    holds("a whole image is there", read("cache") == fresh())


def ignored_signals(bench):
    """Under nohup a load goes on, and ends as any other."""
    for sent in SIGNALS:
        write("cache", OLD_IMAGE)
        with held(bench, 9, *LOAD, before=lambda: signal.signal(sent, signal.SIG_IGN)) as process:
            process.send_signal(sent)
            process.send_signal(signal.SIGCONT)
            ran = bench.ended(process)
            same(f"a load that ignores {sent.name}: {ran.err}", (ran.status, ran.out), (0, LOADED))


def fill(pipe):
    """Writes to a pipe until no byte more has room."""
    os.set_blocking(pipe, False)
    for size in (4096, 1):
        with suppress(BlockingIOError):
            while True:
                os.write(pipe, b"x" * size)
    os.set_blocking(pipe, True)


def progress_that_nobody_reads(bench):
    """A pipe that is closed at the other end, or full: the load is finished, and waits for nobody."""
    closed, full = os.pipe(), os.pipe()
    os.close(closed[0])
    fill(full[1])
    for pipe in (closed[1], full[1]):
        write("cache", MANY_IMAGE)
        ran = bench.ended(bench.start("load", "--progress", "cache", "many_new.csv", err=pipe), signal.SIGPIPE)
        by_the_pipe = (ran.status, pipe) == (-signal.SIGPIPE, closed[1])
        holds(f"a load whose progress nobody reads: {ran}", ran.status == 0 or by_the_pipe)
        same("list", bench.silent("list", "cache"), rows(MANY_NEW))
    for end in (*full, closed[1]):
        os.close(end)


# Calls that fail.

ERRORS = (errno.ENOSPC, errno.EIO, errno.EDQUOT)


def failing(bench, image, *words):
    """A run for each call, which fails, a write also after half of it. Gives the number, the calls and what was left."""
    prepare(image)
    calls = calls_of(bench, image, *words) if image is not None else calls_of_create(bench)
    for number, call in bench.some(enumerate(calls, 1)):
        for half in (0, 1)[:2 if call.name == "pwrite" else 1]:
            prepare(image)
            error = ERRORS[number % len(ERRORS)]
            ran = bench.run(*words, KILL_AT=number, KILL_ERROR=error, KILL_HALF=half)
            what = f"{words} with {os.strerror(error)} at call {number}, {call.name}"
            same(f"{what}: {ran.err}", (ran.status, ran.out), (74, ""))
            says(ran, "bench: ", os.strerror(error))
            COUNTS["failed calls"] += 1
            yield number, calls, left()


def failing_updates(bench):
    """The file is as it was, or needs a rebuild; or, where the last sync fails, the work is done."""
    for words in (LOAD, DROP):
        for number, calls, (cache, new, _) in failing(bench, OLD_IMAGE, *words):
            refused = second.header_test(cache, OPTIONS) == 1
            holds(f"{words} that failed at call {number}", cache == OLD_IMAGE or refused or number == len(calls))
            same("beside it", new, None)


def failing_rebuilds(bench):
    """The old file stays, byte for byte, until the new one has its name; what was begun is taken away."""
    dirty, given_up = (changed(OLD_IMAGE, state=state) for state in (second.DIRTY, second.INVALIDATED))
    for image in (OLD_IMAGE, b"", dirty, OLD_IMAGE[:-1], given_up):
        for number, calls, (cache, new, _) in failing(bench, image, *REBUILD):
            stays = number <= renaming(calls)
            holds(f"a rebuild that failed at call {number} of {len(calls)}",
                  cache in (image, struck_out(image)) if stays else listed(cache) == rows(NEW))
            same("beside it", new, None)


def failing_creates(bench):
    """No file is left that was not there."""
    for number, calls, files in failing(bench, None, *CREATE):
        same(f"a create that failed at call {number} of {len(calls)}", files, [None] * 3)
    for number, calls, (cache, new, _) in failing(bench, b"", *CREATE):
        holds(f"a create over an empty file that failed at call {number} of {len(calls)}", cache in (b"", fresh()))
        same("beside it", new, None)


def calls_of_create(bench):
    calls = calls_of(bench, b"", *CREATE)
    os.unlink(path_of("cache"))
    return calls


def interrupted_writes(bench):
    """A write or a sync that a signal interrupts is made again."""
    for number, call in bench.some(enumerate(calls_of(bench, OLD_IMAGE, *LOAD), 1))[::7]:
        if call.name == "pwrite":
            write("cache", OLD_IMAGE)
            bench.done(*LOAD, KILL_AT=number, KILL_ERROR=errno.EINTR)
            holds("all certificates are there", read("cache") == stored(OLD_IMAGE, NEW))


def limit_files():
    resource.setrlimit(resource.RLIMIT_FSIZE, (5000, 5000))


def limited_files(bench):
    """No file may have more than 5000 bytes: writes end short, and then fail."""
    for image, words in ((None, CREATE), (OLD_IMAGE, REBUILD), (OLD_IMAGE, EXPORT), (OLD_IMAGE, LOAD)):
        prepare(image)
        before = sorted(os.listdir(WORK))
        ran = bench.ended(bench.start(*words, before=limit_files))
        same(f"{words}: {ran.err}", (ran.status, ran.out), (74, ""))
        says(ran, os.strerror(errno.EFBIG))
        same(f"the folder after {words}", sorted(os.listdir(WORK)), before)
        holds(f"the file after {words}", words == LOAD or left()[0] == image)
    same("a load that could not be finished", reads(bench, "cache", "list").status, 1)


def ended_exports(bench):
    """An export that fails, or is killed, at any call that the shim sees: the file is whole, or there is none. What a dead
    one left does not hinder the next."""
    prepare(OLD_IMAGE)
    whole = rows(OLD).encode()
    for number, call in enumerate(calls_of(bench, OLD_IMAGE, *EXPORT), 1):
        prepare(OLD_IMAGE)
        before = sorted(os.listdir(WORK))
        same(f"{call.name} fails", bench.run(*EXPORT, KILL_AT=number, KILL_ERROR=errno.EIO).status, 74)
        same(f"the folder after a failed export at call {number}, {call.name}", sorted(os.listdir(WORK)), before)
        same(f"killed at {call.name}", bench.run(*EXPORT, KILL_AT=number).status, -signal.SIGKILL)
        holds(f"a killed export at call {number}, {call.name}", left()[2] in (None, whole))
        if left()[2] is None:
            bench.silent(*EXPORT)
        holds("whole", left()[2] == whole)


CALLS_PARTS = (
    closed_descriptors, refused_without_descriptors, signals, ignored_signals, progress_that_nobody_reads, failing_updates,
    failing_rebuilds, failing_creates, interrupted_writes, limited_files, ended_exports)
