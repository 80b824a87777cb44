"""The shim kill_at.c at work: the calls of a run, and processes that it holds at one of them."""

import os
import signal
from collections import namedtuple
from contextlib import contextmanager

from bench_tools import GENERATION, NEW, holds, path_of, read, same, write

Call = namedtuple("Call", "name offset data")
LOAD = ("load", "cache", "new.csv")
LOAD_MANY = ("load", "cache", "many_new.csv")
REBUILD = ("rebuild", "cache", "new.csv")
DROP = ("drop", "cache", NEW[0].serial)
CREATE = ("create", "cache")


def calls_of(bench, image, *words):
    """The calls of a run that succeeds, on a file with an image."""
    write("cache", image)
    write("calls", b"")
    bench.done(*words, KILL_CALLS=path_of("calls"))
    return [Call(name, int(offset), bytes.fromhex(data))
            for name, offset, data in (line.split(" ") for line in read("calls").decode().splitlines())]


def commits_of(calls):
    """The numbers of the calls that make the generation odd, and of those that make it even again. The last commit is of
    the user fields."""
    places = [number for number, call in enumerate(calls, 1) if call.name == "pwrite" and call.offset == GENERATION]
    same("two writes of the generation for a commit", len(places) % 2, 0)
    return list(zip(places[::2], places[1::2]))


def renaming(calls):
    """The number of the call that gives a new file its name."""
    return 1 + [call.name for call in calls].index("rename")


def wait_for_stop(process):
    state = os.waitid(os.P_PID, process.pid, os.WSTOPPED | os.WEXITED | os.WNOWAIT)
    holds(f"{process.args} did not stop", state.si_code == os.CLD_STOPPED)


@contextmanager
def stopped(bench, *words, **shim):
    """A process that has stopped itself; it goes on, and ends, after the block unless that has seen to it."""
    process = bench.start(*words, **shim)
    try:
        wait_for_stop(process)
        yield process
        if process.returncode is None:
            process.send_signal(signal.SIGCONT)
            same(f"{words} that was held", bench.ended(process).status, 0)
    finally:
        process.kill()


def held(bench, number, *words, half=0, **more):
    """A process that has stopped itself at a call."""
    return stopped(bench, *words, KILL_AT=number, KILL_HALF=half, KILL_SIGNAL=signal.SIGSTOP, **more)
