"""Runs the host bench end to end: what it answers is compared with the certificates and with the second program.

usage: bench_test.py BUILT WORK PROGRAM STEP
  BUILT is the folder with PROGRAM, bench and kill_at.so; WORK is an empty folder. Of what there is in bulk every STEP-th is
  tried.
"""

import os
import signal
import sys
import time

sys.path.append(sys.path[0] + "/../second")

from bench_calls import CALLS_PARTS
from bench_capacity import CAPACITY_PARTS
from bench_certificates import CERTIFICATES_PARTS
from bench_commands import COMMANDS_PARTS
from bench_damage import DAMAGE_PARTS
from bench_kills import KILLS_PARTS
from bench_readers import READERS_PARTS
from bench_shapes import SHAPES_PARTS
from bench_tools import COUNTED, COUNTS, MANY_NEW, MANY_OLD, NEW, OLD, WORK, Bench, path_of, write_certificates

PARTS = (COMMANDS_PARTS, CERTIFICATES_PARTS, CAPACITY_PARTS, SHAPES_PARTS, DAMAGE_PARTS, CALLS_PARTS, KILLS_PARTS,
         READERS_PARTS)


def main():
    began = time.monotonic()
    for number in (signal.SIGINT, signal.SIGTERM, signal.SIGHUP):
        signal.signal(number, signal.SIG_DFL)  # a shell has it ignored by what runs in the background
    program, step = sys.argv[3:]
    for parts in PARTS:
        for name in os.listdir(WORK):
            os.unlink(path_of(name))
        for name, certificates in (("new.csv", NEW), ("old.csv", OLD), ("many_new.csv", MANY_NEW), ("many_old.csv", MANY_OLD)):
            write_certificates(name, certificates)
        for part in parts:
            part(Bench(program, int(step)))
    counts = ", ".join(f"{COUNTS[what]} {what}" for what in COUNTED)
    print(f"{program} agrees: {counts} ({time.monotonic() - began:.0f} s)")


if __name__ == "__main__":
    main()
