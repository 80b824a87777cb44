"""What the parts of the host's test share: the certificates, the program bench, and what the second program makes of an
image. The command line is bench_test.py's.
"""

import os
import random
import re
import signal
import subprocess
import sys
import threading
import time
from collections import Counter, namedtuple

import second

BUILT, WORK = (os.path.abspath(folder) for folder in sys.argv[1:3])
ROOT = os.path.abspath(os.path.join(os.path.dirname(__file__), "..", ".."))
OPTIONS = second.Options(12, 20, 512, 1, 0, 0)
TOTAL = second.total_size(OPTIONS)
BATCH = second.BATCH_LIMIT
GENERATION = second.FIELDS["generation"][0]


def of(slots):
    """The options of a cache that bench makes."""
    return OPTIONS._replace(slot_capacity=slots)


Certificate = namedtuple("Certificate", "serial revision gain")
Ran = namedtuple("Ran", "status out err")

# A part of the sentence that each answer brings.
SENTENCES = {1: "needs a rebuild", 2: "is incompatible", 3: "was given up", 4: "is busy", 5: "is full",
             9: "has no certificate of this serial", 10: "is an empty file"}
# What that sentence tells to run.
ADVICE = {1: "bench rebuild", 3: "bench rebuild", 10: "bench create"}
LOADED = "300 certificates loaded, 300 live\n"
MANY_LOADED = "2098 certificates loaded, 2098 live\n"
REBUILT = "cache rebuilt: 300 certificates\n"
RANDOM = random.Random(1)
COUNTS = Counter()
COUNTED = ("runs", "comparisons", "prefixes of certificates", "damaged images", "kills", "power cuts", "signals",
           "failed calls", "reads beside a held writer", "reads beside a writer", "of them while it held the lock",
           "of them answered busy")


def holds(what, fact):
    COUNTS["comparisons"] += 1
    if not fact:
        sys.exit(f"bench: {what!s:.3000}")


def same(what, got, wanted):
    holds(f"{what}\ngot:    {str(got):.500}\nwanted: {str(wanted):.500}", got == wanted)


def says(ran, *parts):
    for part in parts:
        holds(f"not '{part}' but '{ran.err}'", part in ran.err)


# Certificates and files.

HEADING = "serial,revision,gain\n"


def path_of(name):
    return os.path.join(WORK, name)


def write(name, data):
    with open(path_of(name), "wb") as file:
        file.write(data)
    return name


def read(name):
    with open(path_of(name), "rb") as file:
        return file.read()


def there(name):
    return os.path.lexists(path_of(name))


def row(c):
    return f"{c.serial},{c.revision},{c.gain}\n"


def rows(certificates):
    return HEADING + "".join(map(row, certificates))


def write_certificates(name, certificates):
    return write(name, rows(certificates).encode())


def certificates_in(listed):
    """The certificates of a text of the form that list prints and load reads."""
    heading, *lines = listed.splitlines(True)
    same("the first line", heading, HEADING)
    matches = [re.fullmatch(r"(.{12}),(-?\d+),([^,\n]{1,20})\n", line) for line in lines]
    holds(f"lines of certificates: {lines}", all(matches))
    return [Certificate(match[1], int(match[2]), match[3]) for match in matches]


with open(os.path.join(ROOT, "examples", "certificates.csv")) as of_the_example:
    NEW = certificates_in(of_the_example.read())


def older(certificates):
    """Other certificates for the same serials. Every word of a revision and a gain differs, and revisions are older."""
    return [Certificate(c.serial, c.revision - 1000, f"{number / 8:+013.4f}{number:07}")
            for number, c in enumerate(certificates)]


OLD = older(NEW)
# More than two batches, for caches of more than 256 KiB. MANY_NEW is loaded by several commits.
MANY = of(2400)
MANY_NEW = [Certificate(f"CM5-{2000 + number // 100}-{number % 100:03}", number % 5, f"+{number % 40}.{number:04}")
            for number in range(2 * BATCH + 50)]
MANY_OLD = older(MANY_NEW)
# What a reader may see while MANY_NEW is loaded over MANY_OLD: whole commits. The last commit changes the user fields alone.
BETWEEN = [MANY_NEW[:number] + MANY_OLD[number:] for number in range(0, len(MANY_NEW) + BATCH, BATCH)] + [MANY_NEW]


# The program.

STARTED = {}  # processes, and when each was started
FEW = 24
LONGEST = 60  # seconds that a process may take


def watch():
    """Ends what hangs, by a signal that no test sends."""
    while True:
        time.sleep(1)
        for process, began in list(STARTED.items()):
            if time.monotonic() - began > LONGEST:
                process.send_signal(signal.SIGABRT)
                process.send_signal(signal.SIGCONT)


threading.Thread(target=watch, daemon=True).start()


class Bench:
    def __init__(self, name, step):
        self.program = os.path.join(BUILT, name)
        self.step = step

    def some(self, tries):
        """Of tries in bulk every step-th, since the sanitized program takes five times as long to start; of a few, all."""
        tries = list(tries)
        return tries[::self.step if len(tries) > FEW else 1]

    def start(self, *words, out=subprocess.PIPE, err=subprocess.PIPE, before=None, **shim):
        """Capitals are variables of the shim, which is loaded if there are any. `before` is run in the new process."""
        environment = {"ASAN_OPTIONS": "exitcode=99:detect_leaks=0:verify_asan_link_order=0",  # the shim comes first
                       "UBSAN_OPTIONS": "exitcode=99"}
        if shim:
            environment["LD_PRELOAD"] = os.path.join(BUILT, "kill_at.so")
            environment.update({name: str(int(value) if isinstance(value, int) else value) for name, value in shim.items()})
        process = subprocess.Popen(
            [self.program, *words], cwd=WORK, env=environment, stdin=subprocess.DEVNULL, stdout=out, stderr=err,
            preexec_fn=before, encoding="latin-1")
        STARTED[process] = time.monotonic()
        return process

    def ended(self, process, by=signal.SIGKILL):
        """A process ends by itself or by the one signal that was sent to it, and no sanitizer complains."""
        out, err = process.communicate()
        status = process.returncode
        del STARTED[process]
        COUNTS["runs"] += 1
        holds(f"{process.args} ended by {status}:\n{err}", status == -by or 0 <= status < 99)
        return Ran(status, out, err)

    def run(self, *words, **shim):
        return self.ended(self.start(*words, **shim))

    def done(self, *words, **shim):
        """What a run that must succeed prints."""
        ran = self.run(*words, **shim)
        same(f"{words}: {ran.err}", ran.status, 0)
        return ran.out

    def silent(self, *words):
        """What a run that must succeed, and has nothing to say on standard error, prints."""
        ran = self.run(*words)
        same(f"{words}", (ran.status, ran.err), (0, ""))
        return ran.out

    def refused(self, status, sentence, *words):
        ran = self.run(*words)
        same(f"{words}: {ran.err}", ran.status, status)
        holds(f"{words}: not '{sentence}' but '{ran.err}'", sentence in ran.err)
        holds(f"{words}: every line begins with the program's name: {ran.err}",
              status == 64 or all(line.startswith("bench: ") for line in ran.err.splitlines()))
        same(f"{words}: output", ran.out, "")
        return ran

    def answers(self, answer, *words):
        """Refused by an answer of document 01, with its sentence and what that tells to do."""
        return says(self.refused(answer, SENTENCES[answer], *words), ADVICE.get(answer, ""))

    def leaves_alone(self, name, refuse, *words):
        """`refuse` of words, and the file is byte for byte what it was."""
        before = read(name)
        refused = refuse(*words)
        holds(f"{name} after {words}", read(name) == before)
        return refused
