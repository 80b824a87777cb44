"""The commands of bench on good files: what they print, and what they leave in the file."""

import os
import pty
import re
import socket
from contextlib import suppress
from functools import partial

import second
from bench_tools import (
    HEADING, LOADED, MANY, MANY_LOADED, NEW, OPTIONS, REBUILT, ROOT, SENTENCES, WORK, Certificate, certificates_in, holds,
    of, path_of, read, row, rows, same, says, there, write, write_certificates)
from bench_wanted import NEW_IMAGE, fresh, loaded, pairs, reads, stored, wanted, without_generation

COMMANDS = ("create", "load", "rebuild", "compare", "get", "find", "list", "export", "check", "drop")
USAGE = "usage: bench create FILE"


def version_of_the_library():
    with open(os.path.join(ROOT, "include", "slc1.h")) as header:
        return ".".join(re.findall(r"^#define SLC1_VERSION_(?:MAJOR|MINOR|PATCH) (\d+)$", header.read(), re.M))


def usage(bench):
    help_text = bench.silent("--help")
    holds(help_text, help_text.startswith(USAGE))
    for command in COMMANDS:
        holds(f"help names {command}", f"bench {command} " in help_text)
    same("version", bench.silent("--version"), f"bench {version_of_the_library()}\n")
    for words in ((), ("help",), ("create",), ("get", "a"), ("list", "a", "b"), ("load", "a", "b", "c"), ("--help", "a"),
                  ("load", "--fast", "a", "b"), ("compare", "--progress", "a", "b"), ("compare", "--older", "a", "b"),
                  ("get", "--older", "a", "b"), ("load", "a", "--older", "b"), ("load", "--older", "a"), ("export", "a"),
                  ("compare", "a"), ("list", "--help")):
        bench.refused(64, USAGE, *words)


def on(name):
    """Each command, on a file."""
    with_certificates = [(command, name, "new.csv") for command in ("load", "rebuild", "compare")]
    with_serial = [(command, name, NEW[0].serial) for command in ("get", "find", "drop")]
    return [*with_certificates, *with_serial, ("list", name), ("check", name), ("export", name, "made.csv")]


def other_files(bench):
    """What is there in a file's place, or not at all."""
    for words in (*on("missing"), ("load", "cache", "missing"), ("rebuild", "cache", "missing"),
                  ("create", "missing/cache"), ("export", "cache", "missing/made.csv")):
        bench.refused(74, "No such file", *words)
    for words in (("load", "cache", "."), ("rebuild", "cache", "."), ("compare", "cache", ".")):
        bench.refused(74, "Is a directory", *words)
    os.mkfifo(path_of("pipe"))
    with socket.socket(socket.AF_UNIX) as listening:
        listening.bind(path_of("socket"))
        for name in (".", "pipe", "socket", "/dev/null"):
            for words in (("create", name), *on(name)):
                bench.refused(74, "is not a regular file", *words)
    os.unlink(path_of("socket"))
    holds("nothing was made", not there("missing") and not there("made.csv"))


def creating(bench):
    same("create", bench.silent("create", "cache"), "cache created, 512 slots\n")
    same("a fresh image", read("cache"), fresh())
    same("its mode", os.stat(path_of("cache")).st_mode, os.stat(path_of("new.csv")).st_mode)
    bench.leaves_alone("cache", bench.refused, 7, "cache exists", "create", "cache")
    bench.leaves_alone(write("text", b"x"), bench.refused, 7, "text exists", "create", "text")
    bench.silent("create", write("empty", b""))
    same("an empty file made an image", read("empty"), fresh())
    reads(bench, "cache", "check")
    same("a list of none", bench.silent("list", "cache"), HEADING)


def reading(bench):
    """Certificates by their serials (all, in the plain build), many by half of one, and all at once."""
    same("load", bench.silent("load", "cache", "new.csv"), LOADED)
    image = read("cache")
    same("the file", image, NEW_IMAGE)
    for slot, c in bench.some(enumerate(NEW)):
        out = reads(bench, "cache", "get", c.serial).out
        holds(out, out.startswith(f"{c.serial} slot {slot} revision {c.revision} gain {c.gain} buckets "))
    same("list", bench.silent("list", "cache"), rows(NEW))
    for half in ("C", "CM", "CX2", "CM1-", "CM2-24", "CM1-2444", "CM3-2206-0", "CM3-2206-00", NEW[7].serial):
        found = pairs(reads(bench, "cache", "find", half).out)
        same(f"find {half}", found, [c for c in NEW if c.serial.startswith(half)])
    bench.refused(9, "no serial begins with 'CM1-2445'", "find", "cache", "CM1-2445")
    checked = second.full_check(image, OPTIONS)
    holds("some serials share a home bucket", checked.live == 300 and checked.probes > 300)
    reads(bench, "cache", "check")
    same("no read changed the file", read("cache"), image)


def dropping(bench):
    dropped = [c.serial for c in NEW[3::40]]
    for number, serial in enumerate(dropped, 1):
        same("drop", bench.silent("drop", "cache", serial), f"{serial} dropped, {300 - number} live\n")
    for serial in dropped:
        bench.refused(9, SENTENCES[9], "get", "cache", serial)
        bench.leaves_alone("cache", bench.refused, 9, SENTENCES[9], "drop", "cache", serial)
        bench.refused(9, "no serial begins with", "find", "cache", serial)
    same("list", bench.done("list", "cache"), rows(c for c in NEW if c.serial not in dropped))
    reads(bench, "cache", "check")
    same("load", bench.done("load", "cache", "new.csv"), LOADED)
    same("list", sorted(certificates_in(reads(bench, "cache", "list").out)), sorted(NEW))
    for serial in dropped:
        reads(bench, "cache", "get", serial)


def spelling(bench):
    """What bench itself never writes: a serial and gains with commas, blanks and bytes that do not print."""
    odd = [Certificate("a,b \x7f\0\\x41~!", 1, "1,2"), Certificate("CM1-2444-044", -1, "\0\0 +1\n"),
           Certificate("CM1-2444-045", 0, "")]
    image = stored(fresh(), odd)
    write("odd", image)
    for command, *words in (("list",), ("find", "a"), ("get", odd[1].serial), ("get", odd[2].serial), ("check",)):
        reads(bench, "odd", command, *words)
    same("list", bench.done("list", "odd"),
         HEADING + r"a\x2cb\x20\x7f\x00\x41~!,1,1\x2c2" + "\n" + r"CM1-2444-044,-1,\x00\x00\x20+1\x0a" + "\n"
         + "CM1-2444-045,0,\n")


def exporting(bench):
    """Export, load into another cache, and compare: all the same."""
    image = read("cache")
    bench.silent("drop", "cache", NEW[1].serial)
    same("export", bench.silent("export", "cache", "all.csv"), "299 certificates written to all.csv\n")
    same("what export writes is what list prints", read("all.csv").decode(), bench.silent("list", "cache"))
    for name in ("all.csv", write("nothing", b"")):
        bench.leaves_alone(name, bench.refused, 7, f"{name} exists", "export", "cache", name)
    bench.silent("create", "other")
    same("load", bench.silent("load", "other", "all.csv"), "299 certificates loaded, 299 live\n")
    same("compare", bench.silent("compare", "other", "all.csv") + bench.silent("compare", "cache", "all.csv"), "")
    same("rebuild", bench.silent("rebuild", "cache", "all.csv"), "cache rebuilt: 299 certificates\n")
    same("compare", bench.silent("compare", "cache", "all.csv"), "")
    write("listed.csv", bench.silent("list", "cache").encode())
    same("load of a list", bench.silent("load", "other", "listed.csv"), "299 certificates loaded, 299 live\n")
    same("export of one", bench.silent("export", write("one", stored(fresh(), NEW[:1])), "one.csv"),
         "1 certificate written to one.csv\n")
    for number, damaged in enumerate((b"", image[:-1], image[:300] + b"!" + image[301:], image[:4] + b"2" + image[5:])):
        answer, _ = wanted(damaged, 0, "list")
        bench.answers(answer, "export", write("damaged", damaged), "made.csv")
        holds(f"an export of what is refused ({number}) makes nothing", not there("made.csv"))


def exporting_beside_others(bench):
    """A file that has the name of the one that an export begins with is not its own, and stays."""
    def leave():
        write(f"made.csv.{os.getpid()}", b"of one's own")

    ran = bench.ended(bench.start("export", "cache", "made.csv", before=leave))
    same(f"export: {ran.err}", (ran.status, ran.out), (74, ""))
    (name,) = [name for name in os.listdir(WORK) if name.startswith("made.csv")]
    says(ran, name)
    same("the other file", read(name), b"of one's own")
    os.unlink(path_of(name))


def compared(image, certificates):
    """What compare prints, by its rule: the deciding line of each serial, then what the file lacks."""
    cached = {slot.key.decode(): slot for slot in second.Table(image, OPTIONS).slots() if slot.meta == 1}
    cached = {serial: Certificate(serial, s.revision, s.index.rstrip(b"\0").decode()) for serial, s in cached.items()}
    deciding = {}
    for c in certificates:
        deciding.pop(c.serial, None)
        deciding[c.serial] = c
    out = "".join(("- " + row(cached[serial]) if serial in cached else "") + "+ " + row(c)
                  for serial, c in deciding.items() if cached.get(serial) != c)
    return out + "".join("- " + row(c) for serial, c in cached.items() if serial not in deciding)


def comparing(bench):
    image = loaded(bench, "cache", NEW)
    for certificates in (
            NEW, NEW[::-1], NEW + NEW[5:9], NEW[:-1], NEW[1:], NEW[:1], NEW + [Certificate("CM9-2501-000", 1, "+1")],
            NEW[:7] + [NEW[7]._replace(gain="+1.5")] + NEW[8:], [NEW[7]._replace(revision=99)] + NEW,
            [c._replace(revision=c.revision - 1) if n % 50 == 1 else c for n, c in enumerate(NEW) if n % 30 != 4][::-1]):
        out = compared(image, certificates)
        ran = bench.leaves_alone("cache", bench.run, "compare", "cache", write_certificates("other.csv", certificates))
        same(f"compare: {ran.err}", (ran.status, ran.out, ran.err), (int(out != ""), out, ""))


def rebuilding(bench):
    """Exactly the certificates of a file, whatever the cache had before, in the order of the lines that decide."""
    for before, certificates, out in (
            (fresh(), NEW, REBUILT), (NEW_IMAGE, NEW[::-1], REBUILT), (b"", NEW, REBUILT),
            (NEW_IMAGE, NEW[40:41], "cache rebuilt: 1 certificate\n"),
            (stored(fresh(), NEW[:9]), NEW + NEW[3:5], REBUILT)):
        write("cache", before)
        same("rebuild", bench.silent("rebuild", "cache", write_certificates("other.csv", certificates)), out)
        deciding = list(dict.fromkeys(certificates[::-1]))[::-1]
        holds("the file", without_generation(read("cache")) == without_generation(stored(fresh(), deciding)))
        same("list", reads(bench, "cache", "list").out, rows(deciding))
        holds("nothing is left beside it", not there("cache.rebuilding"))


def links_and_modes(bench):
    """A file that is rebuilt keeps its mode, its owner and the symbolic link to it. Another name it must not have."""
    write("cache", b"")
    os.chmod(path_of("cache"), 0o640)
    owner = (1234, 4321) if os.geteuid() == 0 else (os.geteuid(), os.getegid())
    os.chown(path_of("cache"), *owner)
    os.symlink("cache", path_of("link"))
    write("cache.rebuilding", b"of one's own")
    bench.leaves_alone("cache.rebuilding", bench.refused, 74, "with .rebuilding", "rebuild", "cache", "new.csv")
    os.unlink(path_of("cache.rebuilding"))
    for stand, take_away in ((os.mkdir, os.rmdir), (os.mkfifo, os.unlink), (partial(os.symlink, "nowhere"), os.unlink)):
        stand(path_of("cache.rebuilding"))
        bench.leaves_alone("cache", bench.refused, 74, "with .rebuilding", "rebuild", "cache", "new.csv")
        take_away(path_of("cache.rebuilding"))
    for left in (b"", bytes(5000), b"SLC1 left behind"):
        write("cache.rebuilding", left)
        bench.done("rebuild", "link", "new.csv")
    holds("the link is still one", os.path.islink(path_of("link")))
    status = os.stat(path_of("cache"))
    same("mode and owner", (status.st_mode & 0o7777, status.st_uid, status.st_gid), (0o640, *owner))
    same("list", bench.done("list", "link"), rows(NEW))
    os.link(path_of("cache"), path_of("second name"))
    bench.leaves_alone("cache", bench.refused, 74, "hard link", "rebuild", "cache", "new.csv")
    holds("still one file", os.path.samefile(path_of("cache"), path_of("second name")) and not there("cache.rebuilding"))
    for name in ("link", "second name"):
        os.unlink(path_of(name))


def full_output(bench):
    """What cannot be printed is said, though the work is done."""
    for words in (("list", "cache"), ("get", "cache", NEW[0].serial), ("check", "cache"), ("load", "cache", "new.csv"),
                  ("--help",), ("--version",)):
        with open("/dev/full", "w") as full:
            same(f"{words} on a full disk", bench.ended(bench.start(*words, out=full)).status, 74)


# Of 2098 certificates, after each batch: of a load half on a copy and half in the file.
PROGRESS = [f"{done} % done" for done in (24, 48, 50, 74, 98, 100)]
REBUILT_SO_FAR = [f"{done} % done" for done in (48, 97, 100)]


def on_a_terminal(bench, *words):
    """A run whose standard error is a terminal, and what that shows: it may come in parts, and ends in an error."""
    ours, theirs = pty.openpty()
    ran = bench.ended(bench.start(*words, err=theirs))
    os.close(theirs)
    parts = []
    with open(ours, "rb", buffering=0) as terminal, suppress(OSError):
        while part := terminal.read(65536):
            parts.append(part)
    return ran._replace(err=b"".join(parts).decode())


def progress(bench):
    write("cache", fresh(MANY))
    same("not asked for", bench.silent("load", "cache", "many_new.csv"), MANY_LOADED)
    asked = bench.run("load", "--progress", "cache", "many_new.csv")
    same("asked for", (asked.status, asked.out, asked.err.splitlines()), (0, MANY_LOADED, PROGRESS))
    says(bench.run("load", "--progress", "--older", "cache", "many_old.csv"), *PROGRESS)
    shown = on_a_terminal(bench, "load", "cache", "many_new.csv")
    same("on a terminal", (shown.status, shown.out), (0, MANY_LOADED))
    says(shown, *PROGRESS)
    write("cache", fresh(of(2050)))
    shown = on_a_terminal(bench, "load", "cache", "many_new.csv")
    same("refused on a terminal", (shown.status, shown.err.split("\r")[:2]), (5, PROGRESS[:2]))
    says(shown, "\rbench: cache is full")
    write("cache", fresh(MANY))
    asked = bench.run("rebuild", "--progress", "cache", "many_new.csv")
    same("a rebuild", (asked.status, asked.err.splitlines()), (0, REBUILT_SO_FAR))
    same("not asked for", bench.silent("rebuild", "cache", "many_new.csv"), "cache rebuilt: 2098 certificates\n")
    same("one batch needs none", bench.run("load", "--progress", write("cache", fresh()), "new.csv").err, "")


COMMANDS_PARTS = (usage, creating, other_files, reading, dropping, spelling, exporting, exporting_beside_others, comparing, rebuilding,
                  links_and_modes, full_output, progress)
