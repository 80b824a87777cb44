"""Files of certificates: what bench takes from them, and what it refuses as a whole."""

import os

import second
from bench_tools import (
    COUNTS, HEADING, LOADED, NEW, OLD, RANDOM, ROOT, SENTENCES, Certificate, certificates_in, holds, read, rows, same, says,
    there, write, write_certificates)
from bench_wanted import NEW_IMAGE, changed, flipped, fresh, listed, loaded, pairs, reads, rebuilt, stored

LOWEST, HIGHEST = -2**63, 2**63 - 1
SERIAL = "CM1-2444-044"


# Every prefix of the example.

def prefix_refused(bench, name, prefix):
    """With what it lacks: the line feed of its last line, or any certificate."""
    lines = prefix.count(b"\n") + 1
    wanted = [f"line {lines}", "has no line feed"] if prefix[-1:] not in (b"", b"\n") else [f"{name} has no certificates"]
    says(bench.refused(7, "", "load", "cache", name), *wanted)


def prefixes(bench):
    """A load of each prefix of the example into a fresh cache: its certificates where it ends with a line, else nothing."""
    with open(os.path.join(ROOT, "examples", "certificates.csv"), "rb") as file:
        whole = file.read()
    same("its length", len(whole), 6890)
    empty = fresh()
    write("cache", empty)
    for length in (*bench.some(range(len(whole))), len(whole)):
        prefix = whole[:length]
        name = write("prefix.csv", prefix)
        COUNTS["prefixes of certificates"] += 1
        if prefix.endswith(b"\n") and prefix.count(b"\n") > 1:
            bench.done("load", "cache", name)
            same(f"the certificates of {length} bytes", listed(read("cache")).encode(), prefix)
            write("cache", empty)
        else:
            prefix_refused(bench, name, prefix)
            holds(f"the cache after {length} bytes", read("cache") == empty)


# Lines of every form.

NO_NUMBERS = ("N/A", "+1.O23", "+", "-", ".", "1.", ".5", "+.5", "1e3", "+-1", "0x10", "inf", "nan", "1.2.3", "1_0", "--1",
              "1-", "1;5", "'1'")

COMPLAINTS = [
    ("ABC,1,+1", "serial 'ABC' has 3 characters, not 12"),
    ("CM1-2444-04,1,+1", "serial 'CM1-2444-04' has 11 characters, not 12"),
    ("CM1-2444-0449,1,+1", "serial 'CM1-2444-0449' has 13 characters, not 12"),
    ("A,1,+1", "serial 'A' has 1 character, not 12"),
    (",1,+1", "serial '' has 0 characters, not 12"),
    (f"{SERIAL},1.5,+1", "revision '1.5'"),
    (f"{SERIAL},,+1", "revision ''"),
    (f"{SERIAL},0x1,+1", "revision '0x1'"),
    (f"{SERIAL},9223372036854775808,+1", "revision '9223372036854775808'"),
    (f"{SERIAL},-9223372036854775809,+1", "revision '-9223372036854775809'"),
    *((f"{SERIAL},1,{gain}", f"gain '{gain}' is not a number") for gain in NO_NUMBERS),
    (f"{SERIAL},1,", "gain ''"),
    (f"{SERIAL},1,{'9' * 21}", f"gain '{'9' * 21}' has 21 characters, not 1 to 20"),
    (f"{SERIAL},1,+1.{'0' * 30}", "has 33 characters, not 1 to 20"),
    (f"{SERIAL},1", f"'{SERIAL},1' is not serial,revision,gain"),
    (f"{SERIAL},1,+1,", f"'{SERIAL},1,+1,' is not serial,revision,gain"),
    (f"{SERIAL};1;+1", "is not serial,revision,gain"),
    ("serial,revision,gain", "serial 'serial' has 6 characters"),
    (f"{SERIAL}, 1,+1", "character 14"),
    (f"{SERIAL},1,1 ", "character 17"),
    (" ", "character 1"),
    ("CM1-2444-04\0,1,+1", "character 12"),
    ("CM1-2444-04\u00b5,1,+1", "character 12"),
    ("\ufeff" + f"{SERIAL},1,+1", "character 1"),
]


def complaining(bench):
    """Certificates are judged whole: one bad line, and nothing is written, whichever command reads it."""
    loaded(bench, "cache", NEW)
    good = [f"{c.serial},{c.revision + 1},{c.gain}" for c in NEW[:20]]
    for number, (line, sentence) in enumerate(COMPLAINTS):
        write("bad.csv", "\n".join(["serial,revision,gain", *good[:15], line, *good[15:], ""]).encode())
        for command in ("load", "rebuild", "compare")[:3 if number % 10 == 0 else 1]:
            says(bench.leaves_alone("cache", bench.refused, 7, "bench: ./bad.csv line 17: ", command, "cache", "./bad.csv"),
                 sentence)
    for nothing in (b"", HEADING.encode(), b"\n\r\n\n", b"\xef\xbb\xbf" + HEADING.encode()):
        for command in ("load", "rebuild", "compare"):
            bench.leaves_alone("cache", bench.refused, 7, "nothing.csv has no certificates", command, "cache",
                               write("nothing.csv", nothing))


def wrong_words(bench):
    """A serial, or half of one, that is none."""
    for serial in ("", "ABC", NEW[0].serial[:11], NEW[0].serial + "0"):
        for command in ("get", "drop"):
            sentence = f"serial '{serial}' has {len(serial)} characters, not 12"
            bench.leaves_alone("cache", bench.refused, 7, sentence, command, "cache", serial)
    for half in ("", NEW[0].serial + "0"):
        bench.refused(7, f"'{half}' has {len(half)} characters: half a serial has 1 to 12", "find", "cache", half)


def line_ends(bench):
    """The last line needs its line feed; the others have it, with a carriage return before it or not."""
    text, bare = rows(NEW), rows(NEW).removeprefix(HEADING)
    mark, returns = "\ufeff", text.replace("\n", "\r\n")
    for whole in (text, mark + text, returns, mark + returns, bare, mark + bare, "\n" + bare,
                  text.replace("\n", "\n\n\r\n")):
        write("cache", fresh())
        same("load", bench.silent("load", "cache", write("form.csv", whole.encode())), LOADED)
        same("list", listed(read("cache")), text)
    write("cache", fresh())
    for cut, last in ((text[:-1], 301), (text[:-2], 301), (text + "CM1", 302), (text[:-1] + "\r", 301), (HEADING[:-1], 1),
                      (returns[:-1], 301), (text + "\r", 302)):
        for command in ("load", "rebuild", "compare"):
            says(bench.leaves_alone("cache", bench.refused, 7, "has no line feed", command, "cache",
                                    write("cut.csv", cut.encode())), f"cut.csv line {last}")
    for wrong in (mark + mark + text, text.replace("\n", "\r"), text.replace("\n", "\r\r\n")):
        bench.leaves_alone("cache", bench.refused, 7, "line 1", "load", "cache", write("wrong.csv", wrong.encode()))


def taking(bench):
    """Revisions and gains of every allowed form."""
    a, b, c, d, e = (new.serial for new in NEW[10:15])
    write("odd.csv", f"{a},-9223372036854775808,+1.0\r\n\r\n\n{b},9223372036854775807,{'9' * 20}\n"
          f"{c},-0,007\n{d},+7,-0\n{e},00012,-00.10\n".encode())
    write("cache", fresh())
    same("load", bench.silent("load", "cache", "odd.csv"), "5 certificates loaded, 5 live\n")
    for serial, revision, gain in ((a, LOWEST, "+1.0"), (b, HIGHEST, "9" * 20), (c, 0, "007"), (d, 7, "-0"),
                                   (e, 12, "-00.10")):
        same("taken", pairs(reads(bench, "cache", "get", serial).out), [Certificate(serial, revision, gain)])
    one = write_certificates("one.csv", [NEW[10]._replace(revision=1)])
    same("one", bench.silent("load", "cache", one), "1 certificate loaded, 5 live\n")


# Revisions, and lines against lines.

def lines_of(*pairs_of_one):
    """Certificates of one serial, among others; its lines are 3, 5, 7 and so on."""
    between = (c for c in NEW if c.serial != SERIAL)
    return [c for revision, gain in pairs_of_one for c in (next(between), Certificate(SERIAL, revision, gain))]


def contradicting(bench):
    """One serial, one revision, two gains: nobody knows which is right, not even with --older."""
    write("cache", fresh())
    for (first, second_line), certificates in (
            ((3, 5), lines_of((7, "+1.0"), (7, "+1.00"))),
            ((3, 7), lines_of((7, "1"), (8, "2"), (7, "3"))),
            ((5, 7), lines_of((8, "1"), (7, "2"), (7, "3"))),
            ((5, 7), lines_of((LOWEST, "1"), (HIGHEST, "2"), (HIGHEST, "+2"))),
            ((3, 7), lines_of((7, "1"), (7 + 2**32, "2"), (7, "3")))):
        write_certificates("twice.csv", certificates)
        for words in (("load",), ("load", "--older"), ("rebuild",), ("rebuild", "--older"), ("compare",)):
            ran = bench.leaves_alone("cache", bench.refused, 7, "bench: twice.csv line ", *words, "cache", "twice.csv")
            if "is older than" not in ran.err or "--older" in words:
                says(ran, f"twice.csv line {second_line}", SERIAL, f"line {first}")
    same("the same line twice", bench.silent("load", "cache", write_certificates("same.csv", lines_of((7, "1"), (7, "1")))),
         "4 certificates loaded, 3 live\n")


def contradicting_among_many(bench):
    """One pair among lines in any order."""
    numbers = (0, 1, -1, 2**32, 2**32 + 1, LOWEST, HIGHEST, 5, 7)
    many = [Certificate(c.serial, revision, "1.5") for c in NEW[:20] for revision in numbers]
    write("cache", fresh())
    for _ in range(5):
        RANDOM.shuffle(many)
        place = RANDOM.randrange(len(many))
        odd = many[:place] + [RANDOM.choice(many)._replace(gain="1.50")] + many[place:]
        ran = bench.leaves_alone("cache", bench.refused, 7, odd[place].serial, "load", "--older", "cache",
                                 write_certificates("many.csv", odd))
        says(ran, f"line {place + 2}")
    same("load", bench.silent("load", "--older", "cache", write_certificates("many.csv", many)),
         "180 certificates loaded, 20 live\n")


def older_in_the_file(bench):
    """A line older than one above it is refused; with --older the last line decides. compare takes it so."""
    for certificates, line, older, newer in (
            (lines_of((7, "1"), (6, "2")), 5, 6, 7), (lines_of((5, "1"), (7, "2"), (6, "3")), 7, 6, 7),
            (lines_of((HIGHEST, "1"), (LOWEST, "2")), 5, LOWEST, HIGHEST), (lines_of((0, "1"), (-1, "2")), 5, -1, 0)):
        write_certificates("down.csv", certificates)
        for command in ("load", "rebuild"):
            write("cache", fresh())
            words = (command, "cache", "down.csv")
            ran = bench.leaves_alone("cache", bench.refused, 7, f"bench: down.csv line {line}", *words)
            says(ran, SERIAL, str(older), f"is older than revision {newer}", "--older")
            bench.silent(command, "--older", "cache", "down.csv")
            same("the last line", pairs(bench.silent("get", "cache", SERIAL)), certificates[-1:])
        same("compare", bench.silent("compare", "cache", "down.csv"), "")
    for rising in (lines_of((LOWEST, "1"), (HIGHEST, "2")), lines_of((-1, "1"), (0, "2"), (0, "2"), (1, "3"))):
        write("cache", fresh())
        bench.silent("load", "cache", write_certificates("up.csv", rising))
        same("the last line", pairs(bench.silent("get", "cache", SERIAL)), rising[-1:])


AGAINST_THE_CACHE = (  # the cache's, the file's, what is said
    ((7, "1"), (6, "1"), ("revision 6", "is older than revision 7")),
    ((HIGHEST, "1"), (LOWEST, "2"), (str(LOWEST), f"is older than revision {HIGHEST}")),
    ((0, "1"), (-1, "2"), ("revision -1", "is older than revision 0")),
    ((7, "1"), (7, "1.0"), ("7", "another gain")))


def older_than_the_cache(bench):
    for cached, offered, said in AGAINST_THE_CACHE:
        image = stored(fresh(), lines_of(cached))
        write_certificates("offered.csv", lines_of(offered))
        for command in ("load", "rebuild"):
            write("cache", image)
            words = (command, "./cache", "offered.csv")
            ran = bench.leaves_alone("cache", bench.refused, 7, "bench: offered.csv line 3", *words)
            says(ran, SERIAL, *said, "./cache", "--older")
            bench.silent(command, "--older", "cache", "offered.csv")
            same("the file's", pairs(bench.silent("get", "cache", SERIAL)), [Certificate(SERIAL, *offered)])
    for cached, offered in (((LOWEST, "1"), (HIGHEST, "2")), ((-1, "1"), (0, "2")), ((7, "1"), (7, "1"))):
        for command in ("load", "rebuild"):
            write("cache", stored(fresh(), lines_of(cached)))
            bench.silent(command, "cache", write_certificates("offered.csv", lines_of(offered)))
            same("the file's", pairs(bench.silent("get", "cache", SERIAL)), [Certificate(SERIAL, *offered)])


def dropped_is_not_older(bench):
    """What was dropped has no revision any more."""
    write("cache", stored(fresh(), lines_of((7, "1"))))
    bench.silent("drop", "cache", SERIAL)
    bench.silent("load", "cache", write_certificates("offered.csv", lines_of((6, "2"))))
    same("the file's", pairs(bench.silent("get", "cache", SERIAL)), [Certificate(SERIAL, 6, "2")])


def unreadable_is_not_judged(bench):
    """A rebuild judges by the cache only where that can be believed."""
    image = NEW_IMAGE
    believed = (image, changed(image, user_data=0))
    for before in (*believed, changed(image, state=second.DIRTY), image[:-1], flipped(image, 300, 0), b"",
                   changed(image, state=second.INVALIDATED)):
        write("cache", before)
        if before in believed:
            bench.leaves_alone("cache", bench.refused, 7, "is older than revision", "rebuild", "cache", "old.csv")
        else:
            same("rebuild", bench.done("rebuild", "cache", "old.csv"), "cache rebuilt: 300 certificates\n")
            same("list", bench.silent("list", "cache"), rows(OLD))


# Slots.

MORE = [Certificate(f"CM9-2501-{number:03}", number, f"+{number}.5") for number in range(213)]


def filling(bench):
    """512 slots; a load that does not fit as a whole changes nothing, and says how far it is from that."""
    loaded(bench, "full", NEW)
    for surplus, certificates in ((1, MORE), (1, NEW + MORE), (1, NEW[:50] + MORE), (7, MORE + [
            Certificate(f"CM9-2502-{number:03}", 1, "1") for number in range(6)])):
        ran = bench.leaves_alone("full", bench.refused, 5, SENTENCES[5], "load", "full",
                                 write_certificates("more.csv", certificates))
        says(ran, f"too many by {surplus}", "drop")
    for before in (b"", fresh(), read("full"), read("full")[:-1]):
        write("anew", before)
        ran = bench.leaves_alone("anew", bench.refused, 5, "too many by 1", "rebuild", "anew",
                                 write_certificates("more.csv", NEW + MORE))
        holds("nothing is left beside it", not there("anew.rebuilding"))
    same("load", bench.silent("load", "full", write_certificates("more.csv", MORE[:212])),
         "212 certificates loaded, 512 live\n")
    same("list", bench.silent("list", "full"), rows(NEW + MORE[:212]))
    same("rebuild", rebuilt(bench, "anew", write_certificates("more.csv", NEW + MORE[:212] + MORE[:3])),
         "anew rebuilt: 512 certificates\n")


def deleted_keep_slots(bench):
    """Where deleted certificates keep the slots, what the message tells to do helps."""
    for c in MORE[100:104]:
        bench.silent("drop", "full", c.serial)
    last = write_certificates("last.csv", MORE[100:103] + MORE[212:])
    ran = bench.leaves_alone("full", bench.refused, 5, SENTENCES[5], "load", "full", last)
    says(ran, "bench export", "bench rebuild")
    holds(f"it is not too many: {ran.err}", "too many by" not in ran.err)
    bench.silent("export", "full", "kept.csv")
    bench.silent("rebuild", "full", "kept.csv")
    same("load", bench.silent("load", "full", last), "4 certificates loaded, 512 live\n")
    kept = [c for c in MORE[:212] if c not in MORE[100:104]]
    same("list", certificates_in(bench.silent("list", "full")), NEW + kept + MORE[100:103] + MORE[212:])


def deleted_keep_all_slots(bench):
    """Where none is live there is nothing to export: a rebuild alone helps."""
    every = NEW + MORE[:212]
    write("full", stored(stored(fresh(), every), every, put=False))
    ran = bench.leaves_alone("full", bench.refused, 5, SENTENCES[5], "load", "full", "new.csv")
    says(ran, "bench rebuild")
    holds(f"nothing to export: {ran.err}", "export" not in ran.err)
    same("rebuild", bench.silent("rebuild", "full", "new.csv"), "full rebuilt: 300 certificates\n")


CERTIFICATES_PARTS = (
    prefixes, complaining, wrong_words, line_ends, taking, contradicting, contradicting_among_many, older_in_the_file,
    older_than_the_cache, dropped_is_not_older, unreadable_is_not_judged, filling, deleted_keep_slots, deleted_keep_all_slots)
