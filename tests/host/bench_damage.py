"""Files that are damaged, half written, of another kind or no cache at all: what bench answers, and what a rebuild does."""

import second
from bench_tools import (
    COUNTS, GENERATION, NEW, OPTIONS, RANDOM, REBUILT, SENTENCES, TOTAL, holds, read, rows, same, says, there, write,
    write_certificates)
from bench_wanted import (
    MARK, NEW_IMAGE, NONE, OLD_IMAGE, RIGHT, WRONG, changed, checksum, flipped, judging, length_said, loaded, mark_of, marked,
    reads, rebuilt, stored, struck_out)
from images import Images

WRITES = (("load", "cache", "new.csv"), ("drop", "cache", NEW[0].serial))
SHOWS = (("get", "cache", NEW[0].serial), ("find", "cache", "CM"), ("list", "cache"), ("export", "cache", "made.csv"))


def without_a_bucket(image):
    """Damage that the header test passes, and the full check does not. The checksum is right."""
    image = bytearray(image)
    table = second.Table(image, OPTIONS)
    table.write_bucket(next(n for n, bucket in enumerate(table.buckets()) if second.is_full(bucket)), 0, second.EMPTY)
    return marked(image)


def damages_of(image):
    """An image damaged in each way that asks for a rebuild, and what a load answers."""
    return ((1, changed(image, state=second.DIRTY)), (1, changed(image, generation=7)), (1, image[:-1]), (1, image[:100]),
            (1, image + b"\0"), (1, without_a_bucket(image)), (1, flipped(image, 300, 3)), (1, flipped(image, 0xA0, 0)),
            (1, image[:0x100] + bytes(TOTAL - 0x100)), (3, changed(image, state=second.INVALIDATED)),
            (3, changed(image, state=second.INVALIDATED) + b"\0"), (10, b""))


def mending(bench):
    """Of a damaged cache nothing is loaded or dropped; a rebuild makes it right, and compare says so."""
    for refusal, damaged in damages_of(OLD_IMAGE):
        write("cache", damaged)
        reads(bench, "cache", "check")
        reads(bench, "cache", "get", NEW[0].serial)
        for words in (*WRITES, ("compare", "cache", "new.csv")):
            bench.answers(refusal, *words)
            holds(f"the file after {words}", read("cache") in (damaged, struck_out(damaged)))
        holds("nothing is made", not there("cache.rebuilding") and not there("made.csv"))
        same("rebuild", bench.done("rebuild", "cache", "new.csv"), REBUILT)
        same("list", reads(bench, "cache", "list").out, rows(NEW))
        same("the checksum", checksum(read("cache"), 0), RIGHT)
        same("compare and load", bench.silent("compare", "cache", "new.csv") + bench.silent("load", "cache", "new.csv"),
             "300 certificates loaded, 300 live\n")


def used_up(bench):
    """A generation that has no room for all commits of a load, the last of which is the mark's: nothing is begun."""
    image = NEW_IMAGE
    one = write_certificates("one.csv", [NEW[0]._replace(revision=NEW[0].revision + 1)])
    for left, works in ((1, False), (2, False), (3, True)):
        write("cache", changed(image, generation=2**64 - 2 * left))
        reads(bench, "cache", "check")
        for words in (("load", "cache", one), ("drop", "cache", NEW[1].serial)):
            write("cache", changed(image, generation=2**64 - 2 * left))
            if works:
                bench.silent(*words)
                same("the last generation", second.field(read("cache"), "generation"), 2**64 - 2)
            else:
                bench.leaves_alone("cache", bench.answers, 1, *words)
    bench.leaves_alone("cache", bench.answers, 1, "load", "cache", "new.csv")
    same("rebuild", bench.silent("rebuild", "cache", "new.csv"), REBUILT)
    same("load", bench.silent("load", "cache", one), "1 certificate loaded, 300 live\n")


# Files that are no cache.

def may_be_rebuilt(data):
    """Empty, or an image of certificates, whatever its damage: nothing else is written over."""
    return data == b"" or data[:4] == b"SLC1" and second.header_test(data, judging()) in (0, 1, 3)


def other_kinds(bench):
    image, text = NEW_IMAGE, rows(NEW).encode()
    begun = [b"SLC1" + RANDOM.randbytes(length) for length in (0, 1, 100, 251, 252, 60000)]
    return [*(text[:length] for length in bench.some(range(1, 256))), *begun, text, b"text" * 11328, b"\0", b"SLC", b"SLC2",
            b"slc1", b"SLC2" + image[4:], changed(image, user_version=2), changed(image, flags=1),
            changed(image, key_size=11), changed(image, bucket_count=2048), image[:200], bytes(TOTAL),
            *(changed(image, slot_capacity=slots) for slots in (0, 300, 511, 513, 2**20 + 1, 2**64 - 1)),
            b"\xef\xbb\xbf" + text]


def no_cache(bench):
    """A load or a rebuild that is given the wrong file does not touch it."""
    for data in other_kinds(bench):
        write("cache", data)
        answer = second.header_test(data, judging())
        for words in (*WRITES, *SHOWS, ("compare", "cache", "new.csv"))[::1 if len(data) % 16 == 1 else 4]:
            bench.leaves_alone("cache", bench.answers, answer, *words)
        if may_be_rebuilt(data):
            same("rebuild", rebuilt(bench, "cache", "new.csv"), REBUILT)
            same("list", reads(bench, "cache", "list").out, rows(NEW))
        else:
            bench.leaves_alone("cache", bench.answers, 2, "rebuild", "cache", "new.csv")
        holds("nothing is made", not there("cache.rebuilding") and not there("made.csv"))


def lengths(bench):
    """An image that ends too soon, one that is whole, and one with a byte, half of another or all of another behind it. Only the
    whole one is read or written; a rebuild makes the others whole."""
    image = loaded(bench, "cache", NEW)
    for length, answer in ((0, 10), (100, 1), (TOTAL - 1, 1), (TOTAL, 0), (TOTAL + 1, 1), (TOTAL + 8, 1), (TOTAL + TOTAL // 2, 1),
                           (2 * TOTAL, 1)):
        lent = (image + OLD_IMAGE)[:length]
        write("cache", lent)
        same(f"check of {length} bytes", bench.run("check", "cache").status, answer)
        for command, *words in (("check",), ("list",), ("get", NEW[0].serial), ("find", "CM1")):
            reads(bench, "cache", command, *words)
        if answer == 1:
            for words in (*WRITES, ("compare", "cache", "new.csv"), ("export", "cache", "made.csv")):
                says(bench.leaves_alone("cache", bench.refused, 1, SENTENCES[1], *words), *length_said(lent))
            same("rebuild", rebuilt(bench, "cache", "new.csv"), REBUILT)
            same("the length after a rebuild", len(read("cache")), TOTAL)


# The checksum.

def refused_by_checksum(bench, *words):
    ran = bench.run(*words)
    says(ran, SENTENCES[1], "checksum")
    same(f"{words}: {ran}", (ran.status, ran.out), (1, ""))


def all_bits_of_gains(bench):
    """Any bit of a gain, or of a revision, is noticed by whoever would hand it out."""
    image = NEW_IMAGE
    slots = (0, 63, 299)
    places = [256 + 56 * slot + at for slot in slots for at in range(24, 24 + 8 + 20)]
    for place, bit in bench.some((place, bit) for place in places for bit in range(8)):
        damaged = flipped(image, place, bit)
        write("cache", damaged)
        same("a wrong checksum", checksum(damaged, 0), WRONG)
        refused_by_checksum(bench, "get", "cache", NEW[(place - 256) // 56].serial)
        COUNTS["damaged images"] += 1


def every_command_by_checksum(bench):
    """In slots and buckets, used or not, and where the full check finds nothing wrong."""
    image = NEW_IMAGE
    for place in (256 + 24, 256 + 56 * 299 + 51, 256 + 56 * 400, TOTAL - 1):
        damaged = flipped(image, place, 2)
        write("cache", damaged)
        for words in (*SHOWS, *WRITES, ("compare", "cache", "new.csv")):
            bench.leaves_alone("cache", refused_by_checksum, bench, *words)
        holds("nothing is made", not there("made.csv"))
        reads(bench, "cache", "check")
        bench.done("rebuild", "cache", "new.csv")
    for wrong in (MARK + bytes(8), MARK + b"\xff" * 8, mark_of(image)[:12] + b"\1\0\0\0"):
        write("cache", changed(image, user_data=int.from_bytes(wrong.ljust(64, b"\0"), "little")))
        reads(bench, "cache", "check")
        refused_by_checksum(bench, "list", "cache")


OWN = bytes(range(200, 248))


def with_user_fields(image, data, flags=2**64 - 3):
    return changed(image, user_flags=flags, user_data=int.from_bytes(data.ljust(64, b"\0"), "little"))


def user_fields(image):
    return second.field(image, "user_flags"), second.field(image, "user_data").to_bytes(64, "little")


def without_a_mark(bench):
    """An image of another host's: it is read with a warning, and the first load or drop adds the mark alone."""
    image = NEW_IMAGE
    for first in (bytes(16), b"slotsCRc" + mark_of(image)[8:], b"\xff" * 16):
        before = with_user_fields(image, first + OWN)
        for words in (("load", "cache", "new.csv"), ("drop", "cache", NEW[0].serial)):
            write("cache", before)
            for command, *more in (("get", NEW[5].serial), ("list",), ("find", "CM1"), ("check",)):
                reads(bench, "cache", command, *more)
            says(bench.run("compare", "cache", "new.csv"), "no checksum")
            same("none", checksum(before, 0), NONE)
            ran = bench.run(*words)
            same(f"{words}: {ran.err}", ran.status, 0)
            says(ran, "no checksum")
            same("the user fields", user_fields(read("cache")), (2**64 - 3, mark_of(read("cache")) + OWN))
            same("list afterwards", bench.silent("list", "cache"), rows(NEW if words[0] == "load" else NEW[1:]))
    write("cache", changed(image, user_data=0))
    says(bench.run("export", "cache", "unmarked.csv"), "no checksum")
    same("an export without a checksum", read("unmarked.csv").decode(), rows(NEW))


def marks_are_renewed(bench):
    """Each change brings the mark of the bytes as they are then; flags and the other 48 bytes are the host's own."""
    image = OLD_IMAGE
    before = with_user_fields(image, mark_of(image) + OWN)
    write("cache", before)
    same("load", bench.silent("load", "cache", "new.csv"), "300 certificates loaded, 300 live\n")
    holds("the file is the second program's", read("cache") == stored(before, NEW))
    same("the user fields", user_fields(read("cache")), (2**64 - 3, mark_of(read("cache")) + OWN))
    for c in NEW[:3]:
        bench.silent("drop", "cache", c.serial)
        same("the user fields", user_fields(read("cache")), (2**64 - 3, mark_of(read("cache")) + OWN))
    bench.silent("rebuild", "cache", "new.csv")
    same("the mark", user_fields(read("cache"))[1][:16], mark_of(read("cache")))


# Damage in bulk.

def damaged_bytes(bench, image):
    """A bit of one byte of the header after the other, then of bytes of used slots and of used buckets."""
    table = second.Table(image, OPTIONS)
    used = [table.buckets_offset + 16 * n for n, bucket in enumerate(table.buckets()) if bucket.slot_plus1]
    slots = [RANDOM.randrange(256, 256 + 300 * 56) for _ in range(120)]
    buckets = [RANDOM.choice(used) + RANDOM.randrange(16) for _ in range(120)]
    for place in bench.some((*range(256), *slots, *buckets)):
        yield place, flipped(image, place, RANDOM.randrange(8))


def damages(bench):
    """Whatever byte is damaged, it is noticed, by the header's CRC or by the checksum; the generation's alone, by nobody
    where it stays even. The answer is the very one that the definitions give for these bytes."""
    loaded(bench, "cache", NEW)
    for c in NEW[5::30]:
        bench.done("drop", "cache", c.serial)
    image, images = read("cache"), Images(RANDOM)
    for place, damaged in damaged_bytes(bench, image):
        write("damaged", damaged)
        slot = (place - 256) // 56 if 256 <= place < 256 + 300 * 56 else RANDOM.randrange(300)
        for command, *words in (("check",), ("get", NEW[slot].serial), ("list",)):
            ran = reads(bench, "damaged", command, *words)
            holds(f"damage at {place} is noticed: {ran}", ran.status in (1, 2, 3) or place // 8 == GENERATION // 8)
        COUNTS["damaged images"] += 1
    for _ in bench.some(range(100)):
        damaged = bytearray(image)
        for _ in range(RANDOM.randrange(1, 4)):
            images.damage(damaged, OPTIONS)
        if RANDOM.random() < 0.5 and len(damaged) == TOTAL:
            damaged = marked(damaged)  # damage that only the library can notice
        write("damaged", damaged)
        for command, *words in (("check",), ("list",), ("get", RANDOM.choice(NEW).serial), ("find", "CM2-23")):
            reads(bench, "damaged", command, *words)
        COUNTS["damaged images"] += 1


DAMAGE_PARTS = (mending, used_up, no_cache, lengths, all_bits_of_gains, every_command_by_checksum, without_a_mark,
                marks_are_renewed, damages)
