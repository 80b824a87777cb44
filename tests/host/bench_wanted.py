"""What the second program makes of an image: the bytes that bench must write, and what it must answer and print."""

import re
from functools import lru_cache

import images
import second
from bench_tools import (
    ADVICE, BATCH, GENERATION, HEADING, MANY, MANY_OLD, NEW, OLD, OPTIONS, SENTENCES, Certificate, holds, of, read, same, says,
    write, write_certificates)

# Images.

def judging(role=0):
    """The options under which bench judges a file: its slots and buckets are as its header says."""
    return OPTIONS._replace(slot_capacity=0, role=role)


def changed(image, **fields):
    image = bytearray(image)
    second.write_fields(image, **fields)
    return bytes(image)


def flipped(image, place, bit):
    image = bytearray(image)
    image[place] ^= 1 << bit
    return bytes(image)


def struck_out(image):
    """What a dead writer left, and readers beside the next writer must not believe, may be made odd."""
    left = second.header_test(image, judging(role=1)) == 0 and second.field(image, "state") == second.DIRTY
    return changed(image, generation=second.field(image, "generation") | 1) if left else image


# The checksum: the first 16 bytes of the user data.

MARK = b"slotsCRC"
UNKNOWN, NONE, RIGHT, WRONG = "unknown", "none", "right", "wrong"
CHECKSUM_SAID = {NONE: "has no checksum, a changed gain would not be noticed: load or rebuild adds one\n",
                 WRONG: "has a wrong checksum: bytes have changed since they were written\n"}


@lru_cache
def crc32c(data):
    return second.crc32c(data)


def mark_of(image):
    return MARK + crc32c(bytes(image[256:])).to_bytes(8, "little")


def checksum(image, role):
    """What is known of an image's checksum. It holds for CLEAN images that pass the header test."""
    if second.header_test(image, judging(role)) or second.field(image, "state") != second.CLEAN:
        return UNKNOWN
    kept = second.field(image, "user_data").to_bytes(64, "little")[:16]
    if not kept.startswith(MARK):
        return NONE
    return RIGHT if kept == mark_of(image) else WRONG


def marked(image):
    """With the mark that belongs to its bytes; the other user data stay."""
    rest = second.field(image, "user_data").to_bytes(64, "little")[16:]
    return changed(image, user_data=int.from_bytes(mark_of(image) + rest, "little"))


# What the second program makes of an image.

def record(c, put):
    return images.record_of(OPTIONS, put, c.serial.encode(), c.revision if put else 0, c.gain.encode() if put else b"")


def stored(image, certificates, put=True):
    """The image after a load, or a drop, of certificates: a begin, commits, the mark in the user data, and a checkpoint."""
    image, held = bytearray(image), judging(role=2)
    answers = [second.begin(image, held)]
    for at in range(0, len(certificates), BATCH):
        answers.append(second.commit(image, held, b"".join(record(c, put) for c in certificates[at:at + BATCH])))
    _, flags, data = second.open_check(image, held)
    answers += [second.set_user_fields(image, held, flags, mark_of(image) + data[16:]), second.checkpoint(image, held)]
    same("the second program's answers", set(answers), {0})
    return bytes(image)


@lru_cache
def fresh(options=OPTIONS):
    """What create makes."""
    return stored(images.fresh(options), [])


def partners(slots, buckets):
    """A fresh image as a partner makes it: with another number of buckets, and without the mark."""
    return bytes(images.fresh(of(slots), buckets))


def without_generation(image):
    return bytes(image[:GENERATION]) + bytes(image[GENERATION + 8:])


def spelled(data):
    """As text: what does not print, or would not be read back, is spelled out. Zeros at the end are no part of a gain."""
    return "".join(chr(byte) if 33 <= byte <= 126 and byte not in b"," else f"\\x{byte:02x}" for byte in data)


def gain_of(slot):
    return spelled(slot.index.rstrip(bytes(1)))


def shown(image, number):
    slot = second.Table(image, judging()).slot(number)
    return f"{spelled(slot.key)} slot {number} revision {slot.revision} gain {gain_of(slot)}"


def listed(image):
    live = [slot for slot in second.Table(image, judging()).slots() if slot.meta == 1]
    return HEADING + "".join(f"{spelled(slot.key)},{slot.revision},{gain_of(slot)}\n" for slot in live)


def wanted_get(image, options, serial):
    found = second.lookup(image, options, serial.encode())
    return found.answer, f"{shown(image, found.slot)} buckets {found.buckets}\n" if found.answer == 0 else ""


def wanted_list(image, options):
    answer = second.header_test(image, options)
    return answer, "" if answer else listed(image)


def wanted_find(image, options, half):
    numbers, pattern = [0] * (len(image) // second.slot_size(options)), half.encode()
    found = second.match(image, options, 0, 8 * len(pattern), pattern, 0, len(numbers), numbers)
    out = "".join(shown(image, number) + "\n" for number in numbers[:found.written])
    return found.answer or 9 * (out == ""), out


def wanted_check(image, options):
    checked = second.full_check(image, options)
    word = checksum(image, options.role)
    slots, buckets, _ = second.image_shape(image, options)
    out = "answer %d live %d tombstones %d probes %d checksum %s slots %d buckets %d\n" % (*checked, word, slots, buckets)
    return checked.answer or int(word == WRONG), out


WANTED = {"get": wanted_get, "list": wanted_list, "find": wanted_find, "check": wanted_check}


def wanted(image, role, command, *words):
    """The answer and the output for an image. One with a wrong checksum needs a rebuild, and nothing of it is shown."""
    if command != "check" and checksum(image, role) == WRONG:
        return 1, ""
    return WANTED[command](image, judging(role), *words)


def spoken_of(image, name, possible):
    """A number of the header, or 0 where it is not there or not possible."""
    return second.field(image, name) if len(image) >= sum(second.FIELDS[name]) and second.field(image, name) in possible else 0


def length_said(image, role=0):
    """What is said of the length of an image, where it is to be rebuilt: nothing, or a line. It names the buckets where bench
    would make another number."""
    said = spoken_of(image, "slot_capacity", range(1, second.CAPACITY_LIMIT + 1))
    slots = said or 512
    usual = second.bucket_count(of(slots))
    buckets = said and spoken_of(image, "bucket_count", [2**n for n in range(1, 23) if 2**n > slots]) or usual
    total = second.total(OPTIONS, slots, buckets)
    if second.header_test(image, judging(role)) not in (1, 3) or len(image) == total:
        return []
    cache = f"a cache of {slots} slot{'s' * (slots > 1)}" + (buckets != usual) * f" and {buckets} buckets"
    return [f"is {'longer' if len(image) > total else 'shorter'} than {cache}, which has exactly {total} bytes\n"]


def agrees(ran, image, role, command, *words):
    """A run answered as the second program does, with the sentence that belongs to the answer."""
    answer, out = wanted(image, role, command, *words)
    same(f"{command} {words}: {ran.err}", (ran.status, ran.out), (answer, out))
    sentence = "no serial begins with" if (command, answer) == ("find", 9) else SENTENCES.get(answer, "")
    word = checksum(image, role)
    says(ran, sentence, ADVICE.get(answer, ""), "checksum" if word == WRONG else "",
         "no checksum" if word == NONE and command != "check" else "")
    same(f"{command} {words}: {ran.err}", re.findall(r"is (?:longer|shorter) than a cache.*\n", ran.err),
         length_said(image, role))
    holds(f"{command} of what is right: {ran.err}", answer or word == NONE or ran.err == "")


def reads(bench, name, command, *words):
    ran = bench.run(command, name, *words)
    agrees(ran, read(name), 0, command, *words)
    return ran


def rebuilt(bench, name, certificates):
    """What a rebuild prints that succeeds, and complains of nothing but the file's length and checksum."""
    before = read(name)
    said = length_said(before) + [CHECKSUM_SAID.get(checksum(before, 0), "")]
    ran = bench.run("rebuild", name, certificates)
    same(f"rebuild of {name}", (ran.status, ran.err), (0, "".join(f"bench: {name} {line}" for line in filter(None, said))))
    return ran.out


def pairs(out):
    """Serial, revision and gain of each line of get or find."""
    lines = re.findall(r"^(\S{12}) slot \d+ revision (-?\d+) gain (\S+)(?: buckets \d+)?\n", out, re.M)
    same("lines of the form of a certificate", len(lines), out.count("\n"))
    return [Certificate(serial, int(revision), gain) for serial, revision, gain in lines]


def loaded(bench, name, certificates):
    """The image of a file with exactly these certificates, as the second program makes it too."""
    write(name, fresh())
    bench.done("load", name, write_certificates("loaded.csv", certificates))
    image = read(name)
    holds("the file is what the second program makes of it", image == stored(fresh(), certificates))
    return image


OLD_IMAGE, NEW_IMAGE = stored(fresh(), OLD), stored(fresh(), NEW)
MANY_IMAGE = stored(fresh(MANY), MANY_OLD)
