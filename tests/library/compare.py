"""Compares the library on this machine with the second program, call by call.

usage: compare.py [SEED]
"""

import os
import random
import re
import sys
import time
from collections import defaultdict
from copy import copy

sys.path.append(sys.path[0] + "/../second")

import native
import second
from images import Images, fresh, least_buckets, record_of

CRATES = os.path.abspath(os.path.join(os.path.dirname(__file__), "..", "..", "crates"))
# the calls, by what demand 1 names them
JUDGED = {"create": "create", "open": "open_check", "begin": "begin", "commit": "commit", "checkpoint": "checkpoint",
          "invalidate": "invalidate", "user_slice": "set_user_fields", "lookup": "lookup", "scan": "scan", "match": "match",
          "check": "full_check"}


class Comparison:
    def __init__(self, seed):
        self.random = random.Random(seed)
        self.images = Images(self.random)
        self.calls = 0
        self.reached = defaultdict(set)

    def same(self, name, *arguments):
        """Makes a call of both; ends the run where the answers, or what was lent, differ afterwards."""
        ours, theirs = (self.made(program, name, arguments) for program in (native, second))
        self.reached[name].add(getattr(ours[0], "answer", ours[0]))
        self.calls += 1
        if ours != theirs:
            told = f"{name}{arguments}", f"the library:        {ours}", f"the second program: {theirs}"
            # an image may have millions of bytes
            sys.exit("\n".join(line[:100000] for line in told))

    def made(self, program, name, arguments):
        own = [copy(argument) if isinstance(argument, (list, bytearray)) else argument for argument in arguments]
        answer = getattr(program, name)(*own)
        return answer, [argument for argument in own if isinstance(argument, (list, bytearray))]

    def number(self, most):
        """A small number, or one from far out of range."""
        return self.random.choice((0, 1, most, self.random.randrange(most + 2), 2**32, 2**63, 2**64 - 1))

    def results(self):
        """A list for the numbers of a call: often too short, often with entries to spare."""
        return [self.random.getrandbits(64) for _ in range(self.random.randrange(7))]


def digests(comparison):
    for _ in range(30000):
        comparison.same("fnv1a64", comparison.random.randbytes(comparison.random.randrange(81)))
        comparison.same("crc32c", comparison.random.randbytes(comparison.random.randrange(81)))


def ages(comparison):
    for _ in range(40000):
        comparison.same("revision_age", comparison.images.revision(), comparison.images.revision())


def places(comparison):
    """The sizes and places that a host asks for, at and round the last slot too."""
    for _ in range(20000):
        o = comparison.images.asked(comparison.images.options())
        slot = comparison.number(min(o.slot_capacity or second.CAPACITY_LIMIT, second.CAPACITY_LIMIT))
        comparison.same("places", o, max(slot - comparison.random.randrange(2), 0))


def lookups(comparison, image, o):
    keys = [comparison.images.key(o) if 0 < o.key_size <= 80 else b""]
    if comparison.random.random() < 0.2:
        keys.append(comparison.random.randbytes(comparison.random.randrange(81)))
    for key in keys:
        comparison.same("lookup", image, o, key)
        comparison.same("lookup_results", image, o, key, comparison.results())


def pattern(comparison, o):
    """Offset, bits and pattern: mostly right, taken from a likely key."""
    pick = comparison.random
    key = comparison.images.key(o) if 0 < o.key_size <= 80 else b"\0"
    offset, bits = pick.randrange(len(key)), pick.choice((0, pick.randrange(1, 20)))
    if pick.random() < 0.1:
        offset, bits = comparison.number(o.key_size), comparison.number(20)
    needed = min((bits + 7) // 8, 80) if bits else pick.randrange(len(key) + 1)
    needed += pick.choice((-1, 1)) if pick.random() < 0.1 else 0
    wanted = bytearray(key[offset:offset + needed].ljust(max(needed, 0), b"\0"))
    if wanted and pick.random() < 0.3:
        wanted[-1] ^= 1 << pick.randrange(8)
    return offset, bits, bytes(wanted)


def headers(comparison):
    """Every word of a header with each of its bits turned, at and below every power of two, and at random; its CRC right, and wrong
    in one bit."""
    pick, powers = comparison.random, [2**power for power in range(65)]
    for at in range(0, 256, 8):
        o = comparison.images.options()
        image = comparison.images.history(o)
        held = int.from_bytes(image[at:at + 8], "little")
        turned, below = [held ^ power for power in powers[:64]], [power - 1 for power in powers]
        for word in (*turned, *below, *powers[:64], *(pick.getrandbits(64) for _ in range(40))):
            image[at:at + 8] = word.to_bytes(8, "little")
            second.write_fields(image)
            comparison.same("open_check", bytes(image), o)
            second.write_field(image, "header_crc32c", second.field(image, "header_crc32c") ^ pick.choice(powers[:32]))
            comparison.same("open_check", bytes(image), o)


def listings(comparison, image, o):
    numbers = [comparison.random.getrandbits(32) for _ in range(comparison.random.randrange(8))]
    window, matched = (comparison.number(6), comparison.number(6)), pattern(comparison, o)
    comparison.same("scan", image, o, *window, numbers)
    comparison.same("scan_results", image, o, *window, numbers, comparison.results())
    comparison.same("match", image, o, *matched, *window, numbers)
    comparison.same("match_results", image, o, *matched, *window, numbers, comparison.results())


def reads(comparison, image, o):
    """Every call that reads."""
    comparison.same("open_check", image, o)
    comparison.same("image_shape", image, o)
    comparison.same("full_check", image, o)
    comparison.same("full_check_results", image, o, comparison.results())
    lookups(comparison, image, o)
    listings(comparison, image, o)


def readings(comparison):
    for _ in range(4500):
        o = comparison.images.options()
        image = bytes(comparison.images.image(o))
        for _ in range(8):
            reads(comparison, image, comparison.images.asked(o))


def creations(comparison):
    for _ in range(8000):
        o = comparison.images.asked(comparison.images.options())
        size = second.total_size(o) if second.allowed_to_create(o) else 300
        length = comparison.random.choice((0, 255, size - 1, size, size + 1, size + 70))
        # room for the smallest slots, as many as there may be; memory for larger ones may be missing
        comparison.same("create", bytearray(comparison.random.randbytes(min(length, 2**26))), o)


def move_generation(comparison, image):
    """Sometimes to an end of its range, or odd; the CRC does not cover it."""
    if len(image) >= 256 and comparison.random.random() < 0.3:
        generation = comparison.random.choice((0, 1, 2**64 - 1, 2**64 - 2, 2**64 - 3, 2**64 - 4))
        second.write_field(image, "generation", generation)


def state_calls(comparison, image, o):
    for name in ("begin", "checkpoint", "invalidate"):
        comparison.same(name, image, o)
    length = comparison.random.choice((64, 64, 64, 0, 63, 65))
    comparison.same("set_user_fields", image, o, comparison.random.getrandbits(64), comparison.random.randbytes(length))


def writings(comparison):
    """Every state call under every role, state and generation; the whole buffer compared."""
    for _ in range(6000):
        o = comparison.images.options()
        image = comparison.images.image(o)
        move_generation(comparison, image)
        for _ in range(4):
            state_calls(comparison, image, comparison.images.asked(o))


def user_data(comparison):
    """User data of every length around 64: on an image that passes, of length 0, with a foreign magic, and cut short."""
    o = comparison.images.options()
    image = comparison.images.history(o)
    foreign = copy(image)
    second.write_field(foreign, "magic", 0)
    for lent in (image, bytearray(), foreign, image[:255]):
        for role in range(4):
            for length in (*range(66), 128):
                comparison.same("set_user_fields", lent, o._replace(role=role), 7, comparison.random.randbytes(length))


def malformed(comparison, o, batch):
    """A batch that is wrong in one way."""
    batch, pick = bytearray(batch), comparison.random
    kind = pick.randrange(5)
    if kind == 0:
        return bytes(batch) + b"\0"
    if kind == 1:
        return comparison.images.record(o) * pick.choice((2, 64, 65, second.BATCH_LIMIT, second.BATCH_LIMIT + 1))
    if batch:
        at = pick.randrange(len(batch)) if kind < 4 else 0
        batch[at] = pick.choice((1, 2, 255))
    return bytes(batch)


def committed(comparison, image, o, batch):
    """The commit compared, the capacity given or left to the header; then it is made."""
    comparison.same("commit", image, o._replace(slot_capacity=comparison.random.choice((o.slot_capacity, 0))), batch)
    second.commit(image, o, batch)


def histories(comparison):
    """Long histories of commits on tiny shapes, the library's image and the second program's compared after each."""
    for _ in range(1400):
        o = comparison.images.options()._replace(key_size=comparison.random.randrange(1, 4), index_size=comparison.random.randrange(4),
                                                 slot_capacity=comparison.random.randrange(1, 6))
        image = comparison.images.history(o, commits=0)
        second.begin(image, o)
        for _ in range(comparison.random.randrange(60)):
            batch = comparison.images.batch(o, 3)
            if comparison.random.random() < 0.1:
                batch = malformed(comparison, o, batch)
            committed(comparison, image, o, batch)


def commits(comparison):
    """Commits on damaged images, under other options and roles, ordered and not; some of long batches."""
    for _ in range(4000):
        o = comparison.images.options()
        image = comparison.images.image(o)
        move_generation(comparison, image)
        for _ in range(3):
            most = comparison.random.choices((8, second.BATCH_LIMIT + 1), (40, 1))[0]
            comparison.same("commit", image, comparison.images.asked(o), comparison.images.batch(o, most))


def every_call(comparison, image, o):
    """Every call that is lent an image, under every role."""
    for role in range(3):
        asked = o._replace(role=role)
        reads(comparison, bytes(image), asked)
        state_calls(comparison, image, asked)
        comparison.same("commit", image, asked, comparison.images.batch(o))


def lengths(comparison):
    """Images with a byte less than the total, with the total, and with a byte, a word, half of another image or all of it
    behind them; sound and damaged."""
    for _ in range(150):
        o = comparison.images.options()
        sound, another = comparison.images.history(o), comparison.images.history(o)
        total, damaged = len(sound), copy(sound)
        comparison.images.damage(damaged, o)
        for image in (sound, damaged[:total].ljust(total, b"\0")):
            for length in (total - 1, total, total + 1, total + 8, total + len(another) // 2, total + len(another)):
                capacity = comparison.random.choice((o.slot_capacity, 0))
                every_call(comparison, (image + another)[:length], o._replace(slot_capacity=capacity))


def holding(o, *keys, buckets=None):
    """An image that its writer has begun, with these keys."""
    image = fresh(o, buckets)
    second.begin(image, o)
    second.commit(image, o, b"".join(record_of(o, True, key, 0, b"") for key in keys))
    return image


def edges(comparison):
    """Images, each with its options, whose capacity or number of buckets lies round an edge of what is allowed."""
    near = [(capacity, buckets) for capacity in range(1, 6) for buckets in range(10)]
    far = [(1, 2**power) for power in range(4, 12)] + [(3, 64), (17, 16), (17, 32), (512, 512), (512, 2048)]
    for capacity, buckets in near + far:
        o = comparison.images.options()._replace(slot_capacity=capacity)
        yield holding(o, comparison.images.key(o), buckets=buckets), o
    # these the header alone says
    for capacity in (0, 2, 3, 4, second.CAPACITY_LIMIT + 1, 2**64 - 1):
        for buckets in (0, 3, 8, second.BUCKET_LIMIT + 1, 2 * second.BUCKET_LIMIT, 2**63, 2**64 - 1):
            o = comparison.images.options()._replace(slot_capacity=3)
            image = holding(o, comparison.images.key(o))
            second.write_fields(image, slot_capacity=capacity, bucket_count=buckets)
            yield image, o


def shapes(comparison):
    """In every state, with the capacity given and left to the header."""
    for image, o in edges(comparison):
        for state in (second.CLEAN, second.INVALIDATED, second.DIRTY):
            second.write_fields(image, state=state)
            for asked in (o, o._replace(slot_capacity=0)):
                every_call(comparison, image, asked)


def largest(comparison):
    """Up to the most buckets, beside one slot and beside the most slots. Such an image has 64 MiB or more: so only calls that
    do not walk it; large.py makes a commit."""
    limit = second.BUCKET_LIMIT
    tried = [(1, 2**power) for power in range(12, limit.bit_length())]
    tried += [(second.CAPACITY_LIMIT, buckets) for buckets in (limit // 4, limit // 2, limit)]
    for capacity, buckets in tried:
        o = second.Options(1, 0, capacity, 0, 0, comparison.random.randrange(3))
        image = bytes(fresh(o, buckets))
        for asked in (o, o._replace(slot_capacity=0)):
            comparison.same("open_check", image, asked)
            comparison.same("image_shape", image, asked)
            comparison.same("lookup", image, asked, b"a")


def rebuilds(comparison):
    """Keys deleted one after the other, up to the last tombstone that stays and past it, under several numbers of buckets."""
    for capacity in (1, 2, 3, 4, 5, 7, 8, 9, 16, 17, 33):
        o = second.Options(2, 0, capacity, 0, 0, 2)
        for buckets in (least_buckets(o), 2 * least_buckets(o), 4 * least_buckets(o)):
            deleted = [number.to_bytes(2, "big") for number in comparison.random.sample(range(2**16), capacity)]
            image = holding(o, *deleted, buckets=buckets)
            for key in deleted:
                committed(comparison, image, o, record_of(o, False, key, 0, b""))


def ends(comparison):
    """Probes that end at every bucket, EMPTY or with the key, where all others are TOMBSTONE; and one without end."""
    for buckets in (2, 4, 8, 64):
        o, key = second.Options(8, 0, 1, 0, 0, 2), comparison.random.randbytes(8)
        image, hash64 = holding(o, key, buckets=buckets), second.fnv1a64(key)
        table = second.Table(image, o)
        for number in range(buckets):
            table.write_bucket(number, hash64, second.TOMBSTONE)
        for number in range(buckets):
            for slot_plus1 in (second.EMPTY, 1, second.TOMBSTONE):
                table.write_bucket(number, hash64, slot_plus1)
                comparison.same("lookup", image, o, key)


def keys(comparison):
    """Keys of every length, with a difference at every byte. A lookup where a bucket has the key's hash, and its slot a key that
    differs in that byte alone; a commit, to an ordered image, of two keys that first differ there, from each other and from the
    stored one."""
    pick = comparison.random
    for size in range(1, 65):
        o = second.Options(size, 0, 3, 0, 1, 2)
        stored = pick.randbytes(size)
        image = holding(o, stored)
        for at in range(size):
            first, then = pick.sample([byte for byte in range(256) if byte != stored[at]], 2)
            asked = stored[:at] + bytes([first]) + stored[at + 1:]
            misled, hash64 = bytearray(image), second.fnv1a64(asked)
            table = second.Table(misled, o)
            table.write_bucket(hash64 % table.bucket_count, hash64, 1)
            comparison.same("lookup", misled, o, asked)
            new = [stored[:at] + bytes([byte]) + pick.randbytes(size - at - 1) for byte in (first, then)]
            comparison.same("commit", image, o, b"".join(record_of(o, True, key, 0, b"") for key in new))


def whole_patterns(comparison):
    """Matches of 0 bits: every offset and every length, past the key's end too, and offsets whose sum with the length, or eight
    times which, would wrap. The pattern is a part of a stored key, or differs from it in one bit."""
    pick = comparison.random
    for size in (*range(1, 17), 31, 63, 64):
        o = second.Options(size, 0, 4, 0, 0, 2)
        stored, half = pick.randbytes(size), size // 2
        beginnings = [stored[:at] + pick.randbytes(size - at) for at in (half, size - 1)]
        image = holding(o, stored, *beginnings, pick.randbytes(half) + stored[half:])
        for length in range(size + 3):
            far = (2**32, 2**61, 2**63, 2**64 - 1 - length, 2**64 - max(length, 1), 2**64 - 1)
            for offset in (*range(size + 3), *far):
                wanted = bytearray(stored[offset:offset + length].ljust(length, b"\0"))
                comparison.same("match", image, o, offset, 0, bytes(wanted), 0, 9, [99] * 5)
                if wanted:
                    wanted[pick.randrange(length)] ^= 1 << pick.randrange(8)
                    comparison.same("match", image, o, offset, 0, bytes(wanted), 0, 9, [99] * 5)


def spec(*path):
    with open(os.path.join(CRATES, *path)) as file:
        return file.read()


def numbers_listed():
    """For each call, the numbers that demand 1 says it can answer."""
    number = {name: int(n) for name, n in re.findall(r"^(\w+) = (\d+)$", spec("header", "specs", "Answer.antt"), re.M)}
    demand = spec("demands", "specs", "Demand1.antt")
    header = re.findall(r"\w+(?= ∷)", re.search(r"header_numbers =\s*(.*\[\])", demand).group(1))
    listed = re.findall(r"pub (\w+)_judges :.*?(?:Judges|Among) (\([^)]*\)|\w+) \(", demand, re.S)
    for call, names in listed:
        if call in JUDGED:
            own = re.findall(r"\w+(?= ∷)", names) + (header if "header_numbers" in names else [])
            yield JUDGED[call], {number[name] for name in own}


def main():
    seed = int(sys.argv[1]) if len(sys.argv) > 1 else 1
    comparison = Comparison(seed)
    began = time.monotonic()
    for part in (digests, ages, places, headers, readings, creations, writings, user_data, histories, commits, lengths, shapes,
                 largest, rebuilds, ends, keys, whole_patterns):
        part(comparison)
    listed = dict(numbers_listed())
    if listed.keys() != set(JUDGED.values()):
        sys.exit(f"demand 1 lists numbers for {sorted(listed)}")
    for call, numbers in listed.items():
        if comparison.reached[call] != numbers:
            sys.exit(f"{call} answered {sorted(comparison.reached[call])}, and demand 1 lists {sorted(numbers)}")
    print(f"{comparison.calls} calls agree with the second program (seed {seed}, {time.monotonic() - began:.0f} s)")


if __name__ == "__main__":
    main()
