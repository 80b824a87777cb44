"""Tests of the second program against documents 00 and 01, published vectors and plain models."""

import copy
import itertools
import random
import struct
import unittest
from collections import namedtuple

from images import fresh, least_buckets
from second import (
    CLEAN, DIRTY, EMPTY, INVALIDATED, TOMBSTONE, Age, FullCheck, Listed, Lookup, OpenCheck, Options,
    Shape, begin, bucket_count, buckets_offset, checkpoint, commit, crc32c, crc32c_bitwise, create,
    field, fnv1a64, full_check, full_check_results, fullcheck_program, header_crc32c, header_test,
    image_shape, invalidate, lookup, lookup_results, match, match_results, open_check, places,
    revision_age, scan, scan_results, set_user_fields, slot_size, total, total_size, write_fields)

BASE = Options(key_size=3, index_size=2, slot_capacity=4, user_version=7, ordered=0, role=2)
BENCH = Options(key_size=12, index_size=20, slot_capacity=512, user_version=1, ordered=0, role=2)
LAST_GENERATION = 2**64 - 2
WRITING_CALLS = [(begin, ()), (checkpoint, ()), (invalidate, ()), (set_user_fields, (1, bytes(64))),
                 (commit, (b"",))]
READING_CALLS = [(open_check, ()), (lookup, (b"abc",)), (full_check, ()), (scan, (0, 9, [5] * 9)),
                 (match, (0, 8, b"a", 0, 9, [5] * 9))]


def begun(o, *batches, buckets=None):
    image = fresh(o, buckets)
    assert begin(image, o) == 0
    for batch in batches:
        assert commit(image, o, batch) == 0
    return image


def record(meta, key, revision, index):
    return (struct.pack("<Q", meta) + key + bytes(-len(key) % 8)
            + struct.pack("<q", revision) + index + bytes(-len(index) % 8))


def put(o, key, revision=5, index=None):
    return record(1, key, revision, b"i" * o.index_size if index is None else index)


def delete(o, key):
    return record(0, key, 0, bytes(o.index_size))


def puts(o, keys):
    return b"".join(put(o, key) for key in keys)


def deletes(o, keys):
    return b"".join(delete(o, key) for key in keys)


def keys_at_home(o, home, buckets=None):
    """Rising keys whose home bucket is the given one, among the rule's number of buckets or another."""
    keys = (number.to_bytes(o.key_size, "big") for number in itertools.count())
    return (key for key in keys if fnv1a64(key) % (buckets or bucket_count(o)) == home)


def keys_with_homes(o, homes, buckets=None):
    sources = {home: keys_at_home(o, home, buckets) for home in homes}
    return [next(sources[home]) for home in homes]


def altered(image, **fields):
    image = bytearray(image)
    write_fields(image, **fields)
    return image


def bucket(image, number):
    return struct.unpack_from("<QQ", image, field(image, "buckets_offset") + 16 * number)


def set_bucket(image, number, hash64, slot_plus1):
    struct.pack_into("<QQ", image, field(image, "buckets_offset") + 16 * number, hash64, slot_plus1)


def set_meta(image, o, slot, meta):
    struct.pack_into("<Q", image, 256 + slot * slot_size(o), meta)


def distance(image, key, slot_plus1):
    """How far from its home bucket a key's probe meets the given slot_plus1."""
    marks = [bucket(image, number)[1] for number in range(field(image, "bucket_count"))]
    home = fnv1a64(key) % len(marks)
    return (marks[home:] + marks[:home]).index(slot_plus1)


class Case(unittest.TestCase):
    def assert_refused(self, number, call, image, o, *arguments):
        """The number comes back, all else is 0 or empty, and every lent byte stays."""
        lent = copy.deepcopy((image, arguments))
        result = call(image, o, *arguments)
        self.assertEqual(result, type(result)(number))
        self.assertEqual((image, arguments), lent)


class PublishedVectors(Case):
    def test_fnv1a64(self):
        self.assertEqual(fnv1a64(b""), 0xCBF29CE484222325)
        self.assertEqual(fnv1a64(b"a"), 0xAF63DC4C8601EC8C)
        self.assertEqual(fnv1a64(b"foobar"), 0x85944171F73967E8)

    def test_crc32c(self):
        for digest in (crc32c, crc32c_bitwise):
            self.assertEqual(digest(b"123456789"), 0xE3069283)
            self.assertEqual(digest(bytes(32)), 0x8A9136AA)
            self.assertEqual(digest(b"\xff" * 32), 0x62A8AB43)
            self.assertEqual(digest(bytes(range(32))), 0x46DD794E)
            self.assertEqual(digest(bytes(reversed(range(32)))), 0x113FDB5C)

    def test_crc32c_by_table_is_crc32c_by_bit(self):
        chance = random.Random(1)
        for length in range(64):
            data = chance.randbytes(length)
            self.assertEqual(crc32c(data), crc32c_bitwise(data))


class BenchExamples(Case):
    def test_sizes(self):
        self.assertEqual(slot_size(BASE._replace(key_size=10, index_size=5)), 40)
        self.assertEqual(slot_size(BASE._replace(key_size=1, index_size=0)), 24)
        self.assertEqual(slot_size(BENCH), 56)
        self.assertEqual(bucket_count(BENCH), 1024)
        self.assertEqual(buckets_offset(BENCH, 512), 28928)
        self.assertEqual(total_size(BENCH), 45312)
        self.assertEqual(bucket_count(BASE._replace(slot_capacity=1)), 2)
        self.assertEqual(bucket_count(BASE._replace(slot_capacity=3)), 8)

    def test_lengths(self):
        image = fresh(BENCH)
        self.assertEqual(open_check(image[:45311], BENCH).answer, 1)
        self.assertEqual(open_check(image, BENCH).answer, 0)
        self.assertEqual(open_check(image + b"\0", BENCH).answer, 1)

    def test_sums_by_homes(self):
        for homes, probes in (((), 0), ((3, 3), 3), ((7, 7), 3), ((2, 2, 3), 5), ((7, 7, 0, 0), 8)):
            image = begun(BASE, puts(BASE, keys_with_homes(BASE, homes)))
            self.assertEqual(full_check(image, BASE), FullCheck(0, len(homes), 0, probes))

    def test_two_tombstones_stay_and_three_cause_a_rebuild(self):
        keys = keys_with_homes(BASE, (0, 2, 4))
        for deleted, tombstones in ((2, 2), (3, 0)):
            image = begun(BASE, puts(BASE, keys), deletes(BASE, keys[:deleted]))
            self.assertEqual(full_check(image, BASE).tombstones, tombstones)

    def test_ten_bits(self):
        o = BASE._replace(key_size=2)
        image = begun(o, put(o, b"\xab\xff") + put(o, b"\xab\x80"))
        numbers = [9, 9]
        self.assertEqual(match(image, o, 0, 10, b"\xab\xc0", 0, 9, numbers), Listed(0, 1, 1))
        self.assertEqual(numbers, [0, 9])

    def test_age(self):
        self.assertEqual(revision_age(-2**63, 2**63 - 1), Age(1, 2**64 - 1))
        self.assertEqual(revision_age(2**63 - 1, -2**63), Age(-1, 2**64 - 1))
        self.assertEqual(revision_age(-7, -7), Age(0, 0))
        self.assertEqual(revision_age(3, -2), Age(-1, 5))

    def test_put_then_delete_of_a_new_key_takes_no_slot(self):
        image = begun(BASE, put(BASE, b"abc") + delete(BASE, b"abc"))
        self.assertEqual(image, altered(begun(BASE), generation=2))

    def test_key_of_11_bytes(self):
        image = begun(BENCH, put(BENCH, b"serial-0001\0"))
        self.assertEqual(lookup(image, BENCH, b"serial-0001\0").answer, 0)
        self.assert_refused(7, lookup, image, BENCH, b"serial-0001")

    def test_program(self):
        self.assertEqual(fullcheck_program(bytes(fresh(BENCH))),
                         b"answer 0 live 0 tombstones 0 probes 0\n")


class Bytes(Case):
    def header(self, ordered=0, highwater=0, live=0, generation=0, buckets=8, tombstones=0,
               state=CLEAN, user_flags=0, user_data=bytes(64)):
        """BASE's header, packed by document 01's table without the program's."""
        def packed(generation, crc):
            return struct.pack(
                "<4s7I10QIIQ64s64s", b"SLC1", 1, 256, 3, 2, 32, 1, ordered, 4, highwater, live, 7,
                generation, buckets, live, tombstones, 256, 384, crc, state, user_flags, user_data,
                bytes(64))
        return packed(generation, crc32c_bitwise(packed(0, 0)))

    def test_create_writes_the_total_and_nothing_past_it(self):
        buffer, o = bytearray(b"\xee" * (total_size(BASE) + 5)), BASE._replace(ordered=1)
        self.assertEqual(create(buffer, o), 0)
        self.assertEqual(buffer, self.header(ordered=1) + bytes(4 * 32 + 8 * 16) + b"\xee" * 5)
        # "the caller must lend exactly the total afterwards" (CR 8)
        self.assertEqual(header_test(buffer, o), 1)
        self.assertEqual(header_test(buffer[:-5], o), 0)

    def test_writing_calls(self):
        """With the rule's B, and with two others (CR 10)."""
        for count in (8, 16, 64):
            first, second, third = keys_with_homes(BASE, (count - 1, count - 1, 2), count)
            image = begun(BASE, put(BASE, first, -1) + put(BASE, second, 2) + put(BASE, third, 3),
                          delete(BASE, first) + put(BASE, third, 4, b"zz"), buckets=count)
            self.assertEqual(set_user_fields(image, BASE, 2**63 + 1, bytes(range(64))), 0)
            header = self.header(highwater=3, live=2, generation=6, buckets=count, tombstones=1,
                                 state=DIRTY, user_flags=2**63 + 1, user_data=bytes(range(64)))
            slots = (record(0, first, -1, b"ii") + put(BASE, second, 2) + put(BASE, third, 4, b"zz")
                     + bytes(32))
            buckets = struct.pack("<6Q", fnv1a64(second), 2, 0, 0, fnv1a64(third), 3)
            buckets += bytes(16 * (count - 4)) + struct.pack("<2Q", fnv1a64(first), TOMBSTONE)
            self.assertEqual(image, header + slots + buckets)
            self.assertEqual(header_crc32c(image), header_crc32c(altered(image, generation=8)))


class Model:
    """Demand 2's finite map under one writer, and the key of each slot given out."""

    def __init__(self, o):
        self.options, self.map, self.given_out = o, {}, []

    def commit(self, operations):
        deciding = {key: (place, entry) for place, (key, entry) in enumerate(operations)}
        new = [key for key in sorted(deciding, key=deciding.get)
               if deciding[key][1] and key not in self.map]
        if self.options.ordered:
            new.sort()
        if len(self.given_out) + len(new) > self.options.slot_capacity:
            return 5
        if self.options.ordered and self.given_out and new and new[0] < self.given_out[-1]:
            return 6
        changed = self.map | dict(operations)
        self.map = {key: entry for key, entry in changed.items() if entry}
        self.given_out += new
        return 0

    def slot(self, key):
        return max(slot for slot, given in enumerate(self.given_out) if given == key)


class Histories(Case):
    def compare(self, image, reader, model, keys):
        checked = full_check(image, reader)
        probes = 0
        for key in keys:
            found = lookup(image, reader, key)
            if key in model.map:
                slot, (revision, index) = model.slot(key), model.map[key]
                count = distance(image, key, slot + 1) + 1
                self.assertEqual(found, Lookup(0, slot, revision, count, index))
                probes += count
            else:
                count = distance(image, key, EMPTY) + 1
                self.assertEqual(found, Lookup(9, buckets=count))
            self.assertLessEqual(count, checked.live + checked.tombstones + 1)
        tombstones = field(image, "bucket_tombstones")
        self.assertEqual(checked, FullCheck(0, len(model.map), tombstones, probes))
        slots = sorted(map(model.slot, model.map))
        numbers = [77] * model.options.slot_capacity
        listed = scan(image, reader, 0, len(numbers), numbers)
        self.assertEqual(listed, Listed(0, len(slots), len(slots)))
        self.assertEqual(numbers, slots + [77] * (len(numbers) - len(slots)))

    def operations(self, chance, o, model, keys):
        if o.ordered and model.given_out and chance.random() < 0.9:
            at_tail = keys.index(model.given_out[-1])
            keys = list(model.map) + keys[at_tail:at_tail + 4]
        revisions = [chance.randrange(-2**63, 2**63) for _ in range(chance.randrange(6))]
        entries = [(revision, chance.randbytes(o.index_size)) for revision in revisions]
        return [(chance.choice(keys), chance.choice((entry, None))) for entry in entries]

    def history(self, chance, o, buckets, keys):
        """Calls with the capacity given, or left to the header (CR 10)."""
        image, model, generation = begun(o, buckets=buckets), Model(o), 0
        length = len(image)
        answers = set()
        for _ in range(25):
            operations = self.operations(chance, o, model, keys)
            batch = b"".join(put(o, key, *entry) if entry else delete(o, key)
                             for key, entry in operations)
            before = bytes(image)
            asked = o._replace(slot_capacity=chance.choice((o.slot_capacity, 0)))
            answer = commit(image, asked, batch)
            self.assertEqual(answer, model.commit(operations))
            answers.add(answer)
            if answer:
                self.assertEqual(image, before)
            generation += 0 if answer else 2
            self.assertEqual(field(image, "generation"), generation)
            self.assertEqual(image_shape(image, asked), Shape(o.slot_capacity, buckets, length))
            self.assertLessEqual(4 * field(image, "bucket_tombstones"), buckets)
            self.compare(image, asked._replace(role=chance.choice((1, 2))), model, keys)
            if chance.random() < 0.2:
                flags, data = chance.getrandbits(64), chance.randbytes(64)
                self.assertEqual(set_user_fields(image, asked, flags, data), 0)
                self.assertEqual(checkpoint(image, asked), 0)
                reader = asked._replace(role=0)
                self.assertEqual(open_check(image, reader), OpenCheck(0, flags, data))
                self.compare(image, reader, model, keys)
                self.assertEqual(begin(image, asked), 0)
                generation += 2
        return answers

    def test_against_a_dict(self):
        chance = random.Random(2)
        answers = set()
        for ordered, (key_size, index_size, capacity, buckets) in itertools.product(
                (0, 1), ((1, 0, 1, 2), (1, 0, 1, 8), (1, 0, 3, 4), (1, 0, 3, 8), (2, 3, 4, 8), (8, 8, 6, 8),
                         (8, 8, 6, 16), (9, 1, 16, 32), (9, 1, 16, 128), (12, 20, 40, 64), (12, 20, 40, 128))):
            o = Options(key_size, index_size, capacity, 3, ordered, 2)
            for homes in (range(buckets), (buckets - 1, 0), (buckets - 1,)):
                sources = {home: keys_at_home(o, home, buckets) for home in homes}
                keys = sorted(next(sources[chance.choice(homes)]) for _ in range(capacity + 5))
                answers |= self.history(chance, o, buckets, keys)
        self.assertEqual(answers, {0, 5, 6})


class ForeignShapes(Case):
    """CR 10: the capacity left to the header, and numbers of buckets other than the rule's."""

    def assert_answers(self, answer, image, o):
        """Under every role, with the capacity given and left to the header."""
        for role, capacity in itertools.product(range(3), (o.slot_capacity, 0)):
            self.assertEqual(header_test(image, o._replace(role=role, slot_capacity=capacity)), answer)

    def test_buckets_beside_the_capacity(self):
        for capacity, answers in (
                (512, {256: 1, 512: 1, 1000: 1, 1024: 0, 2048: 0, 4096: 0}),
                (1, {0: 1, 1: 1, 2: 0, 3: 1, 4: 0, 5: 1, 6: 1, 8: 0, 16: 0, 1024: 0, 65536: 0}),
                (2, {1: 1, 2: 1, 3: 1, 4: 0, 6: 1, 8: 0}),
                (3, {0: 1, 1: 1, 2: 1, 3: 1, 4: 0, 5: 1, 6: 1, 7: 1, 8: 0, 16: 0, 32: 0, 64: 0}),
                (4, {2: 1, 4: 1, 5: 1, 6: 1, 8: 0}),
                (5, {4: 1, 6: 1, 8: 0, 16: 0})):
            o = BASE._replace(slot_capacity=capacity)
            for buckets, answer in answers.items():
                with self.subTest(capacity=capacity, buckets=buckets):
                    self.assert_answers(answer, fresh(o, buckets), o)

    def test_the_most_buckets(self):
        one, most = Options(1, 0, 1, 0, 0, 2), Options(1, 0, 1048576, 0, 0, 2)
        for o, buckets, answer in ((one, 2097152, 0), (one, 4194303, 1), (one, 4194304, 0), (one, 4194305, 1),
                                   (most, 1048576, 1), (most, 2097152, 0), (most, 4194304, 0)):
            self.assert_answers(answer, fresh(o, buckets), o)
        for o, buckets in itertools.product((one, most), (8388608, 2**32, 2**63)):
            self.assert_answers(2, altered(fresh(o), bucket_count=buckets), o)

    def test_the_header_says_the_capacity(self):
        """2 outside the sizes: behind INVALIDATED's 3, and before B."""
        asked = BASE._replace(slot_capacity=0)
        for capacity, buckets in itertools.product((0, 1048577, 2**32, 2**64 - 1), (0, 3, 8, 8388608)):
            image = altered(fresh(BASE), slot_capacity=capacity, bucket_count=buckets)
            self.assertEqual(header_test(image, asked), 2)
            self.assertEqual(header_test(altered(image, state=INVALIDATED), asked), 3)
        # B 8, and slots of 32 bytes
        for capacity, offset, length, answer in (
                (3, 352, 480, 0), (5, 416, 544, 0), (7, 480, 608, 0), (7, 384, 608, 1), (7, 480, 512, 1), (8, 512, 640, 1)):
            image = altered(fresh(BASE), slot_capacity=capacity, buckets_offset=offset).ljust(length, b"\0")[:length]
            self.assertEqual([header_test(image, asked), header_test(image, BASE)], [answer, 2])

    def test_capacity_0_answers_as_the_capacity(self):
        for image, role in itertools.product((fresh(BASE, 64), begun(BASE, put(BASE, b"abc"), buckets=64)), range(3)):
            for call, arguments in WRITING_CALLS + READING_CALLS:
                given, left = (copy.deepcopy((image, o, *arguments)) for o in (
                    BASE._replace(role=role), BASE._replace(role=role, slot_capacity=0)))
                self.assertEqual(call(*given), call(*left))
                self.assertEqual((given[0], given[2:]), (left[0], left[2:]))

    def test_room_for_new_keys(self):
        for capacity, buckets in ((1, 2), (1, 64), (3, 4), (3, 64), (5, 8)):
            o = BASE._replace(slot_capacity=capacity)
            keys = keys_with_homes(o, [1] * (capacity + 1), buckets)
            for asked in (o, o._replace(slot_capacity=0)):
                image = begun(o, puts(o, keys[:capacity - 1]), buckets=buckets)
                self.assert_refused(5, commit, image, asked, puts(o, keys[capacity - 1:]))
                self.assertEqual(commit(image, asked, puts(o, keys[:capacity])), 0)
                self.assert_refused(5, commit, image, asked, put(o, keys[capacity]))

    def test_tombstones_up_to_the_rebuild(self):
        """As many as stay, after each delete; "if 4 x tombstones > B, the index is rebuilt"."""
        for capacity, buckets, stay in (
                (1, 2, [0]), (1, 4, [1]), (2, 4, [1, 0]), (2, 8, [1, 2]), (3, 4, [1, 0, 1]), (3, 8, [1, 2, 0]),
                (3, 16, [1, 2, 3]), (4, 8, [1, 2, 0, 1]), (4, 16, [1, 2, 3, 4]), (5, 8, [1, 2, 0, 1, 2]),
                (5, 16, [1, 2, 3, 4, 0]), (5, 32, [1, 2, 3, 4, 5])):
            o = BASE._replace(slot_capacity=capacity)
            keys = keys_with_homes(o, [buckets - 1] * capacity, buckets)
            image = begun(o, puts(o, keys), buckets=buckets)
            for deleted, tombstones in enumerate(stay, start=1):
                self.assertEqual(commit(image, o, delete(o, keys[deleted - 1])), 0)
                live = capacity - deleted
                # all have one home: tombstones stand before the live ones
                probes = sum(range(tombstones + 1, tombstones + live + 1))
                self.assertEqual(full_check(image, o), FullCheck(0, live, tombstones, probes))
            self.assertEqual(image_shape(image, o), Shape(capacity, buckets, 256 + 32 * capacity + 16 * buckets))

    def test_lookup_goes_through_all_buckets(self):
        o = BASE._replace(slot_capacity=1)
        first, other = keys_with_homes(o, (6, 6), 8)
        image = begun(o, put(o, first, -3), buckets=8)
        for number in range(8):
            set_bucket(image, number, 0, TOMBSTONE)
        self.assert_refused(1, lookup, image, o, first)
        set_bucket(image, 5, fnv1a64(first), 1)
        self.assertEqual(lookup(image, o, first), Lookup(0, 0, -3, 8, b"ii"))
        self.assert_refused(1, lookup, image, o, other)
        set_bucket(image, 5, 0, EMPTY)
        self.assertEqual(lookup(image, o, first), Lookup(9, buckets=8))

    def test_program(self):
        for buckets, length, answer in ((512, 37120, 1), (1024, 45312, 0), (2048, 61696, 0), (4096, 94464, 7)):
            image = bytes(fresh(BENCH, buckets))
            self.assertEqual(len(image), length)
            self.assertEqual(fullcheck_program(image), b"answer %d live 0 tombstones 0 probes 0\n" % answer)

    def test_shape(self):
        for o, buckets, shape in (
                (BENCH, 1024, (512, 1024, 45312)), (BENCH, 2048, (512, 2048, 61696)), (BASE, 8, (4, 8, 512)),
                (BASE, 4194304, (4, 4194304, 67109248)), (BASE._replace(slot_capacity=3), 4, (3, 4, 416))):
            image = fresh(o, buckets)
            for role, capacity in itertools.product(range(3), (o.slot_capacity, 0)):
                self.assertEqual(image_shape(image, o._replace(role=role, slot_capacity=capacity)), shape)
        for fault in FAULTS:
            self.assertEqual(image_shape(*faulty(fault)), (0, 0, 0))
        self.assertEqual(total(BASE._replace(key_size=64, index_size=256), 1048576, 4194304), 419430656)

    def test_places(self):
        """Key at 8 and index at 32 of a slot of 56 bytes."""
        left = BENCH._replace(slot_capacity=0)
        for slot, given, asked in (
                (0, (45312, 264, 288), (0, 264, 288)), (511, (45312, 28880, 28904), (0, 28880, 28904)),
                (512, (45312, 0, 0), (0, 28936, 28960)), (1048575, (45312, 0, 0), (0, 58720464, 58720488)),
                (1048576, (45312, 0, 0), (0, 0, 0)), (2**64 - 1, (45312, 0, 0), (0, 0, 0))):
            self.assertEqual([places(BENCH, slot), places(left, slot)], [given, asked])
        for fault in FAULTS:
            if fault.test == 1:
                self.assertEqual(places(BENCH._replace(**fault.options), 0), (0, 0, 0))


class SumLaw(Case):
    def overflow(self, homes, buckets, end):
        """The largest excess of homes over buckets in any stretch that ends there, or zero."""
        stretches = ({(end - back) % buckets for back in range(size)}
                     for size in range(1, buckets + 1))
        return max(0, *(sum(home in stretch for home in homes) - len(stretch)
                        for stretch in stretches))

    def test_probes_follow_from_the_homes_alone(self):
        chance = random.Random(3)
        for capacity, times, _ in itertools.product((1, 2, 3, 4, 7, 8), (1, 2, 4), range(5)):
            o = Options(2, 0, capacity, 0, 0, 2)
            buckets = times * least_buckets(o)
            few = chance.sample(range(buckets), chance.randint(1, buckets))
            homes = chance.choices(few, k=chance.randint(0, capacity))
            overflows = sum(self.overflow(homes, buckets, end) for end in range(buckets))
            keys = keys_with_homes(o, homes, buckets)
            for _ in range(3):
                chance.shuffle(keys)
                image = begun(o, puts(o, keys), buckets=buckets)
                expected = FullCheck(0, len(homes), 0, len(homes) + overflows)
                self.assertEqual(full_check(image, o), expected)


class Readings(Case):
    def setUp(self):
        self.keys = keys_with_homes(BASE, (0, 0, 0, 0, 5))
        self.image = begun(BASE, puts(BASE, self.keys[:3]))

    def test_reading_01_limit_0_writes_nothing(self):
        self.assertEqual(scan(self.image, BASE, 0, 0, []), Listed(0, 3, 0))
        self.assertEqual(scan(self.image, BASE, 0, 4, [9] * 3), Listed(0, 3, 3))
        self.assertEqual(match(self.image, BASE, 0, 1, b"\0", 0, 0, []), Listed(0, 3, 0))

    def test_reading_02_skip_past_the_last_match(self):
        for skip in (3, 4, 2**64 - 1):
            self.assertEqual(scan(self.image, BASE, skip, 2**64 - 1, []), Listed(0, 3, 0))

    def test_reading_03_the_header_then_7_then_11(self):
        self.assert_refused(1, match, self.image, BASE._replace(role=0), 0, 0, b"", 0, 9, [])
        self.assert_refused(7, match, self.image, BASE, 0, 0, b"", 0, 9, [])
        self.assert_refused(11, match, self.image, BASE, 0, 1, b"\0", 0, 9, [9, 9])
        self.assert_refused(11, scan, self.image, BASE, 1, 9, [9])
        numbers = [9, 9]
        self.assertEqual(scan(self.image, BASE, 2, 9, numbers), Listed(0, 3, 1))
        self.assertEqual(numbers, [2, 9])

    def test_reading_04_create_over_any_bytes_with_any_role(self):
        for role in range(3):
            buffer = bytearray(b"\xee" * total_size(BASE))
            self.assertEqual(create(buffer, BASE._replace(role=role)), 0)
            self.assertEqual(buffer, fresh(BASE))
        self.assert_refused(11, create, bytearray(), BASE)

    def test_reading_05_rebuild_is_judged_last_and_always(self):
        image = begun(BASE, puts(BASE, self.keys[1:]))
        for slot in range(3):
            set_meta(image, BASE, slot, 0)
            set_bucket(image, slot, slot, TOMBSTONE)
        write_fields(image, live_count=1, bucket_used=1, bucket_tombstones=3)
        self.assertEqual(full_check(image, BASE), FullCheck(0, 1, 3, 1))
        self.assertEqual(commit(image, BASE, b""), 0)
        self.assertEqual(full_check(image, BASE), FullCheck(0, 1, 0, 1))
        buckets = [bucket(image, number) for number in range(8)]
        self.assertEqual(buckets, [(0, 0)] * 5 + [(fnv1a64(self.keys[4]), 4)] + [(0, 0)] * 2)
        self.assertEqual(field(image, "slot_highwater"), 4)
        reusing = deletes(BASE, self.keys[:3]) + put(BASE, self.keys[3])
        self.assertEqual(commit(self.image, BASE, reusing), 0)
        self.assertEqual(full_check(self.image, BASE), FullCheck(0, 1, 2, 1))

    def test_reading_06_put_on_a_live_key_leaves_padding(self):
        for offset in (256 + 11, 256 + 31):
            self.image[offset] = 0xEE
        self.assertEqual(commit(self.image, BASE, put(BASE, self.keys[0], 8, b"xy")), 0)
        slot = bytearray(put(BASE, self.keys[0], 8, b"xy"))
        slot[11] = slot[31] = 0xEE
        self.assertEqual(self.image[256:288], slot)
        self.image[352:384] = b"\xee" * 32
        self.assertEqual(commit(self.image, BASE, put(BASE, self.keys[3])), 0)
        self.assertEqual(self.image[352:384], put(BASE, self.keys[3]))

    def test_reading_07_full_check_ignores(self):
        self.assertEqual(commit(self.image, BASE, delete(BASE, self.keys[2])), 0)
        self.assertEqual(full_check(self.image, BASE), FullCheck(0, 2, 1, 3))
        self.image[256 + 11] = self.image[256 + 31] = 0xEE
        self.image[352:384] = b"\xee" * 32
        set_bucket(self.image, 2, 99, TOMBSTONE)
        set_bucket(self.image, 3, 99, EMPTY)
        self.assertEqual(full_check(self.image, BASE), FullCheck(0, 2, 1, 3))

    def test_reading_08_begin_and_checkpoint_leave_the_generation(self):
        image = altered(fresh(BASE), generation=LAST_GENERATION)
        self.assertEqual(begin(image, BASE), 0)
        self.assertEqual(image, altered(begun(BASE), generation=LAST_GENERATION))
        self.assertEqual(checkpoint(image, BASE), 0)
        self.assertEqual(image, altered(fresh(BASE), generation=LAST_GENERATION))
        self.assertEqual(set_user_fields(self.image, BASE, 0, bytes(64)), 0)
        self.assertEqual(field(self.image, "generation"), 4)

    def test_reading_09_an_empty_batch_takes_every_test(self):
        self.assert_refused(7, commit, fresh(BASE), BASE, b"")
        self.assert_refused(1, commit, altered(self.image, generation=LAST_GENERATION), BASE, b"")
        set_meta(self.image, BASE, 0, 2)
        self.assert_refused(1, commit, self.image, BASE, b"")

    def test_reading_10_too_many_records_after_role_and_generation(self):
        over = delete(BASE, b"abc") * 1025
        self.assertEqual(commit(self.image, BASE, over[32:]), 0)
        self.assert_refused(7, commit, self.image, BASE, over)
        self.assert_refused(4, commit, self.image, BASE._replace(role=1), over)
        self.assert_refused(1, commit, altered(self.image, generation=LAST_GENERATION), BASE, over)
        superseded = record(2, b"abc", 0, bytes(2)) + delete(BASE, b"abc")
        self.assert_refused(7, commit, self.image, BASE, superseded)

    def test_reading_11_malformed(self):
        meta_and_padding, revision_and_index = (0, 7, 11, 15, 26, 31), (16, 23, 24, 25)
        for well_formed, offsets in (
                (put(BASE, b"abc"), meta_and_padding),
                (delete(BASE, b"abc"), meta_and_padding + revision_and_index)):
            for offset in offsets:
                batch = bytearray(well_formed)
                batch[offset] = 0x80
                self.assert_refused(7, commit, self.image, BASE, batch)

    def test_reading_12_order_of_deciding_records(self):
        deleted, _, _, first, second = self.keys
        o = BASE._replace(slot_capacity=3)
        image = begun(o, put(o, deleted))
        batch = put(o, first) + put(o, second) + delete(o, deleted) + put(o, first, 6)
        self.assertEqual(commit(image, o, batch), 0)
        self.assertEqual([lookup(image, o, key).slot for key in (second, first)], [1, 2])
        self.assertEqual(bucket(image, 0), (fnv1a64(first), 3))
        self.assert_refused(5, commit, image, o, delete(o, first) + put(o, deleted))

    def test_reading_13_bucket_past_highwater_and_the_last_of_b_buckets(self):
        for slot_plus1 in (4, 2**64 - 2):
            set_bucket(self.image, 5, 99, slot_plus1)
            self.assert_refused(1, lookup, self.image, BASE, self.keys[4])
        o = BASE._replace(slot_capacity=1)
        key = next(keys_at_home(o, 1))
        image = begun(o, put(o, key, -3))
        set_bucket(image, 1, 0, TOMBSTONE)
        set_bucket(image, 0, fnv1a64(key), 1)
        self.assertEqual(lookup(image, o, key), Lookup(0, 0, -3, 2, b"ii"))

    def test_reading_14_role_0_on_dirty_is_1(self):
        for call, arguments in WRITING_CALLS:
            self.assert_refused(1, call, self.image, BASE._replace(role=0), *arguments)

    def test_reading_15_unknown_flag_then_invalidated_then_options(self):
        image = altered(self.image, flags=2, state=INVALIDATED, user_version=8)
        self.assertEqual(header_test(image, BASE), 2)
        self.assertEqual(header_test(altered(image, flags=0), BASE), 3)
        self.assertEqual(header_test(altered(image, flags=0, state=DIRTY), BASE), 2)

    def test_reading_16_64_bit_numbers_never_wrap(self):
        o = BASE._replace(user_version=2**64 - 1)
        self.assertEqual(open_check(fresh(o), o).answer, 0)
        wrapping = altered(self.image, live_count=2**63, bucket_used=2**63, bucket_tombstones=2**63)
        self.assertEqual(header_test(wrapping, BASE), 1)
        self.assert_refused(7, match, self.image, BASE, 2**64 - 1, 16, b"ab", 0, 9, [])
        self.assert_refused(7, match, self.image, BASE, 0, 2**64 - 1, b"", 0, 9, [])
        self.assertEqual(scan(self.image, BASE, 2**64 - 1, 2**64 - 1, []), Listed(0, 3, 0))

    def test_reading_17_keys_as_unsigned_bytes(self):
        o = BASE._replace(ordered=1)
        image = begun(o, put(o, b"\xff\0\0") + put(o, b"\x01\xff\xff") + put(o, b"\x7f\0\0"))
        self.assertEqual([lookup(image, o, key).slot for key in
                          (b"\x01\xff\xff", b"\x7f\0\0", b"\xff\0\0")], [0, 1, 2])
        self.assertEqual(commit(image, o, delete(o, b"\xff\0\0")), 0)
        self.assertEqual(lookup(image, o, b"\xff\0\0").answer, 9)
        self.assert_refused(6, commit, image, o, put(o, b"\xfe\xff\xff"))
        self.assertEqual(commit(image, o, put(o, b"\xff\0\0")), 0)
        self.assertEqual(lookup(image, o, b"\xff\0\0").slot, 3)

    def test_reading_18_scan_takes_meta_1_exactly_without_a_full_check(self):
        set_meta(self.image, BASE, 1, 3)
        set_meta(self.image, BASE, 3, 1)
        numbers = [9] * 4
        self.assertEqual(scan(self.image, BASE, 0, 9, numbers), Listed(0, 2, 2))
        self.assertEqual(numbers, [0, 2, 9, 9])
        self.assertEqual(full_check(self.image, BASE).answer, 1)

    def test_reading_19_open_check_refused_hands_out_zeros(self):
        image = begun(BASE)
        self.assertEqual(set_user_fields(image, BASE, 2**64 - 1, b"\xff" * 64), 0)
        self.assertEqual(open_check(image, BASE), (0, 2**64 - 1, b"\xff" * 64))
        self.assertEqual(open_check(image, BASE._replace(role=0)), (1, 0, bytes(64)))

    def test_reading_20_program_on_empty_and_long_input(self):
        image = bytes(fresh(BENCH))
        for standard_input, answer in ((b"", 10), (bytes(65537), 7), (image.ljust(65537), 7),
                                       (image.ljust(65536), 1), (image.ljust(45313), 1),
                                       (image[:-1], 1), (bytes(65536), 2)):
            self.assertEqual(fullcheck_program(standard_input),
                             b"answer %d live 0 tombstones 0 probes 0\n" % answer)

    def test_reading_21_zeros_beside_any_answer_but_0(self):
        self.assertEqual(lookup(self.image, BASE, self.keys[3]), (9, 0, 0, 4, b""))
        set_meta(self.image, BASE, 0, 0)
        self.assertEqual(lookup(self.image, BASE, self.keys[0]), (1, 0, 0, 0, b""))
        self.assertEqual(full_check(self.image, BASE), (1, 0, 0, 0))
        self.assertEqual(scan(self.image, BASE, 0, 9, []), (11, 0, 0))


Fault = namedtuple("Fault", "test number options fields length crc", defaults=({}, {}, None, 0))


def field_faults(test, number, *fields):
    return [Fault(test, number, fields=changed) for changed in fields]


FAULTS = [
    *(Fault(1, 7, {name: value}) for name, value in (
        ("key_size", 0), ("key_size", 65), ("index_size", 257), ("slot_capacity", 1048577),
        ("ordered", 2), ("role", 3), ("key_size", 2**64 - 1), ("index_size", 2**64 - 1),
        ("slot_capacity", 2**64 - 1), ("role", 2**64 - 1))),
    Fault(2, 10, length=0), Fault(2, 1, length=1), Fault(2, 1, length=255),
    *field_faults(3, 2, {"magic": 0}, {"version": 2}, {"header_size": 128}, {"hash_alg": 0}),
    Fault(4, 4, {"role": 1}, {"generation": 5}), Fault(4, 1, {"role": 0}, {"generation": 5}),
    Fault(4, 1, {}, {"generation": 2**64 - 1}),
    Fault(5, 1, crc=1),
    *field_faults(6, 2, {"flags": 2}, {"flags": 2**31}, {"reserved": 1}, {"reserved": 2**511},
                  {"state": 3}),
    Fault(7, 3, fields={"state": INVALIDATED}),
    *field_faults(8, 2, {"key_size": 4}, {"index_size": 3}, {"slot_size": 40}, {"slot_capacity": 3},
                  {"user_version": 8}, {"flags": 1}),
    *(Fault(8, 2, {"slot_capacity": 0}, {"slot_capacity": said}) for said in (0, 1048577, 2**64 - 1)),
    *field_faults(9, 1, *({"bucket_count": count} for count in (0, 1, 2, 3, 4, 6, 12, 4194305, 2**64 - 1))),
    *field_faults(9, 2, {"bucket_count": 8388608}, {"bucket_count": 2**63}),
    *(Fault(9, 1, {"slot_capacity": 0}, {"slot_capacity": said}) for said in (8, 1048576)),
    *field_faults(10, 1, {"slots_offset": 264}, {"buckets_offset": 392}, {"bucket_count": 16},
                  {"bucket_count": 4194304}),
    *(Fault(10, 1, {"slot_capacity": 0}, {"slot_capacity": said}) for said in (3, 5)),
    *(Fault(10, 1, length=length) for length in (
        256, total_size(BASE) - 1, total_size(BASE) + 1, total_size(BASE) + 8, 2 * total_size(BASE))),
    *field_faults(11, 1, {"live_count": 1, "slot_highwater": 1}, {"bucket_tombstones": 1},
                  {"bucket_used": 1, "slot_highwater": 1}, {"slot_highwater": 5}),
    Fault(12, 1, {"role": 0}, {"state": DIRTY}),
]


def faulty(*faults):
    """The image and the options that have these faults; where it is longer, another image begins behind it."""
    image, o = fresh(BASE), BASE
    for fault in faults:
        write_fields(image, **fault.fields)
        o = o._replace(**fault.options)
    image[0x70] ^= sum(fault.crc for fault in faults)
    lengths = (fault.length for fault in faults if fault.length is not None)
    return (image + fresh(BASE))[:min(lengths, default=len(image))], o


class Refusals(Case):
    def test_each_header_fault_for_each_call(self):
        calls = WRITING_CALLS + READING_CALLS + [(set_user_fields, (1, bytes(63)))]
        for fault, (call, arguments) in itertools.product(FAULTS, calls):
            with self.subTest(fault=fault, call=call.__name__):
                self.assert_refused(fault.number, call, *faulty(fault), *arguments)

    def test_the_earlier_of_two_header_faults_decides(self):
        for first, second in itertools.combinations(FAULTS, 2):
            shared = first.options.keys() & second.options or first.fields.keys() & second.fields
            if first.test < second.test and not shared:
                with self.subTest(first=first, second=second):
                    self.assertEqual(header_test(*faulty(first, second)), first.number)

    def test_create(self):
        for fault in FAULTS:
            if fault.test == 1:
                self.assert_refused(7, create, bytearray(9), BASE._replace(**fault.options))
        # "create [...] answers 7 to capacity 0." (CR 10)
        for length in (0, 9, total_size(BASE)):
            self.assert_refused(7, create, bytearray(length), BASE._replace(slot_capacity=0))
        self.assert_refused(11, create, bytearray(total_size(BASE) - 1), BASE)

    def test_writing_calls_by_role(self):
        for call, arguments in WRITING_CALLS:
            self.assert_refused(7, call, fresh(BASE), BASE._replace(role=0), *arguments)
            for image in (fresh(BASE), begun(BASE)):
                self.assert_refused(4, call, image, BASE._replace(role=1), *arguments)

    def test_clean_comes_before_the_last_generation(self):
        clean = altered(fresh(BASE), generation=LAST_GENERATION)
        dirty = altered(clean, state=DIRTY)
        for call, arguments in WRITING_CALLS[3:]:
            self.assert_refused(7, call, clean, BASE, *arguments)
            self.assert_refused(1, call, dirty, BASE, *arguments)
        self.assert_refused(1, invalidate, clean, BASE)
        self.assert_refused(1, invalidate, dirty, BASE)

    def test_begin_checkpoint_and_invalidate(self):
        image = fresh(BASE)
        for call, state, generation in (
                (checkpoint, CLEAN, 0), (begin, DIRTY, 0), (begin, DIRTY, 0),
                (checkpoint, CLEAN, 0), (invalidate, INVALIDATED, 2)):
            self.assertEqual(call(image, BASE), 0)
            self.assertEqual(image, altered(fresh(BASE), state=state, generation=generation))

    def test_commit_in_order(self):
        o = BASE._replace(ordered=1)
        image = begun(o, put(o, b"mmm") + put(o, b"nnn"))
        low, high = put(o, b"aaa"), put(o, b"xxx") + put(o, b"yyy") + put(o, b"zzz")
        broken = bytearray(image)
        set_meta(broken, o, 0, 2)
        self.assert_refused(7, commit, broken, o, low + high + b"\0")
        self.assert_refused(7, commit, broken, o, low * 1025)
        self.assert_refused(1, commit, broken, o, low + high)
        self.assert_refused(5, commit, image, o, low + high)
        self.assert_refused(6, commit, image, o, low)
        self.assertEqual(commit(image, o, low + delete(o, b"aaa") + put(o, b"nnn")), 0)

    def test_lookup_compares_hash64_and_all_key_bytes(self):
        stored, asked = keys_with_homes(BASE, (0, 0))
        image = begun(BASE, put(BASE, stored))
        set_bucket(image, 0, fnv1a64(asked), 1)
        self.assertEqual(lookup(image, BASE, asked), Lookup(9, buckets=2))
        self.assertEqual(lookup(image, BASE, stored), Lookup(9, buckets=2))

    def test_lookup_without_an_empty_bucket(self):
        image = begun(BASE)
        for number in range(8):
            set_bucket(image, number, 0, TOMBSTONE)
        self.assert_refused(1, lookup, image, BASE, b"abc")

    def test_lookup_and_match_input(self):
        image = begun(BASE, put(BASE, b"abc"))
        for key in (b"", b"ab", b"abc\0", bytes(65)):
            self.assert_refused(7, lookup, image, BASE, key)
        for offset, bits, pattern in (
                (0, 8, b""), (0, 8, b"ab"), (0, 9, b"a"), (3, 1, b"a"), (1, 17, b"bcd"), (0, 25, b"abcd")):
            self.assert_refused(7, match, image, BASE, offset, bits, pattern, 0, 9, [5])
        for offset, bits, pattern in ((0, 24, b"abc"), (2, 8, b"c"), (1, 9, b"b\x7f")):
            self.assertEqual(match(image, BASE, offset, bits, pattern, 0, 9, [5]), Listed(0, 1, 1))

    def test_match_of_the_whole_pattern(self):
        """CR 2, on three live keys and a deleted one that would match."""
        image = begun(BASE, puts(BASE, (b"abc", b"abd", b"bbc", b"abz")), delete(BASE, b"abz"))
        for offset, pattern, listed in (
                (0, b"a", [0, 1]), (0, b"ab", [0, 1]), (0, b"abc", [0]), (0, b"b", [2]), (0, b"c", []), (0, b"abz", []),
                (1, b"b", [0, 1, 2]), (1, b"bc", [0, 2]), (1, b"bd", [1]), (2, b"c", [0, 2]), (2, b"b", [])):
            numbers = [9] * 4
            self.assertEqual(match(image, BASE, offset, 0, pattern, 0, 9, numbers), Listed(0, len(listed), len(listed)))
            self.assertEqual(numbers, listed + [9] * (4 - len(listed)))
        for offset in (*range(5), 2**32, 2**63, 2**64 - 3, 2**64 - 2, 2**64 - 1):
            for length in range(5):
                if length == 0 or offset + length > 3:
                    self.assert_refused(7, match, image, BASE, offset, 0, b"abcd"[:length], 0, 9, [9])
                else:
                    self.assertEqual(match(image, BASE, offset, 0, b"abc"[offset:offset + length], 0, 0, []).answer, 0)
        self.assert_refused(7, match, image, BASE, 0, 0, bytes(65), 0, 9, [])
        self.assert_refused(11, match, image, BASE, 0, 0, b"a", 0, 9, [9])
        self.assert_refused(1, match, image, BASE._replace(role=0), 0, 0, b"a", 0, 9, [])

    def test_user_data_of_another_length(self):
        for role, length in itertools.product(range(3), (0, 63, 65)):
            self.assert_refused(7, set_user_fields, fresh(BASE), BASE._replace(role=role), 1, bytes(length))


class Results(Case):
    """All numbers of a call in one list: an image with "abc" in slot 0, deleted, and "abd" in slot 1."""

    image = begun(BASE, put(BASE, b"abc") + put(BASE, b"abd", revision=-2), delete(BASE, b"abc"))

    def assert_reports(self, wanted, call, *arguments):
        """In every list that has room; in any other nothing is written."""
        for length in range(7):
            results, room = [99] * length, length >= len(wanted)
            self.assertEqual(call(*arguments, results), wanted[0] if room else 11)
            self.assertEqual(results, wanted + [99] * (length - len(wanted)) if room else [99] * length)

    def test_lookup(self):
        buckets = lookup(self.image, BASE, b"abd").buckets
        self.assert_reports([0, 1, 2**64 - 2, buckets], lookup_results, self.image, BASE, b"abd")
        buckets = lookup(self.image, BASE, b"abc").buckets
        self.assert_reports([9, 0, 0, buckets], lookup_results, self.image, BASE, b"abc")
        self.assert_reports([7, 0, 0, 0], lookup_results, self.image, BASE, b"ab")
        self.assert_reports([10, 0, 0, 0], lookup_results, b"", BASE, b"abd")

    def test_full_check(self):
        probes = lookup(self.image, BASE, b"abd").buckets
        self.assert_reports([0, 1, 1, probes], full_check_results, self.image, BASE)
        self.assert_reports([1, 0, 0, 0], full_check_results, self.image[:255], BASE)

    def test_listings(self):
        scanned, matched = (scan_results, self.image, BASE), (match_results, self.image, BASE, 2, 8, b"d")
        for call, *arguments in (scanned, matched):
            self.assert_reports([0, 1, 1], call, *arguments, 0, 9, [5, 6])
            self.assert_reports([0, 1, 0], call, *arguments, 1, 9, [5, 6])
            self.assert_reports([11, 0, 0], call, *arguments, 0, 9, [])
        self.assert_reports([7, 0, 0], match_results, self.image, BASE, 2, 0, b"", 0, 9, [5, 6])

    def test_a_list_of_results_too_short_leaves_both_lists_alone(self):
        numbers, results = [5, 6], [99, 99]
        self.assertEqual(scan_results(self.image, BASE, 0, 9, numbers, results), 11)
        self.assertEqual(match_results(self.image, BASE, 2, 8, b"d", 0, 9, numbers, results), 11)
        self.assertEqual((numbers, results), ([5, 6], [99, 99]))
        results.append(99)
        self.assertEqual(scan_results(self.image, BASE, 0, 9, numbers, results), 0)
        self.assertEqual((numbers, results), ([1, 6], [0, 1, 1]))


class FullCheckSentences(Case):
    """An ordered image, its buckets FULL, TOMBSTONE, FULL and five EMPTY, damaged once a test."""

    def setUp(self):
        self.options = BASE._replace(ordered=1)
        self.keys = keys_with_homes(self.options, (0, 0, 0))
        self.image = begun(self.options, puts(self.options, self.keys),
                           delete(self.options, self.keys[1]))
        self.assertEqual(full_check(self.image, self.options), FullCheck(0, 2, 1, 4))

    def assert_fails(self, image):
        self.assertEqual(header_test(image, self.options), 0)
        self.assert_refused(1, full_check, image, self.options)
        self.assert_refused(1, commit, image, self.options, b"")

    def test_bucket_points_at_or_past_highwater(self):
        for slot_plus1 in (4, 5, 2**32, 2**64 - 2):
            set_bucket(self.image, 2, fnv1a64(self.keys[2]), slot_plus1)
            self.assert_fails(self.image)

    def test_bucket_points_at_a_deleted_slot(self):
        set_bucket(self.image, 1, fnv1a64(self.keys[1]), 2)
        self.assert_fails(self.image)

    def test_bucket_carries_another_hash(self):
        set_bucket(self.image, 2, fnv1a64(self.keys[2]) ^ 2**63, 3)
        self.assert_fails(self.image)

    def test_meta_neither_0_nor_1(self):
        for meta in (2, 3, 2**32, 2**64 - 1):
            set_meta(self.image, self.options, 1, meta)
            self.assert_fails(self.image)

    def test_live_slot_behind_an_empty_bucket(self):
        set_bucket(self.image, 1, 0, EMPTY)
        set_bucket(self.image, 7, 0, TOMBSTONE)
        self.assert_fails(self.image)

    def test_live_slot_without_a_bucket(self):
        set_bucket(self.image, 2, fnv1a64(self.keys[0]), 1)
        self.assert_fails(self.image)

    def test_two_live_slots_with_one_key(self):
        self.set_key(1, self.keys[0])
        set_meta(self.image, self.options, 1, 1)
        set_bucket(self.image, 1, fnv1a64(self.keys[0]), 2)
        self.assert_fails(altered(self.image, live_count=3, bucket_used=3, bucket_tombstones=0))

    def test_counts_differ_from_the_header(self):
        self.assert_fails(altered(self.image, live_count=1, bucket_used=1))
        self.assert_fails(altered(self.image, bucket_tombstones=0))
        set_bucket(self.image, 7, 0, TOMBSTONE)
        self.assert_fails(self.image)

    def test_keys_fall(self):
        self.set_key(1, b"\xff\xff\xff")
        self.assert_fails(self.image)

    def set_key(self, slot, key):
        offset = 256 + slot * slot_size(self.options) + 8
        self.image[offset:offset + len(key)] = key


class Damage(Case):
    def images(self, chance):
        for ordered, (key_size, index_size, capacity, buckets) in itertools.product(
                (0, 1), ((1, 0, 1, 2), (1, 0, 1, 8), (3, 2, 4, 8), (8, 0, 6, 8), (8, 0, 6, 16), (12, 20, 12, 32))):
            o = Options(key_size, index_size, capacity, 9, ordered, 2)
            keys = sorted({chance.randbytes(key_size) for _ in range(capacity)})
            image = begun(o, puts(o, keys[:-1]), deletes(o, keys[:capacity // 4]), buckets=buckets)
            yield image, o, keys

    def damaged(self, chance, image, o):
        image, behind = bytearray(image), field(image, "buckets_offset")
        areas = ((0, 256), (0x20, 0x78), (256, behind), (behind, len(image)))
        for _ in range(chance.randint(1, 3)):
            offset = chance.randrange(*chance.choice(areas))
            if chance.random() < 0.4:
                image[offset] ^= chance.randint(1, 255)
            else:
                word = chance.choice((0, 1, 2, 3, o.slot_capacity, 2**63, 2**64 - 2, 2**64 - 1))
                struct.pack_into("<Q", image, offset // 8 * 8, word)
        if chance.random() < 0.8:
            write_fields(image)
        return image if chance.random() < 0.95 else image[:chance.randrange(len(image))]

    def answers(self, image, o, keys):
        """Each call's answer; a refusal leaves all that is lent, and gives nothing else."""
        for call, arguments in (
                (begin, ()), (checkpoint, ()), (invalidate, ()), (set_user_fields, (1, bytes(64))),
                (commit, (b"",)), (commit, (put(o, keys[0]) + delete(o, keys[-1]),)),
                (commit, (delete(o, keys[0]) + put(o, keys[-1]),))):
            changed = bytearray(image)
            answer = call(changed, o, *arguments)
            self.assertTrue(answer == 0 or changed == image)
            self.assertTrue(answer != 0 or call != commit or full_check(changed, o).answer == 0)
            yield answer
        numbers = [5] * 3
        for call, arguments in (
                (open_check, ()), (full_check, ()), (scan, (1, 3, numbers)),
                (match, (0, 3, keys[-1][:1], 0, 3, numbers)), (match, (0, 0, keys[-1][:1], 0, 3, numbers)),
                *((lookup, (key,)) for key in keys)):
            before = list(numbers)
            result = call(bytes(image), o, *arguments)
            self.assertTrue(result.answer in (0, 9) or result == type(result)(result.answer))
            self.assertTrue(result.answer == 0 or numbers == before)
            yield result.answer

    def assert_demand_3(self, image, o, keys, checked):
        slots = [5] * checked.live
        self.assertEqual(scan(image, o, 0, checked.live, slots).total, checked.live)
        probes = 0
        for slot in slots:
            offset = 256 + slot * slot_size(o) + 8
            found = lookup(image, o, image[offset:offset + o.key_size])
            self.assertEqual((found.answer, found.slot), (0, slot))
            probes += found.buckets
        self.assertEqual(probes, checked.probes)
        for found in (lookup(image, o, key) for key in keys):
            self.assertIn(found.answer, (0, 9))
            self.assertIn(found.buckets, range(1, checked.live + checked.tombstones + 2))

    def test_in_bulk(self):
        chance = random.Random(4)
        images = list(self.images(chance))
        seen = set()
        for _ in range(1000):
            sound, o, keys = chance.choice(images)
            image = self.damaged(chance, sound, o)
            o = o._replace(role=chance.choice((0, 1, 2, 2)), slot_capacity=chance.choice((o.slot_capacity, 0)))
            list(self.answers(image, o, keys))
            if len(image) == len(sound):
                # "an image with half of another behind it" (CR 8): 1, or an earlier test's number
                longer = image + image[:chance.choice((1, 8, len(image) // 2, len(image)))]
                self.assertEqual(set(self.answers(longer, o, keys)), {header_test(image, o) or 1})
            checked = full_check(image, o)
            seen.add((header_test(image, o), checked.answer))
            if checked.answer == 0:
                self.assert_demand_3(image, o, keys, checked)
        self.assertLessEqual({(0, 0), (0, 1), (1, 1), (2, 2), (4, 4)}, seen)


if __name__ == "__main__":
    unittest.main()
