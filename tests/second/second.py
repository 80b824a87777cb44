"""The SLC1 slot cache of document 01, sentence by sentence: the independent second program.

A comment in quotation marks is document 01's text, or with (CR n) document 02's; the code for it
stands below it. Answers are document 01's numbers. An image is a bytearray, changed in place;
calls that only read take bytes as well.
"""

from collections import namedtuple
from struct import Struct

Options = namedtuple("Options", "key_size index_size slot_capacity user_version ordered role")

# "Any number but 0 leaves every lent byte alone; all else returned is 0 or empty, save that 9
# carries its bucket count."
OpenCheck = namedtuple("OpenCheck", "answer user_flags user_data", defaults=(0, bytes(64)))
Lookup = namedtuple("Lookup", "answer slot revision buckets index", defaults=(0, 0, 0, b""))
FullCheck = namedtuple("FullCheck", "answer live tombstones probes", defaults=(0, 0, 0))
Listed = namedtuple("Listed", "answer total written", defaults=(0, 0))
Shape = namedtuple("Shape", "capacity buckets total", defaults=(0, 0, 0))
Age = namedtuple("Age", "order distance")

Slot = namedtuple("Slot", "meta key key_padding revision index index_padding")
Bucket = namedtuple("Bucket", "hash64 slot_plus1")
Actions = namedtuple("Actions", "puts deletes new_keys")


def first_of(tests):
    """The number of the first (test, number) that holds, or 0; tests after it are not made."""
    return next((number for holds, number in tests if holds), 0)


def fnv1a64(data):
    # "Hash: FNV-1a, 64 bits: start 14695981039346656037; for each byte, exclusive-or, then
    # multiply by 1099511628211 keeping the low 64 bits."
    hash64 = 14695981039346656037
    for byte in data:
        hash64 = (hash64 ^ byte) * 1099511628211 % 2**64
    return hash64


def divided(register):
    """A CRC register after eight steps of division by the Castagnoli polynomial, reflected."""
    for _ in range(8):
        register = register >> 1 ^ (0x82F63B78 if register & 1 else 0)
    return register


def crc32c_bitwise(data):
    """CRC32-C by its definition; crc32c is the same by a table."""
    register = 0xFFFFFFFF
    for byte in data:
        register = divided(register ^ byte)
    return register ^ 0xFFFFFFFF


DIVIDED = [divided(register) for register in range(256)]


def crc32c(data):
    register = 0xFFFFFFFF
    for byte in data:
        register = register >> 8 ^ DIVIDED[(register ^ byte) & 0xFF]
    return register ^ 0xFFFFFFFF


# "Raise slot_capacity to 1,048,576 and the batch to 1,024 records." (CR 5)
CAPACITY_LIMIT, BATCH_LIMIT = 1048576, 1024
# "B may be any power of two above slot_capacity, up to 4,194,304" (CR 10)
BUCKET_LIMIT = 4194304


def allowed_to_open(o):
    # "key_size 1 to 64, index_size 0 to 256, slot_capacity 1 to [...], [...] ordered (0 or 1)"
    # "Option capacity 0 now means 'as the header says'" (CR 10)
    return (1 <= o.key_size <= 64 and 0 <= o.index_size <= 256
            and 0 <= o.slot_capacity <= CAPACITY_LIMIT and 0 <= o.ordered <= 1 and 0 <= o.role <= 2)


def allowed_to_create(o):
    # "create [...] answers 7 to capacity 0." (CR 10)
    return allowed_to_open(o) and o.slot_capacity != 0


def to_multiple_of_8(size):
    return (size + 7) // 8 * 8


def revision_offset(o):
    return to_multiple_of_8(8 + o.key_size)


def slot_size(o):
    return to_multiple_of_8(revision_offset(o) + 8 + o.index_size)


def buckets_offset(o, capacity):
    return 256 + capacity * slot_size(o)


def total(o, capacity, buckets):
    # "Total size: 256 + capacity x slot_size + 16 x B."
    return 256 + capacity * slot_size(o) + 16 * buckets


def bucket_count(o):
    """Create's B, by the option alone."""
    # "bucket_count B is the smallest power of two not below twice slot_capacity."
    # "create keeps 01's sizing" (CR 10)
    count = 1
    while count < 2 * o.slot_capacity:
        count *= 2
    return count


def total_size(o):
    """Create's total, by the option alone."""
    return total(o, o.slot_capacity, bucket_count(o))


# "The header is 256 bytes; its fields are one table of name, offset and width"
FIELDS = {
    "magic": (0x00, 4),
    "version": (0x04, 4),
    "header_size": (0x08, 4),
    "key_size": (0x0C, 4),
    "index_size": (0x10, 4),
    "slot_size": (0x14, 4),
    "hash_alg": (0x18, 4),
    "flags": (0x1C, 4),
    "slot_capacity": (0x20, 8),
    "slot_highwater": (0x28, 8),
    "live_count": (0x30, 8),
    "user_version": (0x38, 8),
    "generation": (0x40, 8),
    "bucket_count": (0x48, 8),
    "bucket_used": (0x50, 8),
    "bucket_tombstones": (0x58, 8),
    "slots_offset": (0x60, 8),
    "buckets_offset": (0x68, 8),
    "header_crc32c": (0x70, 4),
    "state": (0x74, 4),
    "user_flags": (0x78, 8),
    "user_data": (0x80, 64),
    "reserved": (0xC0, 64),
}
Header = namedtuple("Header", FIELDS)

MAGIC = int.from_bytes(b"SLC1", "little")
# "State: 0 CLEAN, 1 INVALIDATED, 2 DIRTY."
CLEAN, INVALIDATED, DIRTY = 0, 1, 2


def field(image, name):
    offset, width = FIELDS[name]
    return int.from_bytes(image[offset:offset + width], "little")


def read_header(image):
    return Header(*(field(image, name) for name in FIELDS))


def write_field(image, name, value):
    offset, width = FIELDS[name]
    image[offset:offset + width] = value.to_bytes(width, "little")


def header_crc32c(image):
    # "CRC32-C (Castagnoli) is taken over the header with the CRC and generation bytes as zero."
    header = bytearray(image[:256])
    write_field(header, "header_crc32c", 0)
    write_field(header, "generation", 0)
    return crc32c(header)


def write_fields(image, **values):
    for name, value in values.items():
        write_field(image, name, value)
    # "Every change of state or fields renews the CRC."
    write_field(image, "header_crc32c", header_crc32c(image))


def is_power_of_two(number):
    return number > 0 and number & (number - 1) == 0


def header_tests(image, o):
    # "1. Options outside the sizes, ordered above 1, or role above 2: 7."
    yield not allowed_to_open(o), 7
    # "2. Length 0: 10. Length 1 to 255: 1."
    yield len(image) == 0, 10
    yield len(image) <= 255, 1
    h = read_header(image)
    # "3. Magic, version, header_size or hash_alg wrong: 2."
    yield (h.magic, h.version, h.header_size, h.hash_alg) != (MAGIC, 1, 256, 1), 2
    # "4. Generation odd: role 1 gives 4, else 1."
    yield h.generation % 2 == 1 and o.role == 1, 4
    yield h.generation % 2 == 1, 1
    # "5. CRC differs: 1."
    yield h.header_crc32c != header_crc32c(image), 1
    # "6. Unknown flag, non-zero reserved byte, unknown state: 2."
    yield h.flags > 1 or h.reserved != 0 or h.state not in (CLEAN, INVALIDATED, DIRTY), 2
    # "7. INVALIDATED: 3."
    yield h.state == INVALIDATED, 3
    # "8. key_size, index_size, slot_size, slot_capacity, user_version or ordered flag not as the
    # options say: 2."
    yield (h.key_size, h.index_size, h.slot_size) != (o.key_size, o.index_size, slot_size(o)), 2
    yield (h.user_version, h.flags) != (o.user_version, o.ordered), 2
    # "Option capacity 0 now means 'as the header says', within 1 to 1,048,576, else 2." (CR 10)
    yield o.slot_capacity == 0 and not 1 <= h.slot_capacity <= CAPACITY_LIMIT, 2
    yield o.slot_capacity != 0 and h.slot_capacity != o.slot_capacity, 2
    # "9. B may be any power of two above slot_capacity, up to 4,194,304; a larger power of two is
    # 2, any other B 1." (CR 10)
    yield is_power_of_two(h.bucket_count) and h.bucket_count > BUCKET_LIMIT, 2
    yield not is_power_of_two(h.bucket_count) or h.bucket_count <= h.slot_capacity, 1
    # "10. An offset wrong, or a length other than the total: 1." (CR 8)
    yield h.slots_offset != 256 or h.buckets_offset != buckets_offset(o, h.slot_capacity), 1
    yield len(image) != total(o, h.slot_capacity, h.bucket_count), 1
    # "11. live_count = bucket_used, and bucket_used + bucket_tombstones <= slot_highwater <=
    # slot_capacity, else 1."
    yield h.live_count != h.bucket_used, 1
    yield not h.bucket_used + h.bucket_tombstones <= h.slot_highwater <= h.slot_capacity, 1
    # "12. DIRTY with role 0: 1."
    yield h.state == DIRTY and o.role == 0, 1


def header_test(image, o):
    return first_of(header_tests(image, o))


def open_check(image, o):
    # "Open check is this test alone; with 0 it hands out the user fields."
    number = header_test(image, o)
    if number:
        return OpenCheck(number)
    user_data = field(image, "user_data").to_bytes(64, "little")
    return OpenCheck(0, field(image, "user_flags"), user_data)


def image_shape(image, o):
    """The shape that the judged header carries, for C; all 0 where the header test does not give 0."""
    if header_test(image, o):
        return Shape()
    capacity, buckets = field(image, "slot_capacity"), field(image, "bucket_count")
    return Shape(capacity, buckets, total(o, capacity, buckets))


def places(o, slot):
    """Create's total, and where a slot's key and index stand, for C; 0 where the options are not allowed or there is no such
    slot."""
    created = total_size(o) if allowed_to_create(o) else 0
    # "Option capacity 0 now means 'as the header says', within 1 to 1,048,576" (CR 10)
    if not allowed_to_open(o) or slot >= (o.slot_capacity or CAPACITY_LIMIT):
        return created, 0, 0
    at = 256 + slot * slot_size(o)
    return created, at + 8, at + revision_offset(o) + 8


def create(buffer, o):
    # "Test 1; lent buffer shorter than the total: 11."
    if not allowed_to_create(o):
        return 7
    if len(buffer) < total_size(o):
        return 11
    # "Writes exactly the total: header CLEAN, generation and counters 0, user fields 0, all else
    # 0."
    buffer[:total_size(o)] = bytes(total_size(o))
    write_fields(
        buffer, magic=MAGIC, version=1, header_size=256, key_size=o.key_size,
        index_size=o.index_size, slot_size=slot_size(o), hash_alg=1, flags=o.ordered,
        slot_capacity=o.slot_capacity, user_version=o.user_version, bucket_count=bucket_count(o),
        slots_offset=256, buckets_offset=buckets_offset(o, o.slot_capacity), state=CLEAN)
    return 0


# "A bucket: hash64, then slot_plus1 (0 EMPTY, all ones TOMBSTONE, else slot number plus 1)."
BUCKET = Struct("<QQ")
EMPTY, TOMBSTONE = 0, 2**64 - 1


def is_full(bucket):
    return bucket.slot_plus1 not in (EMPTY, TOMBSTONE)


def slot_parts(o, data):
    # "A slot: meta u64 (1 live, 0 deleted), key, zeros to a multiple of 8, revision i64, index,
    # zeros to a multiple of 8."
    key_end = 8 + o.key_size
    revision = revision_offset(o)
    index = revision + 8
    index_end = index + o.index_size
    return Slot(int.from_bytes(data[:8], "little"), data[8:key_end], data[key_end:revision],
                int.from_bytes(data[revision:index], "little", signed=True),
                data[index:index_end], data[index_end:])


class Table:
    """The slots and buckets of an image that passed the header test."""

    def __init__(self, image, o):
        self.image = image
        self.options = o
        self.slot_size = slot_size(o)
        # "The judged header therefore carries capacity, B and offsets to every later call." (CR 10)
        self.capacity = field(image, "slot_capacity")
        self.bucket_count = field(image, "bucket_count")
        self.buckets_offset = field(image, "buckets_offset")
        self.highwater = field(image, "slot_highwater")

    def slot_offset(self, number):
        return 256 + number * self.slot_size

    def slot(self, number):
        offset = self.slot_offset(number)
        return slot_parts(self.options, bytes(self.image[offset:offset + self.slot_size]))

    def slots(self):
        return [self.slot(number) for number in range(self.highwater)]

    def write_slot(self, number, offset, data):
        offset += self.slot_offset(number)
        self.image[offset:offset + len(data)] = data

    def bucket(self, number):
        return Bucket(*BUCKET.unpack_from(self.image, self.buckets_offset + 16 * number))

    def buckets(self):
        """All buckets as they are now, one by one: there may be millions."""
        return map(Bucket._make, BUCKET.iter_unpack(self.image[self.buckets_offset:]))

    def write_bucket(self, number, hash64, slot_plus1):
        BUCKET.pack_into(self.image, self.buckets_offset + 16 * number, hash64, slot_plus1)

    def probed(self, hash64):
        # "Home bucket: hash modulo B; a probe goes on by one, round the end."
        for passed in range(self.bucket_count):
            number = (hash64 + passed) % self.bucket_count
            yield number, self.bucket(number)

    def counts(self):
        """The numbers of live slots, FULL buckets and TOMBSTONE buckets."""
        live = sum(slot.meta == 1 for slot in self.slots())
        marks = [bucket.slot_plus1 for bucket in self.buckets()]
        tombstones = marks.count(TOMBSTONE)
        return live, len(marks) - marks.count(EMPTY) - tombstones, tombstones


def probe(table, key):
    hash64 = fnv1a64(key)
    # "The count includes the last bucket."
    for count, (_, bucket) in enumerate(table.probed(hash64), start=1):
        # "EMPTY: 9."
        if bucket.slot_plus1 == EMPTY:
            return Lookup(9, buckets=count)
        slot_number = bucket.slot_plus1 - 1
        # "A FULL bucket whose slot is at or past highwater: 1."
        if is_full(bucket) and slot_number >= table.highwater:
            return Lookup(1)
        # "Equal hash64 and equal key: meta 1 is found, else 1."
        if is_full(bucket) and bucket.hash64 == hash64:
            slot = table.slot(slot_number)
            if slot.key == key and slot.meta == 1:
                # "Found gives slot, revision and the index bytes"
                return Lookup(0, slot_number, slot.revision, count, slot.index)
            if slot.key == key:
                return Lookup(1)
        # "Anything else: go on."
    # "B buckets without end: 1."
    return Lookup(1)


def lookup(image, o, key):
    number = header_test(image, o)
    if number:
        return Lookup(number)
    # "Key length other than key_size: 7. Then probe."
    if len(key) != o.key_size:
        return Lookup(7)
    return probe(Table(image, o), key)


def report(numbers, results):
    """All numbers of a call, the answer first, in a lent list of 64-bit numbers (DECISIONS.md, "All numbers in one
    call"); the answer comes back."""
    # "lent output too short: 11"
    if len(results) < len(numbers):
        return 11
    results[:len(numbers)] = [number % 2**64 for number in numbers]
    return numbers[0]


def lookup_results(image, o, key, results):
    found = lookup(image, o, key)
    return report((found.answer, found.slot, found.revision, found.buckets), results)


def bucket_holds(bucket, slots):
    slot_number = bucket.slot_plus1 - 1
    return (slot_number < len(slots) and slots[slot_number].meta == 1
            and bucket.hash64 == fnv1a64(slots[slot_number].key))


def full_check(image, o):
    number = header_test(image, o)
    if number:
        return FullCheck(number)
    table = Table(image, o)
    slots = table.slots()
    # "Every FULL bucket points below highwater at a slot with meta 1 and carries its key's hash;"
    if not all(bucket_holds(bucket, slots) for bucket in table.buckets() if is_full(bucket)):
        return FullCheck(1)
    # "every slot below highwater has meta 0 or 1;"
    if not all(slot.meta in (0, 1) for slot in slots):
        return FullCheck(1)
    # "probing each live slot's key finds that slot;"
    probes = 0
    for slot_number, slot in enumerate(slots):
        if slot.meta == 1:
            found = probe(table, slot.key)
            if found.answer != 0 or found.slot != slot_number:
                return FullCheck(1)
            probes += found.buckets
    # "live, FULL and TOMBSTONE counts equal the header's;"
    header = read_header(image)
    if table.counts() != (header.live_count, header.bucket_used, header.bucket_tombstones):
        return FullCheck(1)
    # "if ordered, keys of all slots below highwater never fall."
    keys = [slot.key for slot in slots]
    if o.ordered and keys != sorted(keys):
        return FullCheck(1)
    # "It returns live, tombstones and the sum of lookup counts over live keys."
    return FullCheck(0, header.live_count, header.bucket_tombstones, probes)


def full_check_results(image, o, results):
    return report(full_check(image, o), results)


def fullcheck_program(standard_input):
    # "Key 12, index 20, capacity 512, user_version 1, unordered, role 0. It reads standard input
    # and holds one image of at most 65,536 bytes; longer input is answered 7."
    o = Options(12, 20, 512, 1, 0, 0)
    checked = full_check(standard_input, o) if len(standard_input) <= 65536 else FullCheck(7)
    return b"answer %d live %d tombstones %d probes %d\n" % checked


def writing_tests(image, o):
    yield from header_tests(image, o)
    # "After the header test, role 1 gives 4 and role 0 gives 7."
    yield o.role == 1, 4
    yield o.role == 0, 7


def begin(image, o):
    number = first_of(writing_tests(image, o))
    if number == 0:
        # "Begin: CLEAN becomes DIRTY; on DIRTY nothing changes, answer 0."
        write_fields(image, state=DIRTY)
    return number


def checkpoint(image, o):
    number = first_of(writing_tests(image, o))
    if number == 0:
        # "Checkpoint: DIRTY becomes CLEAN; on CLEAN nothing changes, answer 0."
        write_fields(image, state=CLEAN)
    return number


def publishing_tests(image, o, clean_allowed=False):
    """The tests of commit, set user fields and invalidate."""
    yield from writing_tests(image, o)
    # "Next, commit and set user fields on CLEAN: 7."
    yield field(image, "state") == CLEAN and not clean_allowed, 7
    # "Then commit, set user fields and invalidate at generation 2^64 - 2: 1."
    yield field(image, "generation") == 2**64 - 2, 1


def publish(image, **values):
    # "Accepted, each of these three adds 2 to the generation, even with an empty batch."
    write_fields(image, generation=field(image, "generation") + 2, **values)


def invalidate(image, o):
    number = first_of(publishing_tests(image, o, clean_allowed=True))
    if number == 0:
        # "Invalidate: CLEAN or DIRTY becomes INVALIDATED."
        publish(image, state=INVALIDATED)
    return number


def set_user_fields(image, o, user_flags, user_data):
    # A host may lend other than 64 bytes: "Every call but create and revision age makes this test first."
    if len(user_data) != 64:
        return header_test(image, o) or 7
    number = first_of(publishing_tests(image, o))
    if number == 0:
        # "Set user fields replaces user_flags and user_data."
        publish(image, user_flags=user_flags, user_data=int.from_bytes(user_data, "little"))
    return number


def records(o, batch):
    # "records of one fixed size, no header, each laid out as a slot"
    return [bytes(batch[start:start + slot_size(o)])
            for start in range(0, len(batch), slot_size(o))]


def malformed(record):
    # "meta 1 for put and 0 for delete. Padding is zero; a delete has zero revision and index."
    return (record.meta not in (0, 1) or any(record.key_padding) or any(record.index_padding)
            or record.meta == 0 and (record.revision != 0 or any(record.index)))


def deciding_records(o, batch):
    """Each key's deciding record, in the order of these records."""
    deciding = {}
    for record in records(o, batch):
        key = slot_parts(o, record).key
        # "Only the last record for a key counts."
        deciding.pop(key, None)
        deciding[key] = record
    return deciding


def actions(table, batch):
    """Puts (slot number, record) and deletes (slot number, key) on live keys; new (key, record)."""
    o = table.options
    puts, deletes, new_keys = [], [], []
    for key, record in deciding_records(o, batch).items():
        found = probe(table, key)
        is_live, is_put = found.answer == 0, slot_parts(o, record).meta == 1
        if is_live and is_put:
            puts.append((found.slot, record))
        elif is_live:
            deletes.append((found.slot, key))
        elif is_put:
            new_keys.append((key, record))
        # "delete on an absent key does nothing."
    # "in order of their deciding record, or in key order if ordered;"
    return Actions(puts, deletes, sorted(new_keys) if o.ordered else new_keys)


def commit_tests(image, o, batch):
    yield from publishing_tests(image, o)
    # "batch length no multiple of slot_size, over [...] records, or a malformed record: 7."
    yield len(batch) % slot_size(o) != 0, 7
    yield len(batch) > BATCH_LIMIT * slot_size(o), 7
    yield any(malformed(slot_parts(o, record)) for record in records(o, batch)), 7
    # "Full check fails: 1."
    yield full_check(image, o).answer != 0, 1
    table = Table(image, o)
    new_keys = actions(table, batch).new_keys
    # "New keys beyond capacity - highwater: 5."
    yield len(new_keys) > table.capacity - table.highwater, 5
    # "Ordered, highwater above 0, and some new key below the key of slot highwater - 1, live or
    # deleted: 6."
    yield (o.ordered == 1 and table.highwater > 0
           and any(key < table.slot(table.highwater - 1).key for key, _ in new_keys)), 6


def rewrite(table, slot_number, record):
    # "Put on a live key rewrites revision and index in its slot."
    revision = revision_offset(table.options)
    index_end = revision + 8 + table.options.index_size
    table.write_slot(slot_number, revision, record[revision:index_end])


def delete(table, slot_number, key):
    # "Delete on a live key clears meta alone and makes its bucket a TOMBSTONE, hash64 unchanged;"
    table.write_slot(slot_number, 0, bytes(8))
    for bucket_number, bucket in table.probed(fnv1a64(key)):
        if bucket.slot_plus1 == slot_number + 1:
            return table.write_bucket(bucket_number, bucket.hash64, TOMBSTONE)


def place(table, slot_number, key):
    # "Each takes the first TOMBSTONE on its probe, else the EMPTY that ends it." The key is known
    # to be absent, so this is whichever of the two comes first.
    hash64 = fnv1a64(key)
    for bucket_number, bucket in table.probed(hash64):
        if not is_full(bucket):
            return table.write_bucket(bucket_number, hash64, slot_number + 1)


def append(table, key, record):
    # "Then new keys get the next slot numbers, [...]; the record's bytes become the whole slot."
    table.write_slot(table.highwater, 0, record)
    place(table, table.highwater, key)
    table.highwater += 1


def rebuild(table):
    # "all zero, then live slots in slot order."
    for bucket_number in range(table.bucket_count):
        table.write_bucket(bucket_number, 0, EMPTY)
    for slot_number, slot in enumerate(table.slots()):
        if slot.meta == 1:
            place(table, slot_number, slot.key)


def commit(image, o, batch):
    number = first_of(commit_tests(image, o, batch))
    if number:
        return number
    table = Table(image, o)
    puts, deletes, new_keys = actions(table, batch)
    for slot_number, record in puts:
        rewrite(table, slot_number, record)
    for slot_number, key in deletes:
        delete(table, slot_number, key)
    for key, record in new_keys:
        append(table, key, record)
    # "Last, if 4 x tombstones > B, the index is rebuilt"
    _, _, tombstones = table.counts()
    if 4 * tombstones > table.bucket_count:
        rebuild(table)
    live, full, tombstones = table.counts()
    publish(image, slot_highwater=table.highwater, live_count=live, bucket_used=full,
            bucket_tombstones=tombstones)
    return 0


def listed(matching, skip, limit, numbers):
    # "written to a lent list of 32-bit numbers after a skip and up to a limit;"
    to_write = matching[skip:skip + limit]
    # "List shorter than the number to write: 11."
    if len(numbers) < len(to_write):
        return Listed(11)
    # "Entries past those written are unchanged."
    numbers[:len(to_write)] = to_write
    # "the total number of matches and the number written come back."
    return Listed(0, len(matching), len(to_write))


def live_keys(image, o):
    # "Numbers of live slots (below highwater, meta exactly 1), ascending"
    return [(slot_number, slot.key) for slot_number, slot in enumerate(Table(image, o).slots())
            if slot.meta == 1]


def scan(image, o, skip, limit, numbers):
    number = header_test(image, o)
    if number:
        return Listed(number)
    return listed([slot_number for slot_number, _ in live_keys(image, o)], skip, limit, numbers)


def listing_results(call, numbers, results):
    # Too short a list of results is refused before anything is written, to either list.
    return report(call(numbers) if len(results) >= 3 else Listed(11), results)


def scan_results(image, o, skip, limit, numbers, results):
    return listing_results(lambda lent: scan(image, o, skip, limit, lent), numbers, results)


def match_tests(image, o, offset, bits, pattern):
    yield from header_tests(image, o)
    if bits == 0:
        # "0 means the whole pattern, eight bits a byte, and [...] the pattern then has 1 to
        # key_size - offset bytes. [...] An empty pattern with 0 bits stays 7." (CR 2)
        yield not 1 <= len(pattern) <= o.key_size - offset, 7
    else:
        # "The pattern has exactly the bytes needed; [...] 7 if [...] the pattern's length differs,
        # or it runs past the key."
        yield len(pattern) != (bits + 7) // 8, 7
        yield offset + len(pattern) > o.key_size, 7


def first_bits(data, bits):
    # "most significant first [...]; spare bits are ignored."
    return int.from_bytes(data, "big") >> 8 * len(data) - bits


def agrees(part, bits, pattern):
    # "0 means the whole pattern, eight bits a byte" (CR 2)
    if bits == 0:
        return part == pattern
    # "Match (003) compares a number of bits"
    return first_bits(part, bits) == first_bits(pattern, bits)


def match(image, o, offset, bits, pattern, skip, limit, numbers):
    number = first_of(match_tests(image, o, offset, bits, pattern))
    if number:
        return Listed(number)
    # "from a byte offset in the key."
    end = offset + len(pattern)
    matching = [slot_number for slot_number, key in live_keys(image, o)
                if agrees(key[offset:end], bits, pattern)]
    return listed(matching, skip, limit, numbers)


def match_results(image, o, offset, bits, pattern, skip, limit, numbers, results):
    return listing_results(lambda lent: match(image, o, offset, bits, pattern, skip, limit, lent), numbers, results)


def revision_age(first, second):
    # "Two signed revisions give older, same or newer, the second against the first, and the
    # distance as an unsigned 64-bit number." Older is -1, same 0, newer 1.
    return Age((second > first) - (second < first), abs(second - first))
