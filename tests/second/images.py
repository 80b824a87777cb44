"""Images to try the calls on: made by random histories, then damaged on purpose."""

import second

# Pairs of different keys with one FNV-1a 64 hash. Equal bytes appended to both keep the hashes equal.
COLLISIONS = [
    (bytes.fromhex("c457100f41096863"), bytes.fromhex("7b4f9f3b9b152273")),
    (bytes.fromhex("de9d9a53120203a8d90c3cd7"), bytes.fromhex("dfaf9c2d180417b6d93745e0")),
]


def record_of(o, put, key, revision, index):
    """A record of a batch, laid out as a slot; the index may be shorter than it is there."""
    head = int(put).to_bytes(8, "little") + key
    body = head.ljust(second.revision_offset(o), b"\0") + revision.to_bytes(8, "little", signed=True) + index
    return body.ljust(second.slot_size(o), b"\0")


def least_buckets(o):
    """The smallest power of two above the capacity."""
    return 2**o.slot_capacity.bit_length()


def fresh(o, buckets=None):
    """An image as create leaves it; where a number of buckets is given, its header and its length are of that many."""
    image = bytearray(second.total_size(o))
    assert second.create(image, o) == 0
    if buckets is not None:
        second.write_fields(image, bucket_count=buckets)
        image[second.buckets_offset(o, o.slot_capacity):] = bytes(16 * buckets)
    return image


class Images:
    def __init__(self, random):
        self.random = random

    def options(self):
        """Mostly tiny shapes, so that keys collide; sometimes the limits."""
        pick = self.random.choice
        key_size = pick((1, 1, 2, 3, 8, 9, 12, 12, 64))
        index_size = pick((0, 1, 4, 5, 8, 20, 256))
        slot_capacity = pick((1, 2, 3, 3, 4, 5, 5, 9, 17))
        return second.Options(key_size, index_size, slot_capacity, pick((0, 1, 2**64 - 1)), pick((0, 0, 1)), 2)

    def buckets(self, o):
        """The rule's number of buckets, or another from just above the capacity upwards."""
        rule, least = second.bucket_count(o), least_buckets(o)
        return self.random.choice((rule, rule, rule, least, least, 2 * least, 4 * least, 16 * least))

    def key(self, o):
        """A key of a small alphabet, or one of a colliding pair."""
        pick = self.random.choice
        pairs = [pair for pair in COLLISIONS if len(pair[0]) <= o.key_size]
        if pairs and self.random.random() < 0.5:
            key = pick(pick(pairs))
            return key + bytes(o.key_size - len(key))
        return bytes(pick((0, 1, 255)) for _ in range(min(o.key_size, 2))) + bytes(max(o.key_size - 2, 0))

    def revision(self):
        near = self.random.choice((-(2**63), -1, 0, 1, 2**63 - 1, self.random.randrange(-(2**63), 2**63)))
        return min(max(near + self.random.randrange(-2, 3), -(2**63)), 2**63 - 1)

    def record(self, o, key=None, put=None):
        key = self.key(o) if key is None else key
        put = self.random.random() < 0.7 if put is None else put
        revision, index = (self.revision(), self.random.randbytes(o.index_size)) if put else (0, bytes(o.index_size))
        return record_of(o, put, key, revision, index)

    def batch(self, o, most=4):
        return b"".join(self.record(o) for _ in range(self.random.randrange(most + 1)))

    def history(self, o, commits=6):
        """An image that a writer may have left."""
        image = fresh(o, self.buckets(o))
        second.begin(image, o)
        for _ in range(self.random.randrange(commits + 1)):
            second.commit(image, o, self.batch(o))
        if self.random.random() < 0.2:
            second.set_user_fields(image, o, self.random.getrandbits(64), self.random.randbytes(64))
        if self.random.random() < 0.6:
            second.checkpoint(image, o)
        if self.random.random() < 0.05:
            second.invalidate(image, o)
        return image

    def damage(self, image, o):
        """One damage of a random kind."""
        self.random.choice((
            self.damage_byte, self.damage_field, self.damage_field, self.damage_field, self.damage_length,
            self.damage_shape, self.damage_bucket, self.damage_bucket, self.damage_buckets, self.damage_meta,
            self.damage_key))(image, o)

    def damage_byte(self, image, o):
        if image:
            image[self.random.randrange(len(image))] = self.random.randrange(256)

    def damage_field(self, image, o):
        """A header field, with the CRC repaired or not."""
        if len(image) < 256:
            return
        name = self.random.choice([name for name in second.FIELDS if name != "header_crc32c"])
        width = second.FIELDS[name][1]
        value = second.field(image, name)
        value = self.random.choice((0, 1, 2, value + 1, value - 1, value * 2, value ^ 1, 256**width - 2,
                                    256**width - 1, self.random.getrandbits(8 * width)))
        second.write_field(image, name, value % 256**width)
        if self.random.random() < 0.8:
            second.write_fields(image)

    def damage_length(self, image, o):
        length = self.random.choice((0, 1, 255, 256, max(len(image) - 1, 0), len(image) + 1, len(image) + 8, 2 * len(image)))
        image[length:] = b""
        image.extend(self.random.randbytes(max(length - len(image), 0)))

    def has_table(self, image, o):
        """Whether the header says where slots and buckets are; else no call looks at them."""
        return second.header_test(image, o) == 0

    def damage_shape(self, image, o):
        """Another capacity or B, in the header and in the length; slots and buckets stay where they are."""
        if self.has_table(image, o):
            capacity = o.slot_capacity + self.random.choice((-1, 0, 0, 1))
            buckets = second.field(image, "bucket_count") * self.random.choice((1, 2, 4)) // 2
            second.write_fields(image, slot_capacity=capacity, bucket_count=buckets,
                                buckets_offset=second.buckets_offset(o, capacity))
            total = second.total(o, capacity, buckets)
            image[:] = image[:total].ljust(total, b"\0")

    def damage_bucket(self, image, o):
        """A bucket that points elsewhere, or carries another hash."""
        if self.has_table(image, o):
            table = second.Table(image, o)
            number = self.random.randrange(table.bucket_count)
            bucket, other = table.bucket(number), table.bucket(self.random.randrange(table.bucket_count))
            table.write_bucket(
                number, self.random.choice((bucket.hash64, other.hash64, bucket.hash64 ^ 1, self.random.getrandbits(64))),
                self.random.choice((0, 1, 2, table.capacity, table.capacity + 1, bucket.slot_plus1, other.slot_plus1,
                                    second.TOMBSTONE, second.TOMBSTONE - 1, self.random.getrandbits(64))))

    def damage_buckets(self, image, o):
        """No EMPTY bucket left."""
        if self.has_table(image, o):
            table = second.Table(image, o)
            for number, bucket in enumerate(table.buckets()):
                if bucket.slot_plus1 == second.EMPTY:
                    table.write_bucket(number, bucket.hash64, second.TOMBSTONE)

    def damage_meta(self, image, o):
        if self.has_table(image, o):
            table, meta = second.Table(image, o), self.random.choice((0, 1, 2, 3, 256, 2**63))
            table.write_slot(self.random.randrange(table.capacity), 0, meta.to_bytes(8, "little"))

    def damage_key(self, image, o):
        if self.has_table(image, o):
            table = second.Table(image, o)
            table.write_slot(self.random.randrange(table.capacity), 8, self.key(o))

    def image(self, o):
        """An image as a history left it, or damaged once or twice."""
        image = self.history(o)
        for _ in range(self.random.choice((0, 0, 1, 1, 1, 2))):
            self.damage(image, o)
        return image

    def asked(self, o):
        """Options as a caller may give them: those of the image, the capacity left to its header, another role, something else,
        or far out of range."""
        o = o._replace(role=self.random.randrange(3), slot_capacity=self.random.choice((o.slot_capacity, o.slot_capacity, 0)))
        if self.random.random() < 0.15:
            name = self.random.choice(o._fields)
            value = self.random.choice((0, 1, 2, 3, 64, 65, 256, 257, second.CAPACITY_LIMIT, second.CAPACITY_LIMIT + 1, 2**32,
                                        2**63, 2**64 - 1))
            o = o._replace(**{name: value})
        return o
