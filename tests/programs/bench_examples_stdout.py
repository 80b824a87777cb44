"""Writes what the program bench_examples must print, as the second program answers it."""

import sys

sys.path.append(sys.path[0] + "/../second")

import second


def vectors():
    for label, data in (("nothing", b""), ("a", b"a"), ("foobar", b"foobar")):
        yield f"fnv1a64 of {label} {second.fnv1a64(data):016x}"
    for label, data in (
        ("123456789", b"123456789"),
        ("32 zeros", bytes(32)),
        ("32 bytes of ones", b"\xff" * 32),
        ("0 to 31", bytes(range(32))),
        ("31 to 0", bytes(range(31, -1, -1))),
    ):
        yield f"crc32c of {label} {second.crc32c_bitwise(data):08x}"


LARGE = second.Options(12, 20, 512, 1, 0, 2)
SMALL = second.Options(1, 0, 3, 1, 0, 2)


def lengths():
    buffer = bytearray(45313)
    second.create(buffer, LARGE)
    for length in (45311, 45312, 45313):
        yield f"length {length} answers {second.open_check(buffer[:length], LARGE).answer}"
    image = buffer[:45312]
    yield f"a key of 11 bytes answers {second.lookup(image, LARGE, b'SENSOR-0001').answer}"
    yield f"a key of 12 bytes answers {second.lookup(image, LARGE, b'SENSOR-00012').answer}"


def record(meta, key):
    return bytes([meta, *bytes(7), key, *bytes(15)])


def begun():
    image = bytearray(456)
    second.create(image, SMALL)
    second.begin(image, SMALL)
    return image


def rebuild():
    image = begun()
    for meta in (1, 0):
        for key in b"abc":
            second.commit(image, SMALL, record(meta, key))
            yield f"tombstones {second.full_check(image, SMALL).tombstones}"


def no_slot():
    image = begun()
    yield f"put then delete answers {second.commit(image, SMALL, record(1, ord('a')) + record(0, ord('a')))}"
    yield f"slots taken {second.field(image, 'slot_highwater')}"


if __name__ == "__main__":
    for lines in (vectors(), lengths(), rebuild(), no_slot()):
        for line in lines:
            print(line)
