"""Recomputes the numbers of docs/format.md by the second program and by the library, and compares them with the page.

The page's fenced blocks are drawn up again from what stands in them: the options, the serials and the commands.
"""

import os
import re
import sys

sys.path.append(sys.path[0] + "/../second")

import native
import second

PAGE = os.path.abspath(os.path.join(os.path.dirname(__file__), "..", "..", "docs", "format.md"))
BENCH = second.Options(12, 20, 512, 1, 0, 2)


def blocks(page):
    """The page's fenced blocks by name."""
    return dict(re.findall(r"^```text (\w+)\n(.*?)^```$", page, re.M | re.S))


def total_size(program, o):
    return native.places(o, 0)[0] if program is native else second.total_size(o)


def fresh(program, o):
    image = bytearray(total_size(program, o))
    assert program.create(image, o) == 0
    return image


def equation(name, expression, value):
    if eval(expression.replace(",", "").replace("x", "*")) != value:
        sys.exit(f"{name}: {expression} is not {value}")
    return f"{name:<16}{expression} = {value:,}"


def sizes(program, block):
    image, o = fresh(program, BENCH), BENCH
    slot, count, offset = (second.field(image, name) for name in ("slot_size", "bucket_count", "buckets_offset"))
    key, index = second.to_multiple_of_8(o.key_size), second.to_multiple_of_8(o.index_size)
    yield f"key_size {o.key_size}, index_size {o.index_size}, slot_capacity {o.slot_capacity}"
    yield ""
    yield equation("slot_size", f"8 + {key} + 8 + {index}", slot)
    yield equation("bucket_count", f"2 x {o.slot_capacity}", count) + ", a power of two"
    yield equation("buckets_offset", f"256 + {o.slot_capacity} x {slot}", offset)
    yield equation("total size", f"{offset:,} + 16 x {count:,}", len(image))


def largest(program, block):
    limit = BENCH._replace(slot_capacity=second.CAPACITY_LIMIT)
    yield f"slot_capacity {limit.slot_capacity:,}, bucket_count {second.bucket_count(limit):,}"
    yield ""
    for key, index in ((BENCH.key_size, BENCH.index_size), (64, 256)):
        total = total_size(program, limit._replace(key_size=key, index_size=index))
        yield f"key_size {key}, index_size {index}: total size {total:,}"
    yield ""
    # with the most buckets, which create does not make
    total += 16 * (second.BUCKET_LIMIT - second.bucket_count(limit))
    yield f"with bucket_count {second.BUCKET_LIMIT:,}: total size {total:,}"


def digests(program, block):
    header = fresh(program, BENCH)
    yield f"FNV-1a of nothing        {program.fnv1a64(b''):016x}"
    yield f'FNV-1a of "foobar"       {program.fnv1a64(b"foobar"):016x}'
    yield f'CRC32-C of "123456789"   {program.crc32c(b"123456789"):08x}'
    yield f"CRC32-C of that header   {second.field(header, 'header_crc32c'):08x}"


class Example:
    """The example's image, worked on by one of the programs."""

    def __init__(self, program, o):
        self.program, self.o, self.image = program, o, fresh(program, o)
        self.bucket_count = second.field(self.image, "bucket_count")
        assert program.begin(self.image, o) == 0

    def home(self, key):
        return self.program.fnv1a64(key) % self.bucket_count

    def commit(self, keys, meta):
        batch = b"".join(bytes([meta]).ljust(8, b"\0") + key.ljust(second.slot_size(self.o) - 8, b"\0") for key in keys)
        answer = self.program.commit(self.image, self.o, batch)
        yield f"answer {answer}"
        if answer == 0:
            yield from self.buckets()

    def buckets(self):
        """Two lines: the numbers of the buckets, and what each holds."""
        words = {second.EMPTY: "EMPTY", second.TOMBSTONE: "TOMBSTONE"}
        held = [words.get(plus1, f"slot {plus1 - 1}") for _, plus1 in second.Table(self.image, self.o).buckets()]
        yield "  bucket  " + "".join(f"{number:<10}" for number in range(self.bucket_count)).rstrip()
        yield "          " + "".join(f"{word:<10}" for word in held).rstrip()

    def lookup(self, key):
        found = self.program.lookup(self.image, self.o, key)
        examined = [(self.home(key) + passed) % self.bucket_count for passed in range(found.buckets)]
        slot = f", slot {found.slot}" if found.answer == 0 else ""
        yield f"examines {' '.join(map(str, examined))}, count {found.buckets}, answer {found.answer}{slot}"

    def full_check(self):
        yield "answer {}, live {}, tombstones {}, probes {}".format(*self.program.full_check(self.image, self.o))

    def outcome(self, command):
        keys = [key.encode() for key in re.findall(r"\S{12}\b", command)]
        verb = command.split()[0]
        if verb == "full":
            return self.full_check()
        return self.lookup(*keys) if verb == "lookup" else self.commit(keys, int(verb == "put"))


def example(program, block):
    """The block's serials and commands, with what follows from them."""
    first, *lines = block.splitlines()
    o = second.Options(*map(int, re.findall(r"\d+", first)[:3]), 1, 0, 2)
    work = Example(program, o)
    yield f"{first.split(':')[0]}: B {work.bucket_count}"
    for line in lines:
        command, told, _ = line.partition(":")
        if told:
            answer, *rest = work.outcome(command)
            yield from (f"{command}: {answer}", *rest)
        elif re.match(r"\S{12} ", line):
            key = line[:12]
            yield f"{key}  {program.fnv1a64(key.encode()):016x}  {work.home(key.encode())}"
        elif not line.startswith("  "):
            yield line


def table_of_fields(page):
    """The number of rows in the page's table of fields, which is the second program's."""
    rows = re.findall(r"^\| 0x(..) \| (\d+) \| (\w+) \|", page, re.M)
    if [(name, (int(at, 16), int(width))) for at, width, name in rows] != list(second.FIELDS.items()):
        sys.exit("docs/format.md: the table of fields is not the second program's")
    return len(rows)


def main():
    with open(PAGE, encoding="utf-8") as file:
        page = file.read()
    stands, lines = blocks(page), 0
    for name, drawn_up in (("sizes", sizes), ("largest", largest), ("digests", digests), ("example", example)):
        if name not in stands:
            sys.exit(f"docs/format.md has no block {name}")
        for program in (second, native):
            wanted = "\n".join(drawn_up(program, stands[name])) + "\n"
            if stands[name] != wanted:
                sys.exit(f"docs/format.md: by {program.__name__}.py the block {name} is\n\n{wanted}")
        lines += len(stands[name].splitlines())
    print(f"{table_of_fields(page)} fields and {lines} lines of docs/format.md agree with the second program and the library")


if __name__ == "__main__":
    main()
