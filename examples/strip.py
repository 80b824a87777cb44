#!/usr/bin/env python3
"""Draws the buckets of an SLC1 image as a strip, by how far each key stands from its home bucket.

usage: examples/strip.py FILE > strip.svg
  FILE has at most 8,192 buckets, as bench makes for 4,096 slots: more would be too many to look at.
"""

import sys
from struct import iter_unpack, unpack_from

HEADER_SIZE = 256
EMPTY, TOMBSTONE = 0, 2**64 - 1
MOST_BUCKETS = 8192

# FULL buckets by distance from home: the least distance, a fill that is darker the farther, words.
DISTANCES = [
    (0, "#b7dcea", "at home"),
    (1, "#7fbcdb", "1 on"),
    (2, "#4a97c9", "2 on"),
    (3, "#2c6fae", "3 on"),
    (4, "#23488c", "4 to 7 on"),
    (8, "#2b1f5c", "8 or more"),
]
CELL, APART, LEFT, MARGIN, COLUMN = 11, 2, 64, 24, 104
STYLE = """<style>
text { font: 12px system-ui, -apple-system, "Segoe UI", "DejaVu Sans", sans-serif; fill: #1f2430 }
.head { font-size: 15px; font-weight: bold }
.quiet { fill: #667085 }
.number { font: 10px ui-monospace, SFMono-Regular, Menlo, Consolas, "DejaVu Sans Mono", monospace; fill: #667085; text-anchor: end }
</style>"""


def buckets_in(image):
    """The buckets as pairs of hash64 and slot_plus1, or a sentence that says why there are none."""
    if len(image) < HEADER_SIZE:
        return f"is no SLC1 image: it has {len(image)} bytes, and a header has {HEADER_SIZE}"
    if image[:4] != b"SLC1" or unpack_from("<II", image, 4) != (1, HEADER_SIZE):
        return "is no SLC1 image: magic, version or header_size is wrong"
    slots, count, offset = (unpack_from("<Q", image, at)[0] for at in (0x20, 0x48, 0x68))
    if count <= max(slots, 1) or count & (count - 1):
        wanted = f"a power of two above its slot_capacity, {slots}"
        return f"is no sound SLC1 image: its bucket_count is {count}, and not {wanted}"
    end = offset + 16 * count
    if len(image) != end:
        length = "short" if len(image) < end else "long"
        return f"is too {length}: its {count:,} buckets end at {end:,}, and it has {len(image):,} bytes"
    if count > MOST_BUCKETS:
        return f"has {count:,} buckets, and more than {MOST_BUCKETS:,} are not drawn: take a smaller cache"
    return list(iter_unpack("<QQ", image[offset:end]))


def kind_of(number, bucket, count):
    """EMPTY, TOMBSTONE, or the least distance of the class that a FULL bucket belongs to."""
    hash64, slot_plus1 = bucket
    if slot_plus1 == EMPTY:
        return "EMPTY"
    if slot_plus1 == TOMBSTONE:
        return "TOMBSTONE"
    away = (number - hash64) % count
    return max(least for least, _, _ in DISTANCES if least <= away)


def square(x, y):
    return f"M{x} {y}h{CELL}v{CELL}h-{CELL}z"


def cross(x, y):
    end = CELL - 6
    return f"M{x + 3} {y + 3}l{end} {end}m0 -{end}l-{end} {end}"


def shape(kind, places):
    """All buckets of a kind as one shape; a TOMBSTONE is crossed out, so that no one needs colours to tell it."""
    squares = "".join(square(x, y) for x, y in places)
    if kind == "EMPTY":
        return f'<path d="{squares}" fill="#f4f4ef" stroke="#d8d8d0"/>'
    if kind == "TOMBSTONE":
        crosses = "".join(cross(x, y) for x, y in places)
        return f'<path d="{squares}" fill="#f6d3ad"/><path d="{crosses}" fill="none" stroke="#8a3b12" stroke-width="1.5"/>'
    fill = next(fill for least, fill, _ in DISTANCES if least == kind)
    return f'<path d="{squares}" fill="{fill}"/>'


def legend(y, counts):
    """The kinds in a row, each with its words and, below, the number of its buckets."""
    yield f'<text x="{LEFT + COLUMN}" y="{y - 22}" class="quiet">FULL, by steps from the home bucket</text>'
    words = {"EMPTY": "EMPTY", **{least: words for least, _, words in DISTANCES}, "TOMBSTONE": "TOMBSTONE"}
    for number, kind in enumerate(words):
        x = LEFT + number * COLUMN
        yield shape(kind, [(x, y - 10)])
        yield f'<text x="{x + CELL + 7}" y="{y}">{words[kind]}</text>'
        yield f'<text x="{x + CELL + 7}" y="{y + 17}" class="quiet">{counts[kind]:,}</text>'


def rows_and_columns(count):
    columns = min(count, 64 if count <= 1024 else 128)
    return count // columns, columns


def drawn(buckets):
    count = len(buckets)
    rows, columns = rows_and_columns(count)
    step, top = CELL + APART, 56
    kinds = [kind_of(number, bucket, count) for number, bucket in enumerate(buckets)]
    counts = {kind: kinds.count(kind) for kind in ["EMPTY", "TOMBSTONE", *(least for least, _, _ in DISTANCES)]}
    full = count - counts["EMPTY"] - counts["TOMBSTONE"]
    title = f"{count:,} buckets: {full:,} FULL, {counts['TOMBSTONE']:,} TOMBSTONE, {counts['EMPTY']:,} EMPTY"
    width, height = LEFT + max(columns, 64) * step + MARGIN, top + rows * step + 84
    yield f'<svg xmlns="http://www.w3.org/2000/svg" viewBox="0 0 {width} {height}" width="{width}" height="{height}" role="img">'
    yield f"<title>{title}</title>"
    yield STYLE
    yield f'<rect width="{width}" height="{height}" rx="10" fill="#fcfcf9"/>'
    yield f'<text x="{LEFT}" y="34" class="head">{title}</text>'
    for row in range(rows):
        yield f'<text x="{LEFT - 10}" y="{top + row * step + 9}" class="number">{row * columns:,}</text>'
    for kind in counts:
        places = [(LEFT + n % columns * step, top + n // columns * step) for n in range(count) if kinds[n] == kind]
        if places:
            yield shape(kind, places)
    yield from legend(height - 38, counts)
    yield "</svg>"


def main(words):
    if len(words) != 1:
        sys.exit(__doc__.split("\n\n")[1].rstrip())
    try:
        with open(words[0], "rb") as file:
            buckets = buckets_in(file.read())
    except OSError as error:
        sys.exit(f"{words[0]} cannot be read: {error.strerror}")
    if isinstance(buckets, str):
        sys.exit(f"{words[0]} {buckets}")
    print("\n".join(drawn(buckets)))


if __name__ == "__main__":
    main(sys.argv[1:])
