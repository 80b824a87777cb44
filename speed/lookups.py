"""Lookups by the second program, for speed/second.rs: images that histories left, damaged on purpose, and keys.

usage: speed/lookups.py FILE
"""

import os
import random
import sys
from struct import pack

sys.path.append(os.path.join(os.path.dirname(os.path.abspath(__file__)), "..", "tests", "second"))

import second
from images import Images

IMAGES, KEYS = 2000, 4


def counted(data):
    return pack("<Q", len(data)) + data


def case(images):
    """An image under options that it was made with or others, and what is found of some keys."""
    made = images.options()
    image, o = bytes(images.image(made)), images.asked(made)
    keys = [images.key(made) for _ in range(KEYS)]
    keys += [keys[0][:-1], keys[0] + b"\0"]
    found = (second.lookup(image, o, key) for key in keys)
    answers = (pack("<QQqQ", each.answer, each.slot, each.revision, each.buckets) for each in found)
    return pack("<6Q", *o) + counted(image) + pack("<Q", len(keys)) + b"".join(map(bytes.__add__, map(counted, keys), answers))


def main(path):
    images = Images(random.Random(1))
    with open(path, "wb") as file:
        for _ in range(IMAGES):
            file.write(case(images))


if __name__ == "__main__":
    if len(sys.argv) != 2:
        sys.exit(__doc__.split("\n\n")[1].rstrip())
    main(sys.argv[1])
