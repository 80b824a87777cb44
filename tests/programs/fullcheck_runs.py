"""Runs the program fullcheck on images of the bench's shape, and compares what it prints with the second program.

usage: fullcheck_runs.py [--write]     after `rt ci`, which builds the program; where it is not built, `rt run` builds it
  The stored run, crates/fullcheck/stdin and stdout, is made again and compared as well; --write writes it and runs nothing.
"""

import os
import random
import subprocess
import sys
import time

sys.path.append(sys.path[0] + "/../second")

import second
from images import Images, fresh

ROOT = os.path.abspath(os.path.join(os.path.dirname(__file__), "..", ".."))
STORED = os.path.join(ROOT, "crates", "fullcheck")
BENCH = second.Options(12, 20, 512, 1, 0, 2)


def used(buckets=None):
    """An image with live and deleted slots, and with tombstones that no rebuild has cleared."""
    images = Images(random.Random(1))
    keys = [images.random.randbytes(12) for _ in range(400)]
    image = fresh(BENCH, buckets)
    assert second.begin(image, BENCH) == 0
    for start in range(0, len(keys), 50):
        puts = b"".join(images.record(BENCH, key, put=True) for key in keys[start:start + 50])
        deleted = images.random.sample(keys[:start + 50], 14)
        deletes = b"".join(images.record(BENCH, key, put=False) for key in deleted)
        assert second.commit(image, BENCH, puts) == 0
        assert second.commit(image, BENCH, deletes) == 0
    assert second.checkpoint(image, BENCH) == 0
    checked = second.full_check(image, BENCH)
    assert checked.answer == 0 and checked.live > 0 and checked.tombstones > 0
    return image


def damaged(image):
    """The image with the bucket of a live slot emptied."""
    image = bytearray(image)
    table = second.Table(image, BENCH)
    number = next(number for number, bucket in enumerate(table.buckets()) if second.is_full(bucket))
    table.write_bucket(number, 0, second.EMPTY)
    return image


def inputs():
    image = used()
    yield "a used image", image
    yield "a damaged image", damaged(image)
    for buckets in (512, 1024, 2048, 4096):
        yield f"a fresh image of {buckets} buckets", fresh(BENCH, buckets)
    yield "a used image of 2048 buckets", used(2048)
    yield "a damaged image of 2048 buckets", damaged(used(2048))
    for length in (0, 100, 45311, 45312, 45313, 65536, 65537):
        yield f"{length} bytes of two images, one behind the other", (image + image)[:length]


def programs():
    """The program as each of the toolchain's two compilers builds it, where rt ci has left them."""
    made = [os.path.join(STORED, "out", "fullcheck" + end) for end in ("", ".by-rattle")]
    if not os.path.exists(made[0]):
        with open(os.path.join(STORED, "stdin"), "rb") as file:
            subprocess.run(["rt", "run"], cwd=STORED, stdin=file, stdout=subprocess.DEVNULL, check=True)
    return made[:1] + [program for program in made[1:] if os.path.exists(program)]


def in_pieces(program, image):
    """What a program writes where its input comes through a pipe in pieces, so that a read gives less than there is room for."""
    with subprocess.Popen([program], bufsize=0, stdin=subprocess.PIPE, stdout=subprocess.PIPE) as running:
        try:
            for start in range(0, len(image), 10000):
                running.stdin.write(image[start:start + 10000])
                time.sleep(0.01)
        except BrokenPipeError:
            pass  # it has seen that the input is longer than it holds
        wrote = running.communicate()[0]
    if running.returncode != 0:
        sys.exit(f"in pieces: {os.path.basename(program)} ended with {running.returncode}")
    return wrote


def failing(program):
    """Where a read or a write fails, the program says so and ends with 1: it answers nothing."""
    folder, full = os.open(ROOT, os.O_RDONLY), os.open("/dev/full", os.O_WRONLY)
    for label, streams in (
        ("standard input is a folder", {"stdin": folder, "stdout": subprocess.PIPE}),
        ("standard output is full", {"stdin": subprocess.DEVNULL, "stdout": full}),
    ):
        ended = subprocess.run([program], stderr=subprocess.PIPE, **streams)
        if ended.returncode != 1 or ended.stdout or not ended.stderr:
            sys.exit(f"{label}: {os.path.basename(program)} ended with {ended.returncode} and wrote {ended.stdout}")


def stored():
    image = bytes(used())
    return {"stdin": image, "stdout": second.fullcheck_program(image)}


def main():
    for name, wanted in stored().items():
        path = os.path.join(STORED, name)
        if sys.argv[1:] == ["--write"]:
            with open(path, "wb") as file:
                file.write(wanted)
        else:
            with open(path, "rb") as file:
                if file.read() != wanted:
                    sys.exit(f"crates/fullcheck/{name} is not what this script makes")
    if sys.argv[1:] == ["--write"]:
        return
    runs, built = 0, programs()
    for label, image in inputs():
        image = bytes(image)
        wanted = second.fullcheck_program(image)
        for program in built:
            whole = subprocess.run([program], input=image, stdout=subprocess.PIPE, check=True).stdout
            for wrote in (whole, in_pieces(program, image)):
                if wrote != wanted:
                    sys.exit(f"{label}: {os.path.basename(program)} wrote {wrote}, and the second program {wanted}")
                runs += 1
    for program in built:
        failing(program)
    print(f"{runs} runs of fullcheck, and its stored run, agree with the second program; where a read or a write fails, it ends with 1")


if __name__ == "__main__":
    main()
