"""The two comparisons of keys by themselves, same_bytes and comes_before of the crate numbers, compiled for this machine: every
length from 0 to 72, every place of a difference, slices that begin anywhere. What is right is what Python says of the bytes.

usage: keys.py [REVISION]     with a revision: tests that one's too, and times both in one process
"""

import ctypes
import os
import random
import shutil
import subprocess
import sys
import tempfile

ROOT = os.path.abspath(os.path.join(os.path.dirname(__file__), "..", ".."))
LONGEST = 72

EXPORTS = """// The comparisons of keys, for C.
#![tactic(auto)]
use numbers::parts::comes_before;
use numbers::parts::same_bytes;

#[unsafe(no_mangle)]
pub extern "C" fn keys_same(a: &[u8], b: &[u8]) -> bool {
    same_bytes(a, b)
}

#[unsafe(no_mangle)]
pub extern "C" fn keys_before(a: &[u8], b: &[u8]) -> bool {
    comes_before(a, b)
}
"""


def run(*words, folder=ROOT):
    made = subprocess.run(words, cwd=folder, stdout=subprocess.PIPE, stderr=subprocess.STDOUT)
    if made.returncode:
        sys.exit(made.stdout.decode(errors="replace") + f"{' '.join(words)} failed in {folder}")
    return made.stdout


def write(path, text):
    os.makedirs(os.path.dirname(path), exist_ok=True)
    with open(path, "w") as file:
        file.write(text)


def built(revision):
    """The comparisons of a revision that this toolchain proves, or of the tree as it is, as a shared object: proved and compiled in a
    repository of their own, which rt wants outside this one."""
    made = os.path.join(ROOT, "target", "keys", f"lib{revision or 'tree'}.so")
    os.makedirs(os.path.dirname(made), exist_ok=True)
    with tempfile.TemporaryDirectory(prefix="slc1-keys-") as folder:
        write(os.path.join(folder, "crates.txt"), "numbers:\nkeys staticlib: numbers\n")
        write(os.path.join(folder, "crates", "keys", "src", "lib.rt"), EXPORTS)
        if revision:
            run("git", "archive", "-o", os.path.join(folder, "numbers.tar"), revision, "crates/numbers")
            run("tar", "-xf", "numbers.tar", folder=folder)
        else:
            sources = shutil.ignore_patterns("out")
            shutil.copytree(os.path.join(ROOT, "crates", "numbers"), os.path.join(folder, "crates", "numbers"), ignore=sources)
        run(os.path.join(ROOT, "tools", "archive"), "keys", folder=folder)
        run("gcc", "-shared", "-o", made, "-Wl,--whole-archive", "target/native/libkeys.a", "-Wl,--no-whole-archive", folder=folder)
    return made


class Keys:
    def __init__(self, path):
        library = ctypes.CDLL(path)
        self.random, self.pairs = random.Random(1), 0
        self.same, self.before = library.keys_same, library.keys_before
        for function in (self.same, self.before):
            function.restype, function.argtypes = ctypes.c_bool, (ctypes.c_void_p, ctypes.c_size_t) * 2

    def lent(self, key):
        """A key as a pointer and a length; it begins anywhere in a word, and other bytes stand before and behind it."""
        start = self.random.randrange(8)
        room = self.random.randbytes(start) + key + self.random.randbytes(8)
        return ctypes.byref((ctypes.c_char * len(room)).from_buffer_copy(room), start), len(key)

    def compare(self, a, b):
        for one, other in ((a, b), (b, a)):
            told = self.same(*self.lent(one), *self.lent(other)), self.before(*self.lent(one), *self.lent(other))
            if told != (one == other, one < other):
                sys.exit(f"same, before of {one.hex()} and {other.hex()}: {told}")
            self.pairs += 1

    def compare_all(self):
        for length in range(LONGEST + 1):
            key = self.random.randbytes(length)
            self.compare(key, key)
            for at in range(length):
                for bit in range(8):
                    self.compare(key, key[:at] + bytes([key[at] ^ 1 << bit]) + key[at + 1:])
                self.compare(key, key[:at] + self.random.randbytes(length - at))
                self.compare(key, key[:at])
                self.compare(key, key[:at] + self.random.randbytes(self.random.randrange(LONGEST + 1 - at)))


def main():
    revisions = [None, *sys.argv[1:2]]
    libraries = [built(revision) for revision in revisions]
    for library in libraries:
        keys = Keys(library)
        keys.compare_all()
        print(f"{keys.pairs} pairs of keys of 0 to {LONGEST} bytes are compared rightly ({os.path.relpath(library, ROOT)})")
    # built in any case, so that a change that breaks it is noticed
    timer = os.path.join(ROOT, "target", "keys", "timer")
    run("gcc", "-std=gnu11", "-Wall", "-Wextra", "-Werror", "-O2", os.path.join(ROOT, "tests", "library", "keys_time.c"), "-o", timer)
    if len(libraries) > 1:
        print(run(timer, *libraries).decode(), end="")


if __name__ == "__main__":
    main()
