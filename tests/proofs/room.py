"""Copies of crates in which something is wrong on purpose, and what `rt check` says of them. A copy stands outside the checkout, and
rt begins there with what the checkout's own checks kept, so that only what an edit touches is proved again."""

import os
import re
import shutil
import subprocess

from wrong_programs import ROOT

LINE = re.compile(r"^(\w+)(?: staticlib)?:(.*)$", re.M)
PARTS = ("src", "specs", "proofs")


def lines_of_crates():
    """Each crate's line of crates.txt, lowest first, and the crates of the repository that it names."""
    with open(os.path.join(ROOT, "crates.txt")) as lines:
        found = {line.group(1): (line.group(), line.group(2).split()) for line in LINE.finditer(lines.read())}
    return {name: (line, [lower for lower in named if lower in found]) for name, (line, named) in found.items()}


def below(crate):
    """A crate, and those that it is built over."""
    lines, found, todo = lines_of_crates(), set(), [crate]
    while todo:
        name = todo.pop()
        found.add(name)
        todo += set(lines[name][1]) - found
    return found


class Room:
    """A repository of a crate and those below it, as they are in the checkout."""

    def __init__(self, folder, crate):
        self.folder, self.crate, self.were = os.path.join(folder, crate), crate, {}
        crates = below(crate)
        os.makedirs(self.folder)
        with open(os.path.join(self.folder, "crates.txt"), "w") as lines:
            lines.write("".join(line + "\n" for name, (line, _) in lines_of_crates().items() if name in crates))
        for name in crates:
            for part in PARTS:
                source = os.path.join(ROOT, "crates", name, part)
                if os.path.isdir(source):
                    shutil.copytree(source, os.path.join(self.folder, "crates", name, part))

    def change(self, file, old, new, once=True):
        """Puts a new text in the place of an old one in a file below crates/; whether it stands there, and once only if so is asked."""
        before = self.read(file)
        if old not in before or once and before.count(old) != 1:
            return False
        self.write(file, before.replace(old, new))
        return True

    def read(self, file):
        """A file below crates/, nothing where there is none."""
        path = os.path.join(self.folder, "crates", file)
        if not os.path.exists(path):
            return ""
        with open(path) as text:
            return text.read()

    def write(self, file, text):
        self.were.setdefault(file, self.read(file))
        path = os.path.join(self.folder, "crates", file)
        os.makedirs(os.path.dirname(path), exist_ok=True)
        with open(path, "w") as out:
            out.write(text)

    def restore(self):
        for file, before in list(self.were.items()):
            self.write(file, before)
            if not before:
                path = os.path.join(self.folder, "crates", file)
                os.remove(path)
                if not os.listdir(os.path.dirname(path)):
                    os.rmdir(os.path.dirname(path))
        self.were.clear()

    def check(self, *words):
        """What `rt check` of the crate says, and its status."""
        run = subprocess.run(["rt", "check", *words], cwd=os.path.join(self.folder, "crates", self.crate), stdin=subprocess.DEVNULL,
                             stdout=subprocess.PIPE, stderr=subprocess.STDOUT, text=True, errors="replace")
        return run.stdout, run.returncode
