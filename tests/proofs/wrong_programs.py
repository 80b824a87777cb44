"""The wrong programs of crates/*/must-fail. An edit file may hold several; each has a line that names it and says where it is
refused, and then its edits:

    wrong: NAME in FUNCTION          a function of src/, by its path in the crate: select::write_wanted
    wrong: NAME at DECLARATION       of specs/: a law or a statement that no longer holds
"""

import os
import re
from collections import namedtuple

ROOT = os.path.abspath(os.path.join(os.path.dirname(__file__), "..", ".."))

# edits: (file, old text, new text), in this order
Wrong = namedtuple("Wrong", "crate edit name kind where edits")


def in_header(pattern):
    with open(os.path.join(ROOT, "include", "slc1.h")) as header:
        return set(re.findall(pattern, header.read(), re.M))


def calls():
    """The functions that slc1.h declares: those of the library."""
    return in_header(r"^\w+ (slc1_\w+)\(")


def helpers():
    """Those that it defines itself."""
    return in_header(r"^static inline .*?(slc1_\w+)\(")


def crates():
    return sorted(os.listdir(os.path.join(ROOT, "crates")))


def wrong_programs():
    """In the order of the files. Lines that stand together share the edits behind them."""
    for crate in crates():
        folder = os.path.join(ROOT, "crates", crate, "must-fail")
        for name in sorted(os.listdir(folder)) if os.path.isdir(folder) else []:
            with open(os.path.join(folder, name)) as lines:
                yield from wrong_programs_of(crate, name.removesuffix(".edit"), lines.read().split("\n"))


def wrong_programs_of(crate, edit, lines):
    heads, edits, file, old = [], [], None, None
    for line in [*lines, "wrong: "]:
        if line.startswith("wrong: "):
            if edits or line == "wrong: ":
                yield from (Wrong(crate, edit, *head, edits) for head in heads)
                heads, edits = [], []
            heads.append(line.split()[1:])
        elif line.startswith("file: "):
            file = line.removeprefix("file: ").strip()
        elif line.startswith("old: "):
            old = line.removeprefix("old: ")
        elif line.startswith("new:"):
            edits.append((file, old, line.removeprefix("new:").removeprefix(" ")))
