"""docs/promises.md and docs/audit.md against the tree: every file and wrong program that they name is there, every definition
stands in a file beside it; promises.md names every wrong program and every function of slc1.h, and audit.md every experiment; and
no public function lacks its statement in the demands."""

import collections
import os
import re
import sys

sys.path.append(sys.path[0] + "/../proofs")

from wrong_programs import ROOT, calls, crates, helpers, wrong_programs

OUTSIDE = ("crates/", "tests/", "tools/", "examples/", "docs/", "include/", "speed/", "target/", ".ci/", "crates.txt")


def read(path):
    with open(os.path.join(ROOT, path)) as file:
        return file.read()


def names(cell):
    return re.findall(r"`([^`]+)`", cell)


def rows(text):
    """Each row of a table of three columns, its last column's heading before it."""
    heading = None
    for line in text.splitlines():
        cells = [cell.strip() for cell in line.strip("|").split(" | ")] if line.startswith("| ") else []
        if len(cells) != 3:
            heading = heading if line.startswith("|-") else None
        elif heading is None:
            heading = cells[2]
        else:
            yield heading, cells


def files(named):
    """The files of a cell's or a paragraph's names; one without a folder stands in the folder of the one before it."""
    folder = ""
    for name in named:
        path = name if name.startswith(OUTSIDE) else "crates/" + name if "/" in name else f"{folder}/{name}"
        folder = os.path.dirname(path)
        yield path


def wrong_names(cell, paths):
    beside = "".join(read(path) for path in paths)
    for name in names(cell):
        if not re.search(rf"(?<![\w-]){re.escape(name)}(?![\w-])", beside) and name not in (os.path.basename(p) for p in paths):
            yield f"{name} does not stand in {', '.join(paths)}"


def table_complaints(text, known, tried):
    """tried: for each call of slc1.h, its wrong programs."""
    for heading, (first, second, third) in rows(text):
        if heading == "file" and third:
            paths = list(files(names(third)))
            missing = [path for path in paths if not os.path.exists(os.path.join(ROOT, path))]
            yield from (f"{path} is not there" for path in missing)
            if not missing:
                yield from wrong_names(second, paths)
        if "wrong programs" in heading:
            yield from (f"{name} is no wrong program" for name in names(third) if name not in known)
            for call in tried.keys() & set(names(first)):
                yield from (f"{name} is not tried in {call}" for name in names(third) if name not in tried[call])


def unstated():
    """The public functions of the crates below host that neither Calls nor Outcomes speaks of."""
    statements = read("crates/demands/specs/Calls.antt") + read("crates/demands/specs/Outcomes.antt")
    stated = set(re.findall(r"^use Rattle\.(\w+)\.proofs\.(\w+)\.(\w+)(?:\.Reads|\.Symbol)? as ", statements, re.M))
    for crate in crates():
        root = f"crates/{crate}/src/lib.rt"
        below = crate != "host" and os.path.exists(os.path.join(ROOT, root))
        for module in re.findall(r"^pub mod (\w+);", read(root), re.M) if below else []:
            for function in re.findall(r"^pub fn (\w+)", read(f"crates/{crate}/src/{module}.rt"), re.M):
                if (crate, module, function) not in stated:
                    yield f"{crate}::{module}::{function} is not in demands/specs/Outcomes.antt"


def complaints():
    known = {wrong.name for wrong in wrong_programs()}
    tried = collections.defaultdict(set)
    for wrong in wrong_programs():
        if wrong.crate == "host":
            tried[wrong.where.split("::")[-1]].add(wrong.name)
    promises, audit = read("docs/promises.md"), read("docs/audit.md")
    named = set(names(promises))
    experiments = set(re.findall(r'^    "(\w+)": Experiment', read("tests/proofs/experiments.py"), re.M))
    yield from (f"docs/promises.md does not name {name}" for name in sorted((known | calls() | helpers()) - named))
    yield from (f"docs/audit.md does not name {name}" for name in sorted(experiments - set(names(audit))))
    for file, text in (("docs/promises.md", promises), ("docs/audit.md", audit)):
        yield from (f"{file}: {said}" for said in table_complaints(text, known | set(crates()), tried))
    yield from unstated()


if __name__ == "__main__":
    found = list(complaints())
    for complaint in found:
        print(complaint)
    if found:
        sys.exit(1)
    print("docs/promises.md and docs/audit.md name what is there, and promises.md every wrong program")
