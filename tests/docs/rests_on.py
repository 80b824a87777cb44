"""What the demands rest on: the definitions that their statements name, those that these name, and so on. README says how many
lines that are, and docs/architecture.md names the other files of specs/.

usage: rests_on.py
"""

import os
import re
import sys

ROOT = os.path.abspath(os.path.join(os.path.dirname(__file__), "..", ".."))
CRATES = os.path.join(ROOT, "crates")

# where a reader begins
STATEMENTS = ("Demand1", "Demand2", "Demand3", "Examples", "WholeLength", "ExactLength", "ForeignShapes", "OneProbe", "Calls", "Exports")

NAMED = re.compile(r"^use Rattle\.(\w+)\.specs\.(\w+)", re.M)


def text(*path):
    with open(os.path.join(ROOT, *path)) as file:
        return file.read()


def all_files():
    for crate in os.listdir(CRATES):
        folder = os.path.join(CRATES, crate, "specs")
        for file in os.listdir(folder) if os.path.isdir(folder) else []:
            if file != "Lib.antt":
                yield crate + "/specs/" + file


def rested_on():
    there, reached = set(all_files()), set()
    todo = ["demands/specs/%s.antt" % name for name in STATEMENTS]
    while todo:
        file = todo.pop()
        if file in there and file not in reached:
            reached.add(file)
            todo += ["%s/specs/%s.antt" % named for named in NAMED.findall(text("crates", file))]
    return reached


def lines(files):
    return sum(len(text("crates", file).splitlines()) for file in files)


def main():
    reached = rested_on()
    statements = {file for file in reached if file.startswith("demands/")}
    definitions = reached - statements
    says = ("The statements are {:,} lines in {} files of [crates/demands/specs](crates/demands/specs), and rest on {:,} lines of "
            "definitions in {} files.").format(lines(statements), len(statements), lines(definitions), len(definitions))
    wrong = []
    if says not in " ".join(text("README.md").split()):
        wrong.append("README.md does not say: " + says)

    page = text("docs", "architecture.md")
    table = page[page.index("### What a reader believes"):].split("\n#")[0]
    kept = set()
    for row in re.findall(r"^\| (`.*?) \|", table, re.M):
        folder = ""
        for path in re.findall(r"`([^`]+)`", row):
            folder = path.rpartition("/")[0] or folder
            kept.add(folder + "/" + path.rpartition("/")[2])
    inside = set(all_files()) - reached
    wrong += ["docs/architecture.md names %s, on which the demands rest: take it out of the table" % file for file in sorted(kept & reached)]
    wrong += ["docs/architecture.md does not name %s, on which no demand rests: say what it serves" % file for file in sorted(inside - kept)]
    wrong += ["docs/architecture.md names %s, which is not there" % file for file in sorted(kept - inside - reached)]
    for line in wrong:
        print(line)
    if wrong:
        sys.exit(1)
    print("The demands rest on %d lines in %d files; the other %d files of specs/ are named." % (lines(reached), len(reached), len(inside)))


if __name__ == "__main__":
    main()
