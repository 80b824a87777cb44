"""docs/architecture.md against the tree: every path that it names is there, and every function and law that it names with a file
is declared in it."""

import glob
import os
import re
import sys

from promises import ROOT, files, names, read

PAGE = "docs/architecture.md"
# how a call travels, function by function
WAY = re.compile(r"^```\w*\n(.*?)^```$", re.M | re.S)


def paths(part):
    """What a paragraph or a row names as paths. One that begins inside a crate, such as specs/Lib.antt, is of any crate."""
    words = [word for name in names(part) for word in name.split() if re.search(r"/|\w\.\w+$", word)]
    return files(re.sub(r"^(specs|src|proofs|must-fail)/", r"crates/*/\1/", word) for word in words)


def steps(way):
    """The functions of each line, and their file: where none is given, that of the line above. Remarks are in parentheses."""
    file = "crates/"
    for line in way.splitlines():
        functions, *rest = re.split(r"  +", line.strip())
        file = next(("crates/" + word for word in rest if word.endswith(".rt")), file)
        yield [] if functions.startswith("(") else re.split(r", | or ", functions), file


def placed(part):
    """The names that are said to be in a file or below a folder: `name`, `name` in `path`, or `name` (`path`)."""
    for run, path in re.findall(r"((?:`[\w-]+`,?\s+)+)(?:in\s+|\()(`[^`]*[/.][^`]*`)", part):
        yield from ((names(run), file) for file in paths(path))


def there(path):
    return glob.glob(os.path.join(ROOT, path), recursive=True)


def declared(name, path):
    kind = "fn" if path.endswith(".rt") else "(?:pub|record)"
    below = there(path if path.endswith((".rt", ".antt")) else path + "/**/*.antt")
    return any(re.search(rf"\b{kind} {re.escape(name)}(?![\w-])", read(file)) for file in below)


def main():
    text = read(PAGE)
    parts = re.split(r"\n\n|\n(?=\|)", WAY.sub("", text))
    held = [*(step for way in WAY.findall(text) for step in steps(way)), *(pair for part in parts for pair in placed(part))]
    links = {"docs/" + link for link in re.findall(r"\]\(([^)]+)\)", text)}
    named = links | {path for part in parts for path in paths(part)} | {path for _, path in held}
    # what is below target/ is made by the tools
    gone = {path for path in named if not path.startswith("target/") and not there(path)}
    found = {(name, path) for several, path in held for name in several if path not in gone}
    wrong = {(name, path) for name, path in found if not declared(name, path)}
    for path in sorted(gone):
        print(f"{PAGE} names {path}, which is not there: name what took its place")
    for name, path in sorted(wrong):
        print(f"{PAGE} has {name} in {path}, which does not declare it: give its name and its file as they are now")
    if gone or wrong:
        sys.exit(1)
    print(f"{PAGE}: {len(named)} paths are there, and declare {len(found)} functions and laws that it has in them")


if __name__ == "__main__":
    main()
