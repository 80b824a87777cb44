"""README as it is read: the demo's output, what is shown after it, and the picture, each made again and compared; what the checks
before it printed of trust; and the toolchain that it names."""

import os
import re
import shlex
import subprocess
import sys

sys.path.append(sys.path[0] + "/../proofs")

from wrong_programs import ROOT, crates

WORK = os.path.join(ROOT, "target", "readme")


def blocks(kind):
    return re.findall(rf"^```{kind}\n(.*?)^```$", TEXT, re.M | re.S)


def block(kind, words):
    """The one block of a kind that has these words."""
    (found,) = [text for text in blocks(kind) if words in text]
    return found


def run(*words, **more):
    return subprocess.run(words, cwd=ROOT, stdout=subprocess.PIPE, text=True, check=True, **more).stdout


def typed(command):
    """What a command prints, and its exit status where that is not 0, as the demo shows it."""
    ran = subprocess.run(command, cwd=ROOT, shell=True, stdout=subprocess.PIPE, stderr=subprocess.STDOUT, text=True)
    return ran.stdout + (f"[exit status {ran.returncode}]\n" if ran.returncode else "")


def same(what, made, shown):
    if made != shown:
        sys.exit(f"README: {what} is not as shown\nmade:\n{made}\nshown:\n{shown}")


def read(*path):
    with open(os.path.join(ROOT, *path)) as file:
        return file.read()


def axioms(crate):
    """What a crate's check printed that it assumes, after the line that every check ends in."""
    said = read("target", "log", crate + ".say")
    if not re.search(rf"^logic=proved .* {re.escape(TRUSTED.strip())}$", said, re.M):
        sys.exit(f"README: the check of {crate} does not end in '{TRUSTED.strip()}'")
    return "".join(line + "\n" for line in said.splitlines() if line.startswith("axioms "))


def demo():
    """What the demo prints. It leaves a file of one's own alone."""
    own = os.path.join(ROOT, "target", "demo", "own")
    os.makedirs(os.path.dirname(own), exist_ok=True)
    with open(own, "w"):
        pass
    printed = run("examples/demo")
    if not os.path.exists(own):
        sys.exit("examples/demo: a file in target/demo that it did not make is gone")
    os.remove(own)
    return printed


def kit():
    """The kit that README says the library was proved with. That stays true under another kit, so this only tells of it."""
    here = run("rt", "version").strip()
    named = re.search(r"was\s+proved\s+with\s+`(rattle-kit-\S+ logic \w+)`", TEXT)
    if not named:
        sys.exit(f"README: it names no kit that this library was proved with, as 'rt version' does: {here}")
    return f"README's kit is {named[1]}" + ("" if here == named[1] else f"; the one here is {here}")


def save_first(folder):
    with open(os.path.join(folder, "first.c"), "w") as file:
        file.write(PROGRAM)


def on_first(path, commands):
    """README's commands on first.c and first, where these stand at another path."""
    return re.sub(r"(\./)?\bfirst\b", lambda _: shlex.quote(path), commands)


TEXT = read("README.md")
DEMO, FIRST = block("console", "$ bench "), block("console", "$ ./first ")
AFTER_DEMO = [text for text in blocks("console") if text != DEMO]
PROGRAM = block("c", "int main(")
TRUSTED, REACHED, ASSUMED = blocks("text")


def main():
    programs = ["fullcheck", "bench_examples"]
    libraries = sorted(set(crates()) - {*programs, "host_c"})
    same("what the programs assume", "".join(map(axioms, programs)), ASSUMED)
    same("what the libraries assume", "".join(map(axioms, libraries)), "")
    same("what the library for C assumes", axioms("host_c"), REACHED)

    same("the demo's output", demo(), DEMO)
    same("the picture of the demo's cache", read("target", "demo", "cache.svg"), read("docs", "cache.svg"))

    os.makedirs(WORK, exist_ok=True)
    save_first(WORK)
    for shown in AFTER_DEMO:
        commands = re.findall(r"^\$ (.*)$", shown, re.M)
        made = "".join(f"$ {command}\n" + typed(on_first(WORK + "/first", command)) for command in commands)
        same(f"'{commands[0]}'", made, shown)
    print(f"README's demo, {len(AFTER_DEMO)} blocks of commands after it, its picture and its words on trust are as shown")
    print(kit())


if __name__ == "__main__":
    main()
