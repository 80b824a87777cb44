"""Every wrong program of crates/*/must-fail is refused where it is wrong, and because a fact fails there: numbers at which it does not
hold, or two terms that differ. A rewrite that finds nothing, a tactic that gives up, or a proof that lost its shape shows nothing, nor
does a proof that names what the wrong program took away: such an edit has to name it anew in the proof. Those of a file are tried in
one copy of the crate; one that is not shown there, as what it rests on is wrong too, is tried by itself. Every call of slc1.h is
refused so under two wrong programs or more.

usage: refused.py [--say] [CRATE ...]     after `rt check` in each crate, so that only what is wrong is proved again
  --say prints, of each that is not refused so, all that the prover says against it
"""

import collections
import itertools
import re
import sys
import tempfile
from concurrent.futures import ThreadPoolExecutor

from room import Room
from wrong_programs import calls, wrong_programs

WORKERS = 3
# a refusal that shows a fact which fails, as the prover words it: omega's numbers, where two terms differ, or what computes to false
FACT = re.compile(
    r"the goal does not follow from what it read"
    r"|computed as far as they go, the two (types|sides|values) (are|differ only|first differ)"
    r"|as printed, the two (types|sides|values) (differ only|first differ)"
    r"|the two (types|sides|values) agree until one ends"
    r"|on the face `i = 1` this λ's body is"
    r"|expected type `⊥`, but this has type")
# a refusal that shows nothing, whatever else it says: a proof that lost its shape, or a prover that met a bound of its own
NOTHING = re.compile(
    r"no occurrence of the path's|no part of the goal|list the missing equation|broke off|stopped at"
    r"|could not be computed|took more than|are identical")
# a proof that names what is no longer there. The names of goals and of what is known there go by the code's own words
GONE = re.compile(r"is not in scope(?! here, so what is shown)|that can be named from here|has no field")

ERROR = re.compile(r"^(\S+?):\d+:\d+: error: `([^`]+)`: (.*(?:\n  .*)*)", re.M)
# what the search said of the goals that no proof file answers, and the function's verdict behind it
GOAL = re.compile(r"^note: (src/\S+:\d+:\d+: it is not proved that .*)|^fn \w+::(\S+): (.*)$", re.M)
FALSE = "the facts known there allow values at which this goal is false"


def errors(wrong, said):
    """What the prover says against a wrong program in proof files, but for what only follows from something else."""
    folder = f"proofs/{wrong.where.replace('::', '/')}/"
    for path, declaration, message in ERROR.findall(said):
        mine = path.removeprefix("./").startswith(folder) if wrong.kind == "in" else declaration == wrong.where
        if mine and "was not admitted" not in message:
            yield message


def goals(wrong, said):
    """What the search says of a wrong function's other goals."""
    notes = []
    for note, function, verdict in GOAL.findall(said):
        if note:
            notes.append(note)
        else:
            if wrong.kind == "in" and function == wrong.where and verdict.startswith(("no proof", "not proved")):
                yield from notes
            notes = []


def judged(wrong, said):
    """Why what is said does not show that the wrong program is refused where it is wrong, because a fact fails there; or nothing."""
    against = list(errors(wrong, said))
    gone = [message for message in against if GONE.search(message)]
    if gone:
        return "is refused where the proof names what it took away: " + gone[0][:300]
    if any(FALSE in note for note in goals(wrong, said)):
        return None
    if against:
        shown = not NOTHING.search(against[0].split("was found. Every way was tried")[0]) and FACT.search(against[0])
        return None if shown else "is refused, and not because a fact fails: " + against[0][:300]
    left = list(goals(wrong, said))
    return "is refused, and no fact is shown: " + left[0][:300] if left else "is not refused there"


def change(room, programs):
    """Makes the edits of wrong programs, and says of one that cannot be made."""
    made = []
    for wrong in programs:
        if wrong.edits not in made:
            made.append(wrong.edits)
            for file, old, new in wrong.edits:
                if not room.change(f"{wrong.crate}/{file}", old, new):
                    return f"is no edit of the crate as it is: '{old}' does not stand once in {file}"
    return None


def ask(room, wrong, said):
    """Has the search answer the goals that no proof file answers, and that it left open by itself: then it says what it found."""
    file = f"{wrong.crate}/proofs/{wrong.where.replace('::', '/')}/Answers.antt"
    uses = f"use Rattle.{wrong.crate}.proofs.{wrong.where.replace('::', '.')}.Goals as goal\n"
    answers = room.read(file) or uses
    if "rules" not in answers.partition(uses)[0]:
        answers = answers.replace(uses, "use Rattle.std.proofs.Common.{rules}\n" + uses)
    for goal in dict.fromkeys(re.findall(r"\(`([^`]+)`\)", "\n".join(goals(wrong, said)))):
        answers += f"\npub {goal} : goal.{goal}\n{goal} c = search rules\n"
    room.write(file, answers)


def tried(room, programs, *words, answers=""):
    """What `rt check` of the crate with these wrong programs says, or why it says nothing."""
    why = change(room, programs)
    if answers and not why:
        ask(room, programs[0], answers)
    said, status = room.check("--jobs", "1", *words) if not why else ("", 1)
    room.restore()
    return said, why or (None if status == 1 else f"is not judged: rt check ended with status {status}: {said[-300:]}")


def complaint(room, wrong):
    # a function is proved by what the others promise; a law may rest on anything
    alone = wrong.kind == "in" and all(file.startswith(("src/", "proofs/")) for file, _, _ in wrong.edits)
    words = ["--only", f"{wrong.crate}::{wrong.where}"] if alone else []
    said, why = tried(room, [wrong], *words)
    gone = any(GONE.search(message) for message in errors(wrong, said))
    if not why and not gone and judged(wrong, said) and list(goals(wrong, said)):
        said, why = tried(room, [wrong], *words, answers=said)
    return why or judged(wrong, said), said


def complaints(programs):
    """Of the wrong programs of one edit file."""
    with tempfile.TemporaryDirectory(prefix="slc1-refused-") as folder:
        room = Room(folder, programs[0].crate)
        said, why = tried(room, programs)
        return [(wrong, *complaint(room, wrong)) for wrong in programs if why or judged(wrong, said)]


def by_file(programs):
    return [list(group) for _, group in itertools.groupby(programs, lambda wrong: (wrong.crate, wrong.edit))]


def main():
    say = "--say" in sys.argv[1:]
    chosen = [word for word in sys.argv[1:] if word != "--say"]
    programs = [wrong for wrong in wrong_programs() if not chosen or wrong.crate in chosen]
    found = 0
    with ThreadPoolExecutor(WORKERS) as pool:
        for told in pool.map(complaints, by_file(programs)):
            for wrong, why, said in told:
                if why:
                    print(f"{wrong.crate}/{wrong.edit}: {wrong.name} {wrong.kind} {wrong.where} {why}", flush=True)
                    found += 1
                    if say:
                        print(said, flush=True)
    against = collections.Counter(wrong.where.split("::")[-1] for wrong in programs if wrong.crate == "host")
    for call in sorted(calls()) if against else []:
        if against[call] < 2:
            print(f"{call} has {against[call]} wrong programs in crates/host/must-fail")
            found += 1
    if found:
        sys.exit(1)
    names = len({wrong.name for wrong in programs})
    print(f"{names} wrong programs, tried in {len(programs)} places, are refused because a fact fails")


if __name__ == "__main__":
    main()
