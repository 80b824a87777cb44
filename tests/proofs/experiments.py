"""The experiments of docs/audit.md: each edits a copy of the crates, and the prover must refuse it at the place named here.

usage: experiments.py [NAME ...]     after `rt check` in each crate, so that only what an edit touches is proved again
"""

import re
import sys
import tempfile
from collections import namedtuple
from concurrent.futures import ThreadPoolExecutor

from room import Room

# edits: (file below crates/, old text, new text), the old text standing there once or more; crate: the first that is not
# proved; at and says: the declaration that is refused there, and words of the refusal
Experiment = namedtuple("Experiment", "edits crate at says")

EXPERIMENTS = {
    # the place that a host is given for the index, in definition, code and proof, moved onto the revision
    "index_on_the_revision": Experiment(
        [
            ("host/specs/Places.antt", "key_start, index_start}", "key_start, revision_start}"),
            ("host/specs/Places.antt", "place_in o slot (index_start", "place_in o slot (revision_start"),
            ("host/src/sizes.rt", "+ 16 + align8(key_size)", "+ 8 + align8(key_size)"),
            ("host/proofs/sizes/slc1_index_offset/Answers.antt", "index_start", "revision_start"),
        ],
        "demands", "index_placed", "`16` (expected) and the other has `8` (found)",
    ),
    # a lookup that takes a serial which was cut
    "cut_serial": Experiment(
        [("image/src/lookup.rt", "if key.len() != self.shape.layout.key_size {", "if key.len() > self.shape.layout.key_size {")],
        "image", "looked", "length",
    ),
    # what begin owes, said of the code of checkpoint
    "begin_by_checkpoint": Experiment(
        [("demands/specs/Calls.antt", "Owes begin_ended begin.name begin.code", "Owes begin_ended checkpoint.name checkpoint.code")],
        "demands", "calls", "state.checkpoint.Symbol.code",
    ),
    # a scan that ignores its skip, in definition, code and proof
    "scan_without_skip": Experiment(
        [
            ("listing/specs/Scan.antt", "(λ key. true)) skip limit numbers)", "(λ key. true)) 0 limit numbers)"),
            ("listing/src/scan.rt", "&All {}, skip, limit", "&All {}, 0, limit"),
            ("listing/proofs/scan/scan/Answers.antt", "(λ key. true)) a.skip", "(λ key. true)) 0"),
        ],
        "demands", "scan_list", "`skip` (expected) and the other has `0` (found)",
    ),
    # an overflow that counts a stretch as one bucket shorter than it is
    "overflow_of_one_bucket_less": Experiment(
        [("probing/specs/Overflow.antt", "(stretch B h b (suc n) - suc n)", "(stretch B h b (suc n) - n)")],
        "probing", "largest_le", "the goal does not follow from what it read",
    ),
}


def answer(experiment):
    """The crates that are not proved, and what the prover says of the declaration, by its first error there."""
    with tempfile.TemporaryDirectory(prefix="slc1-experiment-") as folder:
        room = Room(folder, experiment.crate)
        for file, old, new in experiment.edits:
            if not room.change(file, old, new, once=False):
                sys.exit(f"{file} has no '{old}'")
        said, status = room.check()
    refused = re.findall(r"^rt: the library (\w+) did not build", said, re.M)
    if not refused and status == 1 and re.search(r"^logic=not-proved", said, re.M):
        refused = [experiment.crate]
    error = re.search(rf"error: `{re.escape(experiment.at)}`: (.*(?:\n  .*)*)", said)
    return refused, error.group(1) if error else ""


names = sys.argv[1:] or list(EXPERIMENTS)
with ThreadPoolExecutor(2) as two:
    answers = list(two.map(answer, (EXPERIMENTS[name] for name in names)))
wrong = 0
for name, (refused, error) in zip(names, answers):
    experiment = EXPERIMENTS[name]
    print(f"{name}: {', '.join(refused) or 'nothing'} refused; {experiment.at}: {error.partition(chr(10))[0][:200] or 'no error'}")
    if refused != [experiment.crate] or experiment.says not in error:
        print(f"{name} should be refused in {experiment.crate} at {experiment.at}, with '{experiment.says}'")
        wrong += 1
sys.exit(wrong > 0)
