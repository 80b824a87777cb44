"""Compares the library on this machine with the second program on large images and batches, byte for byte after each commit.

usage: large.py [SEED]
"""

import sys
import time
from bisect import bisect_left

from compare import Comparison, listings, reads

import native
import second
from images import fresh

# capacities and numbers of buckets: fewer than the rule's, the rule's, more, and fewer. The second program walks all buckets
# several times in a commit: where there are many, few commits.
SHAPES = (600, 1024), (1500, 4096), (2048, 8192), (4097, 8192)


class History:
    """One image of the library's and one of the second program's, changed by the same calls."""

    def __init__(self, comparison, o):
        self.comparison, self.options = comparison, o
        self.images = [bytearray(second.total_size(o)) for _ in (native, second)]
        made = {comparison.random.randbytes(o.key_size) for _ in range(3 * min(o.slot_capacity, 2000))}
        self.keys = sorted(made | {comparison.images.key(o) for _ in range(20)})

    def same(self, name, *arguments):
        """Makes a call of both; ends the run where the answers, or any bytes of the images, differ afterwards."""
        ours, theirs = (getattr(program, name)(image, self.options, *arguments)
                        for program, image in zip((native, second), self.images))
        self.comparison.calls += 1
        self.comparison.reached[name].add(ours)
        if ours != theirs or self.images[0] != self.images[1]:
            at = next((at for at, pair in enumerate(zip(*self.images)) if pair[0] != pair[1]), "none")
            sys.exit(f"{name} {self.options}: the library answers {ours}, the second program {theirs}; first other byte: {at}")

    def batch(self, count, window, puts, anywhere):
        """So many records of keys that stand in a window of all, so small that many come more than once; a share of them are puts.
        Where it is not anywhere, the window of an ordered image begins at its last key."""
        pick, table, lowest = self.comparison.random, second.Table(self.images[1], self.options), 0
        if self.options.ordered and table.highwater > 0 and not anywhere:
            lowest = bisect_left(self.keys, table.slot(table.highwater - 1).key)
        keys, record = self.keys[lowest:lowest + window], self.comparison.images.record
        return b"".join(record(self.options, pick.choice(keys), pick.random() < puts) for _ in range(count))

    def empty(self):
        """Deletes every key. Each leaves a tombstone, but where the index is rebuilt; how often that was so comes back."""
        o, made, rebuilds = self.options, self.comparison.images, 0
        live = [made.record(o, key, put=False) for _, key in second.live_keys(self.images[1], o)]
        self.comparison.random.shuffle(live)
        for start in range(0, len(live), second.BATCH_LIMIT):
            batch, before = live[start:start + second.BATCH_LIMIT], second.field(self.images[1], "bucket_tombstones")
            self.same("commit", b"".join(batch))
            rebuilds += second.field(self.images[1], "bucket_tombstones") != before + len(batch)
        return rebuilds


def history(comparison, o, buckets, commits):
    """A fresh image after a batch that is too long and some that are not; then lookups and listings."""
    tried, limit, pick = History(comparison, o), second.BATCH_LIMIT, comparison.random
    tried.same("create")
    tried.images = [fresh(o, buckets) for _ in tried.images]
    tried.same("begin")
    # enough keys for a rebuild, and then new ones below them: 6 where the image is ordered and has room
    batches = [(limit + 1, 1500, 0.9, True), (limit, 1500, 0.9, True), (limit - 1, 6000, 0.9, True)][:1 + commits]
    for _ in range(commits - 2):
        batches.append((pick.randrange(limit - 1, limit + 2), pick.choice((300, 1500, 6000)), pick.choice((0.1, 0.6, 0.9, 1)),
                        pick.random() < 0.2))
    for batch in batches:
        tried.same("commit", tried.batch(*batch))
    image = bytes(tried.images[0])
    for key in pick.sample(tried.keys, 20):
        comparison.same("lookup", image, o, key)
    listings(comparison, image, o)
    return tried


def emptied(comparison, o, buckets, commits):
    tried = history(comparison, o, buckets, commits)
    reads(comparison, bytes(tried.images[0]), o)
    rebuilds = tried.empty()
    reads(comparison, bytes(tried.images[0]), o)
    return rebuilds


def main():
    seed = int(sys.argv[1]) if len(sys.argv) > 1 else 1
    comparison, rebuilds, began = Comparison(seed), 0, time.monotonic()
    for ordered in (0, 1):
        for capacity, buckets, commits in ((1024, 2048, 1), *((*shape, 8) for shape in SHAPES)):
            o = comparison.images.options()._replace(key_size=comparison.random.choice((2, 3, 8, 12)), ordered=ordered)
            rebuilds += emptied(comparison, o._replace(slot_capacity=capacity), buckets, commits)
        history(comparison, second.Options(12, 20, 20000, 1, ordered, 2), 65536, commits=2)
    most = second.Options(2, 0, second.CAPACITY_LIMIT, 1, comparison.random.randrange(2), 2)
    history(comparison, most, second.BUCKET_LIMIT, commits=1)
    answered = comparison.reached["commit"]
    if answered != {0, 5, 6, 7} or rebuilds == 0:
        sys.exit(f"the commits answered {sorted(answered)}, with {rebuilds} rebuilds")
    print(f"{comparison.calls} calls agree on large images, {rebuilds} rebuilds (seed {seed}, {time.monotonic() - began:.0f} s)")


if __name__ == "__main__":
    main()
