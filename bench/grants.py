#!/usr/bin/env python3
"""Times the grant tree: what a grant costs from its making to its end, in trees of 64, 512 and 4,096.

    python3 bench/grants.py [PROGRAM]

PROGRAM is crates/m3_grants_bench/out/m3_grants_bench where it is left out (.ci/run builds it). In each tree it makes
subtrees one after the other; each is revoked by its root, and closed from its leaves, before the next is made. Each
line of the table stands for 2,097,152 grants, in as many trees as that takes. A life is one make, a share of the revoke
of its subtree, and one sent, fresh, holder and closed, with two next_close. It is given in nanoseconds of processor
time, from the least of nine runs, less the least of nine that make the same trees and leave them empty.

Where a call took longer in a larger tree, or a revoke longer than in proportion to its subtree, the figures would rise
from line to line. What each run counts is compared with what it should.
"""
import os
import resource
import subprocess
import sys

TOP = os.path.dirname(os.path.dirname(os.path.abspath(__file__)))
LIVES = 1 << 21
RUNS = 9
# (grants of a tree, grants of a subtree)
SHAPES = [(64, 8), (512, 8), (4096, 8), (4096, 64), (4096, 512)]


def used():
    """The processor time of all runs so far, in seconds."""
    usage = resource.getrusage(resource.RUSAGE_CHILDREN)
    return usage.ru_utime + usage.ru_stime


def run(program, grants, size, trees):
    """The processor time of a run, in seconds."""
    begun = used()
    ran = subprocess.run([program, str(grants), str(size), str(trees)], capture_output=True)
    # half of a subtree's grants are leaves; after each of their Closes but the last, the next one's is due
    answers = 2 * grants + grants // size * (size // 2 - 1)
    wanted = f"closed {grants}, answers {answers}\n".encode()
    if ran.returncode or ran.stdout != wanted:
        sys.exit(f"status {ran.returncode}, {ran.stdout!r} for {wanted!r}, standard error {ran.stderr!r}")
    return used() - begun


def least(*words):
    return min(run(*words) for _ in range(RUNS))


def main(words):
    program = os.path.abspath(words[0]) if words else f"{TOP}/crates/m3_grants_bench/out/m3_grants_bench"
    if not os.access(program, os.X_OK):
        sys.exit(f"{program} isn't built: .ci/run builds it")
    print(f"{'grants':>7}  {'subtree':>7}  {'a life':>8}")
    for grants, size in SHAPES:
        trees = LIVES // grants
        life = (least(program, grants, size, trees) - least(program, 0, size, trees)) / LIVES
        print(f"{grants:>7}  {size:>7}  {life * 1e9:>5.0f} ns")


if __name__ == "__main__":
    main(sys.argv[1:])
