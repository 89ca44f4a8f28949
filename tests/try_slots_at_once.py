#!/usr/bin/env python3
"""Slots at once, by chance: looks for counterexamples to what is proved of plans whose slots are moved at the same
time, in a plain model that knows nothing of the proofs.

usage: tests/try_slots_at_once.py [RUNS] [--seed N]

A run is a legal plan of version 1, 2 or 3 for two or three slots of two to four nodes: whole moves and tries, from
slots that are closed or in any phase of a move. Chance says whose next call is sent, which node is told next once the
source was told, and what clients do in between: commands with one key or two, and ASKs that are followed at once, late
or again. Some plans stop, and their rests are the next plan. After each event no call was refused, calls are within the
plan's cost, replies and contents are those of one undivided store, each key is at one node, a marked source gains no
key, a slot at its end is closed at its owner in each table, a whole plan leaves the cluster clean, no call that may be
next would be refused, and tables and marks tell a phase of each slot, for which the rest is legal. Then each premise is
dropped in turn, and the clauses that need it have to break within 2,000 runs.

Modelled in tests/hostile: each node's keys, owners and marks, MOVED, ASK, TRYAGAIN, CROSSSLOT, ASKING, the forms of
SETSLOT with their refusals, listings of any keys of a slot in any order, and MIGRATE of a batch. Not modelled: calls
without an answer, a MIGRATE by half, nodes that fail, replicas, the bus, epochs and expiry.

RUNS is 20,000 and N is 1 unless given; a run is the same for its seed and number. The first run with a broken clause is
printed with its events. The last line is 'N passed, M failed', and the status is 1 where one failed."""

import argparse
import concurrent.futures
import os
import pathlib
import random
import sys

sys.dont_write_bytecode = True
sys.path.insert(0, str(pathlib.Path(__file__).resolve().parent / "hostile"))

from slots_at_once import Dropped, Run  # noqa: E402

MOST = 2000


def broken(seed, number):
    """What broke first in this run, with the events until then, or None."""
    run = Run(random.Random(f"{seed} {number}"))
    for clause in run.play():
        events = ("  " + " ".join(map(str, event)) for event in run.trace)
        return "\n".join([f"run {number} of seed {seed} broke '{clause}':", *events])
    return None


def runs_until_broken(seed, dropped):
    """In how many runs without the premise each of its clauses breaks, or None."""
    left = set(dropped.value[1])
    for number in range(MOST):
        left -= set(Run(random.Random(f"{seed} {number}"), dropped).play())
        if not left:
            return number + 1
    return None


def main():
    words = argparse.ArgumentParser(prog="tests/try_slots_at_once.py")
    words.add_argument("runs", nargs="?", type=int, default=20_000)
    words.add_argument("--seed", type=int, default=1)
    given = words.parse_args()
    print(f"{given.runs} runs of seed {given.seed}", flush=True)
    with concurrent.futures.ProcessPoolExecutor(os.cpu_count()) as pool:
        found = pool.map(broken, [given.seed] * given.runs, range(given.runs), chunksize=100)
        numbers = list(pool.map(runs_until_broken, [given.seed] * len(Dropped), Dropped))
        wrong = [it for it in found if it]
    for (what, clauses), number in zip((dropped.value for dropped in Dropped), numbers):
        broken_by = f"{'broken' if number else 'not all broken'} by run {number or MOST}"
        print(f"where {what}: {', '.join(sorted(clauses))}: {broken_by}")
    print("\n".join(wrong[:1]), end="\n" if wrong else "")
    failed = len(wrong) + numbers.count(None)
    print(f"{given.runs + len(numbers) - failed} passed, {failed} failed")
    return int(failed > 0)


if __name__ == "__main__":
    sys.exit(main())
