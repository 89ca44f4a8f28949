#!/usr/bin/env python3
"""Plans and scripts by chance: compares the program with plain slow definitions, on plans, planners' words and scripts
that chance makes.

usage: tests/try_hostile_cases.py PROGRAM [CASES [SEED]]

CASES is 10,000 and SEED 1 unless given; a case is the same for its seed and number. What each of them is to print
stands in tests/hostile: the first fault of a plan's text and of the plan, the slots that a planner moves, each reply of
a script, and the first dishonest event. A case that differs is printed with its words and its input, so that it can be
tried alone. The last line is 'N passed, M failed', and the status is 1 where one failed."""

import concurrent.futures
import os
import pathlib
import random
import subprocess
import sys

sys.dont_write_bytecode = True
sys.path.insert(0, str(pathlib.Path(__file__).resolve().parent / "hostile"))

import cases  # noqa: E402

SECONDS = 60
SHOWN = 3
PIECE = 50


def difference(program, seed, number):
    """What the program did otherwise in this case, or None."""
    case = cases.case(random.Random(f"{seed} {number}"))
    done = subprocess.run([program, *case.words], input=case.given, capture_output=True, timeout=SECONDS, check=False)
    if (done.stdout, done.returncode, done.stderr) == (case.output, case.status, case.errors):
        return None
    return (f"case {number} of seed {seed}: {' '.join(case.words)}\n  input    {case.given!r}\n"
            f"  wanted   {case.output!r}, status {case.status}, errors {case.errors!r}\n"
            f"  printed  {done.stdout!r}, status {done.returncode}, errors {done.stderr!r}")


def differences(program, seed, numbers):
    return [difference(program, seed, number) for number in numbers]


def main():
    if len(sys.argv) not in (2, 3, 4):
        print("usage: tests/try_hostile_cases.py PROGRAM [CASES [SEED]]", file=sys.stderr)
        return 2
    program, count, seed = (sys.argv[1:] + ["10000", "1"][len(sys.argv) - 2:])[:3]
    pieces = [range(start, min(start + PIECE, int(count))) for start in range(0, int(count), PIECE)]
    with concurrent.futures.ProcessPoolExecutor(os.cpu_count()) as pool:
        found = pool.map(differences, [program] * len(pieces), [seed] * len(pieces), pieces)
        results = [it for piece in found for it in piece]
    wrong = [it for it in results if it]
    print("\n".join(wrong[:SHOWN]), end="\n" if wrong else "")
    print(f"{len(results) - len(wrong)} passed, {len(wrong)} failed")
    return int(bool(wrong))


if __name__ == "__main__":
    sys.exit(main())
