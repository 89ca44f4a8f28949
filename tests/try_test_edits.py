#!/usr/bin/env python3
"""Wrong bodies that only a test refuses: tries wrong-bodies/CRATE/NAME.test-edit. No contract can say what is wrong
with these, as that calls overlap. Such an edit begins with a line 'test: CRATE MODULE': the tests of this module of
that crate have to fail with it. They run unproved, as `rt try --test` runs them.

usage: tests/try_test_edits.py [--seconds S] [--turn T] [EDIT ..]

All edits are tried where none is named. With --turn two are, the next two with the next T, and the others are skipped
by name. So is one whose tests have not ended after S seconds, 600 unless that is given: slowness shows nothing. The
last line is 'N passed, M failed, K skipped', and the status is 1 where one failed."""

import argparse
import pathlib
import re
import shutil
import subprocess
import sys
import tempfile

TOP = pathlib.Path(__file__).resolve().parent.parent
EACH_TURN = 2
A_TEST = re.compile(r"^(?:///[^\n]*\n)*#\[test\]\n.*?^}\n", re.MULTILINE | re.DOTALL)


def lines_of(edit, word):
    """What stands after the word in the lines of the edit that begin with it."""
    return [line[len(word):] for line in edit.read_text().splitlines() if line.startswith(word)]


def made(edit, crate):
    """Makes the edit in a copy of its crate: whether each old text stands there once."""
    file = old = None
    for line in edit.read_text().splitlines():
        word, _, text = line.partition(": ")
        if word == "file":
            file = crate / text
        elif word == "old":
            old = text
        elif word == "new":
            source = file.read_text()
            if source.count(old) != 1:
                return False
            file.write_text(source.replace(old, text))
    return True


def leave_module(crate, module):
    """Leaves the crate the tests of one module alone: whether there are any."""
    kept = crate / "src" / f"{module}.rt"
    for source in crate.glob("src/**/*.rt"):
        if source != kept:
            source.write_text(A_TEST.sub("", source.read_text()))
    return kept.is_file() and bool(A_TEST.search(kept.read_text()))


def ending(folder, seconds):
    """The line that says how the tests in the folder ended, empty where they could not be run, or None where they had
    not ended in time. What was started for them ends with them."""
    command = ["rt", "try", "--test", "--seconds", str(seconds)]
    tests = subprocess.Popen(command, cwd=folder, stdin=subprocess.DEVNULL, stdout=subprocess.PIPE,
                             stderr=subprocess.STDOUT, text=True)
    try:
        said, _ = tests.communicate(timeout=seconds)
    except subprocess.TimeoutExpired:
        tests.terminate()
        tests.communicate()
        return None
    return next((line for line in said.splitlines() if line.startswith("test result: ")), "")


def tried(edit, seconds):
    """Whether the edit's tests refuse it, with the reason where they don't; None where they did not end in time."""
    crate, (named, module) = edit.parent.name, lines_of(edit, "test: ")[0].split()
    with tempfile.TemporaryDirectory() as folder:
        room = pathlib.Path(folder)
        for name in ("crates.txt", "HANDLES"):
            shutil.copy(TOP / name, room)
        shutil.copytree(TOP / "crates", room / "crates", ignore=shutil.ignore_patterns("out"))
        subprocess.run(["git", "init", "-q", str(room)], check=True)
        if not made(edit, room / "crates" / crate):
            return False, "its old text does not stand there once"
        if not leave_module(room / "crates" / named, module):
            return False, f"there is no test in {module} of {named}"
        last = ending(room / "crates" / named, seconds)
    if last is None:
        return None, f"its tests had not ended after {seconds} seconds"
    if last.startswith("test result: FAILED."):
        return True, "refused by its test, as it must be"
    return False, "its tests do not fail" if last else "its tests can't be run"


def main():
    parser = argparse.ArgumentParser(usage="tests/try_test_edits.py [--seconds S] [--turn T] [EDIT ..]")
    parser.add_argument("--seconds", type=int, default=600)
    parser.add_argument("--turn", type=int)
    parser.add_argument("edits", nargs="*", type=pathlib.Path)
    words = parser.parse_args()
    edits = [edit.resolve() for edit in words.edits] or sorted((TOP / "wrong-bodies").glob("*/*.test-edit"))
    meant = edits
    if words.turn is not None:
        first = EACH_TURN * words.turn
        meant = [edits[(first + next_one) % len(edits)] for next_one in range(EACH_TURN)]
    counts = {True: 0, False: 0, None: 0}
    for edit in edits:
        name = f"{edit.parent.name}/{edit.name}"
        if edit in meant:
            well, why = tried(edit, words.seconds)
        else:
            well, why = None, f"tests/try_test_edits.py wrong-bodies/{name} tries it"
        counts[well] += 1
        print(f"skipped {name}: {why}" if well is None else f"{name}: {why}", flush=True)
    print(f"{counts[True]} passed, {counts[False]} failed, {counts[None]} skipped")
    return 1 if counts[False] else 0


if __name__ == "__main__":
    sys.exit(main())
