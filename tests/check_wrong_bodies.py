#!/usr/bin/env python3
"""Old texts of the wrong bodies: each `old:` text of an edit of wrong-bodies/ has to stand in its file once.

Such an edit is tried by hand (tests/try_wrong_bodies) or, where a test has to refuse it, by the gate in turn
(tests/try_test_edits.py), so that one whose text the code has no longer would be missed by nobody. This tries none of
them. The edits of must-fail/ are left out: `rt ci` tries each in each run.

wrong-bodies/tried has a line for each crate whose wrong bodies were all refused: its name, and a checksum of its src,
its specs and these edits as they were then. A crate whose line is not of today is skipped by name, and
tests/try_wrong_bodies --stale tries its wrong bodies again. The last line is 'N passed, M failed, K skipped', with K
the number of such crates.

usage: tests/check_wrong_bodies.py [--sums]     with --sums it prints the lines of today, and checks nothing
"""
import hashlib
import pathlib
import sys

TOP = pathlib.Path(__file__).resolve().parent.parent
TRIED = TOP / "wrong-bodies" / "tried"


def pairs_of(edit):
    """The file, the old text and the new one of each change, in the order in which they are made."""
    file = old = None
    for line in edit.read_text().splitlines():
        word, _, text = line.partition(": ")
        if word == "file":
            file = text
        elif word == "old":
            old = text
        elif word == "new":
            yield file, old, text
            old = None


def fault_of(edit):
    """Why the edit can't be made, or None. A later change is made to what the earlier ones gave."""
    crate = TOP / "crates" / edit.parent.name
    texts = {}
    for file, old, new in pairs_of(edit):
        if file is None or old is None:
            return "a change with no file or no old text"
        if file not in texts:
            if not (crate / file).is_file():
                return f"there is no {file}"
            texts[file] = (crate / file).read_text()
        count = texts[file].count(old)
        if count != 1:
            return f"its old text stands {count} times in {file}: {old.strip()}"
        texts[file] = texts[file].replace(old, new)
    return None if texts else "it changes nothing"


def fault_of_test(edit):
    """Whether the tests that are to refuse the edit are there: those of one module of a crate."""
    named = [line.split()[1:] for line in edit.read_text().splitlines() if line.startswith("test: ")]
    if len(named) != 1 or len(named[0]) != 2:
        return "it does not name a crate and a module of that whose tests refuse it"
    crate, module = named[0]
    source = TOP / "crates" / crate / "src" / f"{module}.rt"
    if source.is_file() and "#[test]\n" in source.read_text():
        return None
    return f"there is no test in {module} of {crate}"


def line_of_today(crate):
    """The crate's line in wrong-bodies/tried, if its wrong bodies were refused today."""
    files = [path for folder in ("src", "specs") for path in (TOP / "crates" / crate / folder).rglob("*.*t")]
    files += (TOP / "wrong-bodies" / crate).glob("*edit")
    digest = hashlib.sha256()
    for path in sorted(files):
        digest.update(f"{path.relative_to(TOP)} {path.stat().st_size}\n".encode() + path.read_bytes())
    return f"{crate} {digest.hexdigest()[:16]}"


def main():
    today = [line_of_today(path.name) for path in sorted((TOP / "wrong-bodies").iterdir()) if path.is_dir()]
    if sys.argv[1:] == ["--sums"]:
        print("\n".join(today))
        return 0
    passed = failed = 0
    for edit in sorted((TOP / "wrong-bodies").glob("*/*edit")):
        fault = fault_of(edit)
        if fault is None and edit.suffix == ".test-edit":
            fault = fault_of_test(edit)
        if fault is None:
            passed += 1
        else:
            print(f"{edit.relative_to(TOP)}: {fault}")
            failed += 1
    tried = TRIED.read_text().splitlines() if TRIED.is_file() else []
    stale = [line.split()[0] for line in today if line not in tried]
    if stale:
        print(f"skipped the wrong bodies of {len(stale)} crates, which changed since (tests/try_wrong_bodies --stale): "
              f"{', '.join(stale)}")
    print(f"{passed} passed, {failed} failed, {len(stale)} skipped")
    return 1 if failed else 0


if __name__ == "__main__":
    sys.exit(main())
