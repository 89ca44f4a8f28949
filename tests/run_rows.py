#!/usr/bin/env python3
"""Rows of the program: runs each row below tests/rows, or some of them, through a program.

usage: tests/run_rows.py PROGRAM [THEME[/NAME] ..]     all rows, where none is named

A row NAME, in the folder of its theme, where it runs, has the files NAME.cmd (the words after the program's name),
NAME.in (standard input) or NAME.in.py (a script that prints it), NAME.out (standard output, byte for byte) and, where
they are not 0 and nothing, NAME.status (the exit status) and NAME.err (standard error, byte for byte). Each difference
is printed. The last line is 'N passed, M failed', and the status is 1 where a row failed. Where the program is not
there, or a theme or a row that is named, nothing runs and the status is 2."""

import pathlib
import shlex
import subprocess
import sys

ROWS = pathlib.Path(__file__).resolve().parent / "rows"
SECONDS = 120
SHOWN = 40


def bytes_of(path):
    return path.read_bytes() if path.exists() else b""


def input_of(row):
    """The standard input of a row, which a script beside it may print."""
    script = row.with_suffix(".in.py")
    if script.exists():
        return subprocess.run([sys.executable, "-B", script], check=True, capture_output=True, timeout=SECONDS).stdout
    return bytes_of(row.with_suffix(".in"))


def lines_shown(text):
    """The lines of an output, as far as they help a reader."""
    lines = text.splitlines(keepends=True)
    shown = [f"    {line[:200]!r}" for line in lines[:SHOWN]]
    if len(lines) > SHOWN:
        shown.append(f"    .. and {len(lines) - SHOWN} lines more")
    return shown or ["    (nothing)"]


def difference(stream, printed, wanted):
    if printed == wanted:
        return []
    return [f"  on {stream}", *lines_shown(printed), "  wanted", *lines_shown(wanted)]


def differences(program, row):
    """What is wrong with the row, as lines to print: none where all is well."""
    words = shlex.split(row.read_text())
    status = int(bytes_of(row.with_suffix(".status")) or b"0")
    try:
        ran = subprocess.run(
            [program, *words], input=input_of(row), capture_output=True, timeout=SECONDS, cwd=row.parent)
    except subprocess.TimeoutExpired:
        return [f"  still running after {SECONDS} seconds"]
    except (OSError, subprocess.CalledProcessError) as error:
        return [f"  could not be run: {error}"]
    found = []
    if ran.returncode != status:
        found.append(f"  status {ran.returncode}, wanted {status}")
    found += difference("standard output", ran.stdout, bytes_of(row.with_suffix(".out")))
    found += difference("standard error", ran.stderr, bytes_of(row.with_suffix(".err")))
    return found


def named(word):
    """The rows that a word names: those of a theme, or one row. None where there is no such theme or row."""
    theme, _, name = word.removesuffix("/").partition("/")
    return [row for row in ROWS.glob("*/*.cmd") if row.parent.name == theme and name in ("", row.stem)]


def main():
    words = sys.argv[2:]
    if len(sys.argv) < 2 or not pathlib.Path(sys.argv[1]).is_file():
        if len(sys.argv) > 1:
            print(f"tests/run_rows.py: there is no program {sys.argv[1]}", file=sys.stderr)
        print("usage: tests/run_rows.py PROGRAM [THEME[/NAME] ..]", file=sys.stderr)
        return 2
    program = str(pathlib.Path(sys.argv[1]).resolve())
    unknown = [word for word in words if not named(word)]
    if unknown:
        print(f"tests/run_rows.py: there is no theme or row {', '.join(unknown)}", file=sys.stderr)
        return 2
    rows = sorted({row for word in words for row in named(word)} if words else ROWS.glob("*/*.cmd"))
    failed = 0
    for row in rows:
        found = differences(program, row)
        if found:
            failed += 1
            print("\n".join([f"tests/rows/{row.parent.name}/{row.stem}: FAILED", *found]))
    if not rows:
        print("tests/rows holds no row")
        failed = 1
    print(f"{len(rows) - min(failed, len(rows))} passed, {failed} failed")
    return 1 if failed else 0


sys.exit(main())
