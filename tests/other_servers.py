#!/usr/bin/env python3
"""Servers of other versions: has a program survey clusters of other versions of Redis and Valkey, and move their slots.

usage: tests/other_servers.py [--folder FOLDER] [--turn NUMBER | --whole] PROGRAM

tests/servers/get puts the versions that the machine's package source has into FOLDER (~/.cache/reshard-servers unless
it is given), once: it is asked again only where the folder is not there. Each version is tried by parts of
tests/real_servers.py and of tests/lost_keys.py: `facts` at each version, and the others at one version, which is
another one from commit to commit, or the one of this NUMBER. With --whole all are tried at each version.

What a version has no package for is skipped by name. The last line is 'N passed, M failed', of all parts together."""

import argparse
import os
import pathlib
import re
import subprocess
import sys

TESTS = pathlib.Path(__file__).resolve().parent
VERSIONS = ["redis8.0.2", "redis8.0.6", "valkey8.0.1", "valkey8.1.1", "valkey9.1.2"]
ALWAYS = ["facts"]
OF_LOST_KEYS = ["dead_masters", "returning"]
IN_TURN = ["surveys", "plans", "moves", "kinds", "replicas", "slow", "joins", "drains", "passwords", "killed"]
PORT = 17_400


def arguments():
    reader = argparse.ArgumentParser(description=__doc__, formatter_class=argparse.RawDescriptionHelpFormatter)
    reader.add_argument("program", type=pathlib.Path)
    reader.add_argument("--folder", type=pathlib.Path, default=pathlib.Path.home() / ".cache" / "reshard-servers")
    reader.add_argument("--turn", type=int)
    reader.add_argument("--whole", action="store_true")
    return reader.parse_args()


def commits():
    counted = subprocess.run(["git", "rev-list", "--count", "HEAD"], cwd=TESTS, capture_output=True, text=True)
    return int(counted.stdout or 0)


def brought(folder):
    """The folders of the versions that are there, by their names."""
    if not (folder / "path").is_dir():
        subprocess.run([TESTS / "servers" / "get", folder], check=False)
    there = folder / "path"
    return {path.name: path for path in sorted(there.iterdir())} if there.is_dir() else {}


def tried(test, program, name, path, parts):
    """What these parts of a test found at this version: how many checks passed and failed."""
    print(f"== {name}: {test} {' '.join(parts)}", flush=True)
    environment = {**os.environ, "PATH": f"{path}:{os.environ['PATH']}"}
    ran = subprocess.Popen([TESTS / test, "--port", str(PORT), program, *parts], env=environment,
                           stdout=subprocess.PIPE, text=True)
    last = ""
    for line in ran.stdout:
        print(line, end="", flush=True)
        last = line
    ended = re.match(r"(\d+) passed, (\d+) failed", last)
    return (int(ended[1]), int(ended[2])) if ended and ran.wait() in (0, 1) else (0, 1)


def main():
    given = arguments()
    versions = brought(given.folder)
    turn = (commits() if given.turn is None else given.turn) % len(VERSIONS)
    passed = failed = skipped = 0
    for name in dict.fromkeys([*VERSIONS, *versions]):
        if name not in versions:
            print(f"skipped servers of other versions: there is no package of {name}", flush=True)
            skipped += 1
        elif name in VERSIONS or given.whole:
            all_of_it = given.whole or name == VERSIONS[turn]
            parts = {"real_servers.py": ALWAYS + (IN_TURN if all_of_it else []),
                     "lost_keys.py": OF_LOST_KEYS if all_of_it else []}
            for test, some in parts.items():
                right, wrong = tried(test, given.program, name, versions[name], some) if some else (0, 0)
                passed, failed = passed + right, failed + wrong
    print(f"{passed} passed, {failed} failed, {skipped} skipped")
    return 1 if failed else 0


sys.exit(main())
