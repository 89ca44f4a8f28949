"""The command line of a comparison with redis-servers."""

import argparse
import pathlib
import shutil


def main(about, what, compare, count=None):
    """Compares, unless there is no redis-server, and tells how many replies are equal and how many not: the status
    that the test ends with. A comparison by chance has so many replies and a seed, unless others are given."""
    reader = argparse.ArgumentParser(description=about, formatter_class=argparse.RawDescriptionHelpFormatter)
    reader.add_argument("program", type=pathlib.Path)
    if count is not None:
        reader.add_argument("count", type=int, nargs="?", default=count)
        reader.add_argument("seed", type=int, nargs="?", default=1)
    given = vars(reader.parse_args())
    if not shutil.which("redis-server"):
        print(f"skipped {what}: Debian's package redis-server is not installed")
        print("0 passed, 0 failed, 1 skipped")
        return 0
    equal, others = compare(**given | {"program": given["program"].resolve()})
    print(f"{equal} passed, {others} failed")
    return 1 if others else 0
