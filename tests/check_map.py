#!/usr/bin/env python3
"""Map of the crates: compares crates.txt with the crates themselves and with the table of docs/ARCHITECTURE.md.

usage: tests/check_map.py

- Each folder of crates/ has a line in crates.txt, and each line a folder.
- A line lists crates of the repository and of the kit alone, each once: of the repository those that the crate's src,
  specs and proofs name (`use CRATE::`, a path `CRATE::` or `Rattle.CRATE.`), no more and no fewer; of the kit all that
  it names, and of others only what a crate below it names.
- A crate comes after the crates of its line, and of two groups at most one names crates of the other.
- No crate of one of the HALVES is over one of the other. Whatever their groups, none of PLANS is over one of STORES.
- The table of ARCHITECTURE has the same crates, each once, in the same groups and order. Its column Over has the crates
  of the repository in a crate's line, without those that are below another one of them; in a row of several crates, of
  all.

Each finding is a line. Then come the number of crates on the longest way to `reshard` and of those below
`cluster_runs`. The last line is 'N passed, M failed', and the status is 1 where one failed."""

import pathlib
import re
import sys

TOP = pathlib.Path(__file__).resolve().parent.parent
KIT = set("anyhow atomic_table bytes clap crossbeam_channel hex indexmap itoa jiff json serde_json thiserror".split())
HALVES = ["plans servers clusters".split(), "stores questions threads".split()]
PLANS = "cluster_inspection cluster_runs plan_previews".split()
STORES = set("typed_values client_commands store_commands migrate_frames slot_keyspace cluster_node cluster_world "
             "node_session shared_trail live_cluster loopback_servers".split())


def read_crates():
    """What the line of each crate lists, in the order of crates.txt, and each crate's group."""
    lists, groups, group = {}, {}, None
    for line in (TOP / "crates.txt").read_text().splitlines():
        if line.startswith("# "):
            group = line[2:]
        elif line.strip():
            head, _, tail = line.partition(":")
            name = head.split()[0]
            lists[name], groups[name] = lists.get(name, []) + tail.split(), group
    return lists, groups


def read_table():
    """The rows of ARCHITECTURE's table: the group, the crates, and what they are over."""
    group, page = None, (TOP / "docs" / "ARCHITECTURE.md").read_text()
    for row in re.finditer(r"^\| ([^|]*)\| (`[^|]*)\| ([^|]*)\|", page, re.MULTILINE):
        group = row[1].strip() or group
        yield group, re.findall(r"`(\w+)`", row[2]), set(re.findall(r"`(\w+)`", row[3]))


def text_of(crate, kind):
    """All files of a kind in a crate's src, specs and proofs, without their comments."""
    files = [path for folder in ("src", "specs", "proofs") for path in (TOP / "crates" / crate / folder).rglob(kind)]
    return re.sub(r"//.*|(?<!\S)--.*", "", "\n".join(path.read_text() for path in files))


def named_by(crate):
    """The first words of a crate's imports and paths, but for the crate itself and its own modules."""
    code, definitions = text_of(crate, "*.rt"), text_of(crate, "*.antt")
    modules = set(re.findall(r"^ *(?:pub(?:\(\w+\))? )?mod (\w+)", code, re.MULTILINE))
    words = set(re.findall(r"(?<![\w:.])(\w+)::", code)) - modules
    return words.union(re.findall(r"\bRattle\.(\w+)\.", code + definitions)) - {crate}


def all_below(lower):
    """All that is below each one, of what is directly below it."""
    reached, before = {name: set(some) for name, some in lower.items()}, None
    while reached != before:
        before, reached = reached, {
            name: some.union(*(reached[other] for other in some)) for name, some in reached.items()}
    return reached


def longest_way(lower, name):
    """The number of crates on the longest way that ends at one; crates come before those over them."""
    lengths = {}
    for crate, some in lower.items():
        lengths[crate] = 1 + max((lengths.get(other, 0) for other in some), default=0)
    return lengths.get(name, 0)


def check_lines(lists, lower, below):
    """What each check of a crate's line found, empty where nothing is wrong."""
    places = {name: place for place, name in enumerate(lists)}
    folders = {path.name for path in (TOP / "crates").iterdir()}
    named = {name: named_by(name) for name in lists}
    for name in sorted(folders | lists.keys()):
        yield "" if name in folders and name in lists else f"{name} is a folder of crates/ or has a line, not both"
    for name, listed in lists.items():
        wanted = named[name] & (lists.keys() | KIT)
        allowed = wanted.union(*(KIT & named[other] for other in below[name]))
        for what, wrong in (("lists what is no crate", set(listed) - lists.keys() - KIT),
                            ("lists twice", {other for other in listed if listed.count(other) > 1}),
                            ("names, and does not list,", wanted - set(listed)),
                            ("lists, and does not name,", (set(listed) & (lists.keys() | KIT)) - allowed),
                            ("comes before what it lists:", {o for o in lower[name] if places[o] >= places[name]})):
            yield f"{name} {what} {', '.join(sorted(wrong))}" if wrong else ""


def check_groups(groups, lower, below):
    """The same of the groups, and of the two halves."""
    over = {group: set() for group in groups.values()}
    for name, some in lower.items():
        over[groups[name]] |= {groups[other] for other in some} - {groups[name]}
    reached = all_below(over)
    for group in over:
        yield f"the group {group} is over {', '.join(over[group])}, and below itself" if group in reached[group] else ""
    for known in (*HALVES[0], *HALVES[1], *PLANS, *sorted(STORES)):
        yield "" if known in over or known in lower else f"there is no {known}, which has a rule here"
    for half, others in (HALVES, HALVES[::-1]):
        for name in (name for name in lower if groups[name] in half):
            wrong = {other for other in lower[name] if groups[other] in others}
            yield f"{name} is over the other half: {', '.join(sorted(wrong))}" if wrong else ""
    for name in (name for name in PLANS if name in lower):
        ways = [f"{other} names {', '.join(sorted(lower[other] & STORES))}"
                for other in sorted((below[name] | {name}) - STORES) if lower[other] & STORES]
        yield f"{name} is over a store: {'; '.join(ways)}" if ways else ""


def check_table(lists, groups, lower, below):
    """The same of ARCHITECTURE's table."""
    seen = []
    for group, names, over in read_table():
        seen += names
        known = [lower[name] for name in names if name in lists]
        wanted = {other for some in known for other in some if not any(other in below[third] for third in some)}
        for what, wrong in (("is not directly over", over - wanted), ("is directly over", wanted - over)):
            yield f"{' or '.join(names)} {what} {', '.join(sorted(wrong))}" if wrong else ""
        for name in names:
            yield "" if groups.get(name, group) == group else f"{name} is in the group {group}, and not {groups[name]}"
    for name in sorted({*seen, *lists}):
        times = seen.count(name)
        yield "" if name in lists and times == 1 else f"{name} is in {times} rows, and has {name in lists:d} lines"
    for name, other in zip(seen, lists):
        if name != other:
            yield f"{name} has the place of {other}"
            return


def main():
    lists, groups = read_crates()
    lower = {name: {other for other in listed if other in lists} for name, listed in lists.items()}
    below = all_below(lower)
    found = [("crates.txt", wrong) for wrong in check_lines(lists, lower, below)]
    found += [("crates.txt", wrong) for wrong in check_groups(groups, lower, below)]
    found += [("docs/ARCHITECTURE.md", wrong) for wrong in check_table(lists, groups, lower, below)]
    failed = [f"{file}: {wrong}" for file, wrong in found if wrong]
    print("\n".join(failed + [
        f"the longest way to reshard has {longest_way(lower, 'reshard')} crates",
        f"{len(below.get('cluster_runs', ()))} crates are below cluster_runs",
        f"{len(found) - len(failed)} passed, {len(failed)} failed"]))
    return 1 if failed else 0


sys.exit(main())
