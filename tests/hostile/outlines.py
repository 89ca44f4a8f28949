"""What a legal plan comes to, from an even split: the page and the line of JSON of `explain`, slot by slot."""

import itertools
import json
from collections import Counter

from hash_slots import SLOTS, runs

KINDS = ["importing", "migrating", "drain", "node", "stable"]


class Outline:
    def __init__(self, commands, before, nodes):
        self.commands, self.before, self.nodes = list(commands), before, nodes
        self.after = list(before)
        for command in self.commands:
            if command[0] == "node":
                self.after[command[1]] = command[2]
        self.moving = [slot for slot in range(SLOTS) if before[slot] != self.after[slot]]
        self.drains = Counter(command[1] for command in self.commands if command[0] == "drain")
        self.counts = Counter(command[0] for command in self.commands)
        self.batches = [command[4] for command in self.commands if command[0] == "drain"]

    def pairs(self):
        counts = Counter((self.before[slot], self.after[slot]) for slot in self.moving)
        return sorted(counts.items(), key=lambda pair: (-pair[1], pair[0]))

    def ranges(self):
        """Each longest range of slots that gets another owner, with both owners."""
        keyed = itertools.groupby(self.moving, lambda slot: (self.before[slot], self.after[slot]))
        return [(first, last, *pair) for pair, slots in keyed for first, last in runs(slots)]

    def shares(self):
        return [(self.before.count(node), self.after.count(node)) for node in range(self.nodes)]

    def moved_again(self):
        return runs(slot for slot in range(SLOTS) if self.drains[slot] > 1)

    def moved_back(self):
        return runs(slot for slot in range(SLOTS) if self.drains[slot] and self.before[slot] == self.after[slot])

    def most_open(self):
        """A slot is open from its importing command on, until all nodes were told, or it is stable again."""
        told, most, open_slots = {}, 0, set()
        for command in self.commands:
            kind, slot = command[:2]
            if kind == "importing":
                told[slot] = 0
                open_slots.add(slot)
            elif kind == "node":
                told[slot] += 1
            if kind == "stable" or told[slot] == self.nodes:
                open_slots.discard(slot)
            most = max(most, len(open_slots))
        return most


def resume_words(version):
    return "reshard resume --cluster ADDR" + (" --plan FILE" if version == 1 else ", and a plan anew for what is left")


def line(outline, version):
    batches = outline.batches or [0]
    told = {
        "verdict": "verified",
        "commands": len(outline.commands),
        "pairs": [{"source": f"n{a}", "target": f"n{b}", "slots": count} for (a, b), count in outline.pairs()],
        "nodes": [{"node": f"n{node}", "slots_before": before, "slots_after": after,
                   "loses_its_last_slot": before > 0 and after == 0}
                  for node, (before, after) in enumerate(outline.shares())],
        "moves": [{"first": first, "last": last, "source": f"n{a}", "target": f"n{b}"}
                  for first, last, a, b in outline.ranges()],
        "counts": {kind: outline.counts[kind] for kind in KINDS},
        "least_batch": min(batches),
        "most_batch": max(batches),
        "keys_moved": None,
        "most_calls": None,
        "moved_again": [{"first": first, "last": last} for first, last in outline.moved_again()],
        "moved_back": [{"first": first, "last": last} for first, last in outline.moved_back()],
        "most_open": outline.most_open(),
        "resume": resume_words(version),
    }
    return json.dumps(told, sort_keys=True, separators=(",", ":")) + "\n"


def slots(count, width):
    word = " slot" if count == 1 else " slots"
    return f"{count}".rjust(width - len(word)) + word


def per_cent(count):
    hundredths = count * 10_000 // SLOTS
    return f"{hundredths // 100:5}.{hundredths % 100:02} %"


def listed(heading, found):
    """The runs behind the heading, broken before the column 80."""
    texts = [f"{first}" if first == last else f"{first}-{last}" for first, last in found] or ["none"]
    lines = [heading + texts[0]]
    for text in texts[1:]:
        if len(lines[-1]) + len(text) + 3 <= 80:
            lines[-1] += f", {text}"
        else:
            lines[-1] += ","
            lines.append(f"  {text}")
    return lines


def page(outline, version):
    yield f"verified {len(outline.commands)} commands"
    yield from ("", "slots by pair of nodes")
    yield from [f"  {f'n{a} -> n{b}':12}{slots(count, 12)}" for (a, b), count in outline.pairs()] or ["  none"]
    yield from ("", "nodes                     before               after")
    for node, (before, after) in enumerate(outline.shares()):
        yield f"  {f'n{node}':8}{before:12}{per_cent(before)}{after:10}{per_cent(after)}"
    for node, (before, after) in enumerate(outline.shares()):
        if before and not after:
            yield f"n{node} loses its last slot: its replicas may follow another master, and it may"
            yield "become a replica."
    yield from ("", "what goes where")
    yield from [f"{first:7}{'' if first == last else f'-{last}':6}{slots(last - first + 1, 15)}   n{a} -> n{b}"
                for first, last, a, b in outline.ranges()] or ["  none"]
    yield from ("", "commands")
    counts, batches = outline.counts, sorted(set(outline.batches))
    key_word = "key" if batches[-1:] == [1] else "keys"
    sizes = f"{batches[0]}" if len(batches) == 1 else f"{batches[0]} to {batches[-1]}" if batches else ""
    yield f"{counts['importing']:9} SETSLOT IMPORTING"
    yield f"{counts['migrating']:9} SETSLOT MIGRATING"
    yield f"{counts['drain']:9} drains" + (f", in batches of {sizes} {key_word}" if sizes else "")
    yield f"{counts['node']:9} SETSLOT NODE"
    yield f"{counts['stable']:9} SETSLOT STABLE"
    yield f"{len(outline.commands):9} calls at most where slots hold no keys;"
    yield "          each batch of keys takes two more"
    yield ""
    yield from listed("slots that move more than once: ", outline.moved_again())
    yield from listed("slots that move and come back: ", outline.moved_back())
    yield from ("", "stopped half way")
    most = outline.most_open()
    yield f"  {most} {'slot stands' if most == 1 else 'slots stand'} open at most, at any time. This goes on:"
    yield f"  {resume_words(version)}"


def explained(version, commands, before, nodes, as_json):
    """What `explain` prints of a legal plan."""
    outline = Outline(commands, before, nodes)
    return line(outline, version) if as_json else "".join(f"{text}\n" for text in page(outline, version))


def refused(reason, as_json):
    """What it prints of one that is refused, for this line of `verify`."""
    return json.dumps({"reason": reason, "verdict": "refused"}, separators=(",", ":")) if as_json else reason
