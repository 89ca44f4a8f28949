"""What a plan's text says, by its definition: a list of commands, or the first line at fault.

A command is ("importing", slot, source, at), ("migrating", slot, target, at), ("drain", slot, source, target, batch),
("node", slot, owner, at) or, in version 3, ("stable", slot, at); a line is one of these or ("move", first, last,
source, target, batch)."""

import re

HEADERS = {b"reshard-plan %d" % version: version for version in (1, 2, 3)}
MOST_COMMANDS = 200_000
COMMANDS_OF_A_MOVE = 11
NUMBER = re.compile(rb"0|[1-9][0-9]*")


class PlanFault(Exception):
    """The first line at fault, counted from 1, and the number and name of its fault."""

    def __init__(self, line, name):
        super().__init__(f"line {line}: {name}")


class WordFault(Exception):
    """The number and name of a line's fault."""


def number(word, least, most, fault):
    if not NUMBER.fullmatch(word) or not least <= int(word) <= most:
        raise WordFault(fault)
    return int(word)


def slot(word):
    return number(word, 0, 16383, "3 Slot")


def node(word):
    if not re.fullmatch(rb"n[0-7]", word):
        raise WordFault("4 Node")
    return word[1] - ord("0")


def batch(word):
    return number(word, 1, 1000, "5 Count")


def slots(word):
    """The first and the last slot of a move. Whether they are in order is asked when all words were read."""
    first, dash, last = word.partition(b"-")
    return (slot(first), slot(last), True) if dash else (slot(first), slot(first), False)


def line_of(text, version):
    """What a line of a plan of this version says, or a WordFault."""
    words = text.split(b" ")
    match words if all(words) else []:
        case [b"setslot", place, (b"importing" | b"migrating" | b"node") as what, other, b"at", at]:
            return what.decode(), slot(place), node(other), node(at)
        case [b"setslot", place, b"stable", b"at", at] if version == 3:
            return "stable", slot(place), node(at)
        case [b"drain", place, b"at", source, b"to", target, b"by", size]:
            return "drain", slot(place), node(source), node(target), batch(size)
        case [b"move", places, b"from", source, b"to", target, b"by", size]:
            first, last, is_range = slots(places)
            line = "move", first, last, node(source), node(target), batch(size)
            if is_range and first >= last:
                raise WordFault("6 Range")
            return line
    raise WordFault("2 Verb")


def commands_for(line):
    """How many commands a line counts for, whatever the cluster."""
    return COMMANDS_OF_A_MOVE * (line[2] - line[1] + 1) if line[0] == "move" else 1


def lines_of(text):
    """The version of a plan and its lines, or a PlanFault."""
    whole = text.split(b"\n")[:-1]
    count, lines, version = 0, [], None
    for place, line in enumerate(whole, 1):
        if place == 1:
            if line not in HEADERS:
                raise PlanFault(1, "1 Header")
            version = HEADERS[line]
        elif line == b"end":
            if len(text) > sum(len(it) + 1 for it in whole[:place]):
                raise PlanFault(place + 1, "2 Verb")
            return version, lines
        else:
            try:
                lines.append(line_of(line, version))
            except WordFault as fault:
                raise PlanFault(place, fault) from fault
            count += commands_for(lines[-1])
            if count > MOST_COMMANDS:
                raise PlanFault(place, "8 TooLong")
    raise PlanFault(len(whole) + 1, "7 NoEnd")


def expanded(lines, nodes):
    """The commands that the lines stand for in a cluster of so many nodes."""
    for line in lines:
        if line[0] != "move":
            yield line
            continue
        _, first, last, source, target, size = line
        others = [node for node in range(nodes) if node not in (source, target)]
        for place in range(first, last + 1):
            yield "importing", place, source, target
            yield "migrating", place, target, source
            yield "drain", place, source, target, size
            for at in [target, source, *others]:
                yield "node", place, target, at
