"""The phases of a slot, by tables and marks alone, and parts of legal plans, of commands as plan_texts has them."""

import functools
import itertools
import typing

import plan_texts
import verification


class Phase(typing.NamedTuple):
    """A closed slot has its owner twice. Once the source was told, the nodes in `left` still name it."""
    kind: str
    source: int
    target: int
    left: frozenset = frozenset()


def rows_of(phase, count):
    """For each of so many nodes the owner that it names, its migrating mark and its importing mark."""
    kind, source, target, left = phase
    told = {"target told": {target}, "source told": set(range(count)) - left}.get(kind, ())
    return tuple((target if node in told else source,
                  target if node == source and kind in ("migrating", "target told") else None,
                  source if node == target and kind in ("importing", "migrating") else None) for node in range(count))


@functools.cache
def phases(count):
    """Each phase that a slot of a cluster may have, by its rows. The closed ones are first."""
    found = [Phase("closed", node, node) for node in range(count)]
    for source, target in itertools.permutations(range(count), 2):
        others = set(range(count)) - {source, target}
        found += [Phase(kind, source, target) for kind in ("importing", "migrating", "target told")]
        found += [Phase("source told", source, target, frozenset(left))
                  for size in range(1, len(others) + 1) for left in itertools.combinations(others, size)]
    return {rows_of(phase, count): phase for phase in found}


def phase_of(nodes, slot):
    """The phase that the nodes' tables and marks tell, or None."""
    rows = tuple((node.owners[slot], node.migrating.get(slot), node.importing.get(slot)) for node in nodes)
    return phases(len(nodes)).get(rows)


def homes(phase):
    """The nodes where keys of the slot may be."""
    kind, source, target, _ = phase
    return {"importing": {source}, "migrating": {source, target}}.get(kind, {target})


def allows(phase, nodes, keys, at):
    """Whether an ASK that counts may have sent a command with these keys to the node."""
    if phase.kind == "importing":
        return at != phase.target
    return phase.kind != "migrating" or at != phase.target or not any(key in nodes[phase.source].keys for key in keys)


@functools.lru_cache(maxsize=1000)
def legal_end(phase, part, count):
    """The owner that a slot in this phase has after this part of a plan of version 3, or None where it is not legal."""
    told = frozenset(node for node, row in enumerate(rows_of(phase, count)) if row[0] == phase.target)
    state = phase.kind.replace("closed", "untouched").split()[-1], phase.source, phase.target, told
    for command in part:
        state = verification.next_state(state, command, count, 3)
        if isinstance(state, str):
            return None
    return state[1] if state[0] == "untouched" else None


def part(chance, slot, phase, count, version):
    """A legal part of the slot, and the owner after it: what closes it, then moves and tries, as the version allows."""
    def move(source, target):
        line = "move", slot, slot, source, target, chance.choice([1, 1, 2, 10])
        return list(plan_texts.expanded([line], count))

    commands, owner, most = [], phase.target, 2 if version > 1 else int(phase.kind == "closed")
    if phase.kind == "importing" and version == 3 and chance.random() < 0.4:
        commands, owner = [("stable", slot, phase.target)], phase.source
    elif phase.kind != "closed":
        begins = {"importing": 1, "migrating": 2, "target told": 4, "source told": 5}[phase.kind]
        commands = [command for command in move(phase.source, phase.target)[begins:]
                    if begins < 5 or command[3] in phase.left]
    for _ in range(chance.randint(min(1, most), most)):
        target = chance.choice([node for node in range(count) if node != owner])
        if version == 3 and chance.random() < 0.3:
            commands += [("importing", slot, owner, target), ("stable", slot, target)]
        else:
            commands += move(owner, target)
            owner = target
    return commands, owner
