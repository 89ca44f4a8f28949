"""The first command of a plan that is at fault, by the table of a slot's states."""


def nodes_of(command):
    return command[2:3] if command[0] == "stable" else command[2:4]


def next_state(state, command, nodes, version):
    """The state of the command's slot after it, or the number and name of its fault. A state is its name, the source,
    which is the owner of a slot that is not on its way, the target, and which nodes were told."""
    if any(node >= nodes for node in nodes_of(command)):
        return "1 UnknownNode"
    name, source, target, told = state
    if command[0] == "stable":
        return untouched(source) if name == "importing" and command[2] == target else "4 OutOfOrder"
    if name == "moved":
        return "6 MovedTwice"
    kind, _, other, at = command[:4]
    if name == "untouched":
        return first_state(kind, other, at, source)
    if name == "importing":
        return expect(kind, "migrating", (other, at) == (target, source), ("migrating", source, target, told))
    if name == "migrating":
        return expect(kind, "drain", (other, at) == (source, target), ("drained", source, target, told))
    return told_state(state, kind, other, at, nodes, version)


def untouched(owner):
    return "untouched", owner, None, frozenset()


def first_state(kind, source, target, owner):
    if kind != "importing":
        return "4 OutOfOrder"
    if source == target:
        return "3 SameNode"
    return ("importing", source, target, frozenset()) if source == owner else "2 NotOwner"


def expect(kind, wanted, names_match, state):
    if kind != wanted:
        return "4 OutOfOrder"
    return state if names_match else "5 WrongNode"


def told_state(state, kind, owner, at, nodes, version):
    """After the drain the target is told, then the source, then each other node once. Then the slot is at its end in
    version 1, and may be moved on in the others."""
    _, source, target, told = state
    if kind != "node":
        return "4 OutOfOrder"
    if owner != target:
        return "5 WrongNode"
    is_next = at not in told if len(told) >= 2 else at == [target, source][len(told)]
    if not is_next:
        return "4 OutOfOrder"
    told = told | {at}
    if len(told) < nodes:
        return "told", source, target, told
    return ("moved", source, target, told) if version == 1 else untouched(target)


def answer(version, commands, owners, nodes):
    """`verified C commands`, or `refused: ` with the first fault."""
    states, last, count = {}, {}, 0
    for count, command in enumerate(commands, 1):
        slot = command[1]
        state = next_state(states.get(slot, untouched(owners[slot])), command, nodes, version)
        if isinstance(state, str):
            return f"refused: {state} slot {slot} command {count}"
        states[slot], last[slot] = state, count
    left = [slot for slot, state in states.items() if state[0] not in ("untouched", "moved")]
    if left:
        return f"refused: 7 LeftOpen slot {min(left)} command {last[min(left)]}"
    return f"verified {count} commands"
