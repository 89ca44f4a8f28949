"""The plan that moves every slot of eight nodes to the node after its owner, one command a line."""

SLOTS = 16_384
NODES = 8


def lines():
    """180,224 lines: a whole move of eleven commands for each slot."""
    for slot in range(SLOTS):
        source = slot * NODES // SLOTS
        target = (source + 1) % NODES
        yield f"setslot {slot} importing n{source} at n{target}"
        yield f"setslot {slot} migrating n{target} at n{source}"
        yield f"drain {slot} at n{source} to n{target} by 1000"
        others = [node for node in range(NODES) if node not in (source, target)]
        for node in [target, source, *others]:
            yield f"setslot {slot} node n{target} at n{node}"


def plan(count):
    """The plan of so many lines, of which those after the moves begin to move slot 0 again."""
    moves = list(lines())
    more = ["setslot 0 importing n1 at n0"] * (count - len(moves))
    return "\n".join(["reshard-plan 1", *moves, *more, "end"])
