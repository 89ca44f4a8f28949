"""Plans that move slots round among the nodes of an even split, while clients count."""

SLOTS = 16384


def round_of(nodes, moved):
    """The first of each node's slots, so many, move to the next node. Eight nodes have 2,048 each; one node has no such
    plan, and its plan is empty."""
    each = SLOTS // nodes
    moves = [
        f"move {each * node}-{each * node + moved - 1} from n{node} to n{(node + 1) % nodes} by 10"
        for node in range(nodes if nodes > 1 else 0)
    ]
    return "\n".join(["reshard-plan 1", *moves, "end", ""])
