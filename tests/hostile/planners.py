"""The plans of the planners, by their arithmetic, one slot at a time."""

from hash_slots import SLOTS


def plan_of(pairs, batch):
    """A plan's text: one line for each longest run of next slots with the same source and target, in their order. A
    pair is a slot, its source and its target."""
    ranges = []
    for slot, source, target in pairs:
        if ranges and ranges[-1][1:] == [slot - 1, source, target]:
            ranges[-1][1] = slot
        else:
            ranges.append([slot, slot, source, target])
    places = [(str(first) if first == last else f"{first}-{last}", source, target)
              for first, last, source, target in ranges]
    lines = [f"move {place} from n{source} to n{target} by {batch}\n" for place, source, target in places]
    return "".join(["reshard-plan 1\n", *lines, "end\n"])


def slots_by_owner(owners, nodes):
    return [[slot for slot in range(SLOTS) if owners[slot] == node] for node in range(nodes)]


def reshard(owners, nodes, sources, target, count, batch):
    """The plan that moves so many slots to the target, or the number and name of the fault."""
    held = slots_by_owner(owners, nodes)
    sources = sorted(set(sources))
    total = sum(len(held[source]) for source in sources)
    if not sources:
        return "1 NoSource"
    if count > total:
        return "2 TooMany"
    if target in sources:
        return "3 TargetIsSource"
    pairs, before = [], 0
    for source in sources:
        upto = before + len(held[source])
        gives = count * upto // total - count * before // total if total else 0
        pairs += [(slot, source, target) for slot in held[source][:gives]]
        before = upto
    return plan_of(pairs, batch)


def quotas(weights, held, use_empty):
    """How many slots each node is to hold, or None where the weights that count sum to 0."""
    counted = [weight if use_empty or held[node] else 0 for node, weight in enumerate(weights)]
    total, before, quota = sum(counted), 0, []
    if total == 0:
        return None
    for weight in counted:
        share = [(SLOTS * upto + total // 2) // total for upto in (before, before + weight)]
        quota.append(share[1] - share[0])
        before += weight
    return quota


def rebalance(owners, nodes, weights, threshold, use_empty, batch):
    """The plan that gives each node its quota, or the number and name of the fault."""
    held = slots_by_owner(owners, nodes)
    quota = quotas(weights, held, use_empty)
    if quota is None:
        return "4 NoWeight"
    counts = [len(slots) for slots in held]
    if not any(100 * abs(count - wanted) > threshold * wanted for count, wanted in zip(counts, quota)):
        return plan_of([], batch)
    given = [(slot, node) for node in range(nodes) for slot in held[node][:max(0, counts[node] - quota[node])]]
    taken = [node for node in range(nodes) for _ in range(quota[node] - counts[node])]
    return plan_of([(slot, source, target) for (slot, source), target in zip(given, taken)], batch)


def drain(owners, nodes, sources, targets, batch):
    """The plan that moves all slots of the sources to the targets, or the number and name of the fault."""
    held = slots_by_owner(owners, nodes)
    if not targets:
        return "7 NoTarget"
    if set(sources) & set(targets):
        return "3 TargetIsSource"
    others = [node for node in range(nodes) if node not in sources]
    quota = {node: len(held[node]) for node in others}
    given = [(slot, node) for node in range(nodes) if node in sources for slot in held[node]]
    for _ in given:
        quota[min(targets, key=quota.get)] += 1
    taken = [node for node in others for _ in range(quota[node] - len(held[node]))]
    return plan_of([(slot, source, target) for (slot, source), target in zip(given, taken)], batch)
