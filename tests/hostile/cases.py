"""Cases for the program, made by chance: each has the words after the program's name, its input, and what it is to
print with its status, by the definitions beside this file."""

import dataclasses

import outlines
import plan_texts
import planners
import scripts
import store
import verification
from hash_slots import even_split

# Keys of two slots, several of each, one of them an empty key, and one with bytes that have to be escaped.
KEYS = [b"b", b"{b}x", b"{b}y", b"{b}\x00", b"a", b"{a}1", b"", b"{}", b"{b"]
SLOTS = [3300, 15495, 0, 5460, 5461, 10922, 10923, 16383]
VALUES = [b"", b"1", b"-9223372036854775808", b"9223372036854775807", b"01", b"x y", b"\r\n", b"\\", b"\xff"]
NAMES = [b"GET", b"set", b"MGET", b"MSET", b"DEL", b"EXISTS", b"INCR", b"DECRBY", b"APPEND", b"RENAME", b"SETNX",
         b"STRLEN", b"HSET", b"HGET", b"HDEL", b"HGETALL", b"LPUSH", b"RPUSH", b"LPOP", b"RPOP", b"LRANGE", b"SADD",
         b"SREM", b"SMEMBERS", b"SMOVE", b"SCARD", b"TYPE", b"HLEN", b"HEXISTS", b"LLEN", b"SISMEMBER", b"DECR",
         b"INCRBY", b"PING", b"CLUSTER", b"MIGRATE", b"ASKING", b"NOSUCH"]
COMMON = [b"GET", b"SET", b"SET", b"MSET", b"MGET", b"DEL", b"EXISTS", b"INCR"]
DAMAGES = [b"", b" ", b"\n", b"n8", b"-1", b"+1", b"007", b"16384", b"99999999999999999999", b"end\n", b"\x00", b"\r"]


@dataclasses.dataclass
class Case:
    words: list
    given: bytes
    output: bytes
    status: int
    errors: bytes = b""


def nodes_and_even(chance):
    nodes = chance.randint(1, 8) if chance.random() < 0.5 else 3
    even = chance.randint(1, nodes) if chance.random() < 0.3 else nodes
    return nodes, even, ["--nodes", f"{nodes}", "--even", f"{even}"]


def text_of(line):
    kind = line[0]
    if kind == "move":
        _, first, last, source, target, size = line
        places = f"{first}" if first == last else f"{first}-{last}"
        return f"move {places} from n{source} to n{target} by {size}".encode()
    if kind == "drain":
        return "drain {} at n{} to n{} by {}".format(*line[1:]).encode()
    if kind == "stable":
        return "setslot {} stable at n{}".format(*line[1:]).encode()
    return f"setslot {line[1]} {kind} n{line[2]} at n{line[3]}".encode()


def slot_by(chance):
    return chance.choice(SLOTS) if chance.random() < 0.8 else chance.randrange(16384)


def plan_lines(chance, nodes, owners, version):
    """The lines of a plan that is legal but for what chance makes of the source and of the order. In version 2 slots
    mostly go on from where they are, and in version 3 some are announced and then withdrawn."""
    lines, owners = [], list(owners)
    for _ in range(chance.randint(0, 3)):
        slot, size = slot_by(chance), chance.choice([1, 2, 10, 1000])
        source = owners[slot] if chance.random() < 0.95 else chance.randrange(8)
        target = chance.randrange(nodes) if chance.random() < 0.97 else chance.randrange(8)
        if version == 3 and chance.random() < 0.5:
            lines += [("importing", slot, source, target), ("stable", slot, target)]
        last = min(16383, slot + chance.choice([0, 0, 0, 1, 3, 40, 17000]))
        move = "move", slot, last, source, target, size
        if last - slot > 3 or chance.random() < 0.5:
            lines.append(move)
        else:
            lines += plan_texts.expanded([move], nodes)
        if version > 1:
            owners[slot:last + 1] = [target] * (last + 1 - slot)
    return disturbed(chance, lines)


def disturbed(chance, lines):
    """The same lines, or with one left out, said twice or put elsewhere."""
    if lines and chance.random() < 0.4:
        line = lines.pop(chance.randrange(len(lines)))
        for _ in range(chance.choice([0, 1, 2])):
            lines.insert(chance.randint(0, len(lines)), line)
    return lines


def plan_text(chance, nodes, owners, version):
    lines = [b"reshard-plan %d" % version, *map(text_of, plan_lines(chance, nodes, owners, version)), b"end"]
    return b"".join(line + b"\n" for line in lines)


def damaged(chance, text):
    """The text with a few bytes at one place taken out and others put in."""
    place, width = chance.randint(0, len(text)), chance.choice([0, 0, 1, 1, 2, 9])
    return text[:place] + chance.choice([*DAMAGES, bytes([chance.randrange(256)])]) + text[place + width:]


def verified(text, owners, nodes):
    """The line of `verify` for a plan's text, and its version and lines where it is one."""
    try:
        version, lines = plan_texts.lines_of(text)
        return verification.answer(version, plan_texts.expanded(lines, nodes), owners, nodes), version, lines
    except plan_texts.PlanFault as fault:
        return f"refused: {fault}", None, None


def verify_case(chance):
    nodes, even, words = nodes_and_even(chance)
    owners = even_split(even)
    text = plan_text(chance, nodes, owners, chance.choice([1, 1, 2, 3]))
    while chance.random() < 0.4:
        text = damaged(chance, text)
    answer = verified(text, owners, nodes)[0]
    return Case(["verify", *words], text, f"{answer}\n".encode(), int(answer.startswith("refused")))


def explain_case(chance):
    nodes, even, words = nodes_and_even(chance)
    owners, as_json = even_split(even), chance.random() < 0.5
    text = plan_text(chance, nodes, owners, chance.choice([1, 1, 2, 3]))
    while chance.random() < 0.1:
        text = damaged(chance, text)
    answer, version, lines = verified(text, owners, nodes)
    words = ["explain", *words, *(["--json"] if as_json else [])]
    if answer.startswith("refused"):
        return Case(words, text, f"{outlines.refused(answer, as_json)}\n".encode(), 1)
    return Case(words, text, outlines.explained(version, plan_texts.expanded(lines, nodes), owners, nodes,
                                                as_json).encode(), 0)


def planned(words, plan, nothing, too_many=""):
    """A plan is printed as it is, a fault after `refused: `. Why there is nothing to move, and how many slots there are
    where too many are asked for, is on standard error."""
    is_plan, remark = plan.startswith("reshard-plan"), ""
    if plan == "2 TooMany":
        remark = too_many
    elif is_plan and "move" not in plan:
        remark = f"nothing to move: {nothing}\n"
    output = plan if is_plan else f"refused: {plan}\n"
    return Case(words, b"", output.encode(), int(not is_plan), remark.encode())


def reshard_case(chance):
    nodes, even, words = nodes_and_even(chance)
    target, batch = chance.randrange(nodes), chance.choice([1, 10, 1000])
    count = chance.choice([0, 1, 7, 100, 5461, 16384, chance.randrange(16385)])
    sources = [chance.randrange(nodes) for _ in range(chance.randint(1, 4))]
    named = ",".join(f"n{source}" for source in sources)
    if chance.random() < 0.3:
        sources, named = [node for node in range(nodes) if node != target], "all"
    words = ["plan-reshard", *words, "--from", named, "--to", f"n{target}"]
    slots = f"{count}"
    if chance.random() < 0.2:
        slots, count = "all", max(1, sum(owner in sources for owner in even_split(even)))
    words += ["--slots", slots, "--batch", f"{batch}"]
    owned = sum(owner in sources for owner in even_split(even))
    return planned(words, planners.reshard(even_split(even), nodes, sources, target, count, batch), "--slots is 0",
                   f"slots of the nodes of --from: {owned}\n")


def rebalance_case(chance):
    nodes, even, words = nodes_and_even(chance)
    weights = [chance.choice([0, 1, 1, 2, 3, 1000, chance.randint(0, 1000)]) for _ in range(nodes)]
    threshold, use_empty = chance.choice([0, 1, 2, 5, 50, 100]), chance.random() < 0.6
    named = ",".join(map(str, weights))
    words = ["plan-rebalance", *words, "--weights", named, "--threshold", f"{threshold}", "--batch", "10"]
    plan = planners.rebalance(even_split(even), nodes, weights, threshold, use_empty, 10)
    nothing = "each node has its share, or is within --threshold of it"
    if even < nodes and not use_empty:
        nothing = "each node that has slots has its share; give --use-empty for the others"
    return planned([*words, "--use-empty"] if use_empty else words, plan, nothing)


def drain_case(chance):
    nodes, even, words = nodes_and_even(chance)
    sources = [chance.randrange(nodes) for _ in range(chance.randint(1, 3))]
    targets = [node for node in range(nodes) if node not in sources]
    words = ["plan-drain", *words, "--from", ",".join(f"n{source}" for source in sources)]
    if chance.random() < 0.5:
        targets = [chance.randrange(nodes) for _ in range(chance.randint(1, 4))]
        words += ["--to", ",".join(f"n{target}" for target in targets)]
    return planned([*words, "--batch", "100"], planners.drain(even_split(even), nodes, sources, targets, 100),
                   "the nodes of --from own no slots")


def escaped(word):
    return scripts.key_word(word).encode()


def words_of(chance):
    """A client's request: mostly a command with as many words as it takes, on keys of the first slot."""
    keys = KEYS[:4] if chance.random() < 0.9 else KEYS
    name = chance.choice(COMMON if chance.random() < 0.6 else NAMES)
    if name == b"CLUSTER":
        word = chance.choice([b"slots", b"KEYSLOT", b"SETSLOT", b"nodes"])
        return [name, word, *chance.sample(KEYS, chance.randint(0, 1))]
    least, most, keys_among, _ = store.TABLE.get(name.lower(), (0, 2, lambda words: [], None))
    count = least if chance.random() < 0.7 else chance.randint(0, 4) if most is None or chance.random() < 0.1 else most
    words = list(range(count))
    named = keys_among(words)
    return [name, *(chance.choice(keys if word in named or chance.random() < 0.2 else VALUES) for word in words)]


def busy_node(chance, nodes):
    """A node, mostly one of the first two, between which most slots move."""
    return chance.randrange(min(2, nodes)) if chance.random() < 0.8 else chance.randrange(nodes)


def client_line(chance, nodes):
    verb = b"asking" if chance.random() < 0.3 else b"at"
    return b" ".join([verb, b"n%d" % busy_node(chance, nodes), *map(escaped, words_of(chance))])


def administrator_line(chance, nodes):
    at, other = busy_node(chance, nodes), busy_node(chance, min(8, nodes + 1))
    slot = SLOTS[0] if chance.random() < 0.8 else slot_by(chance)
    keys = chance.sample(KEYS[:4], chance.randint(1, 3))
    return chance.choice([
        b"setslot %d importing n%d at n%d" % (slot, other, at),
        b"setslot %d migrating n%d at n%d" % (slot, other, at),
        b"setslot %d node n%d at n%d" % (slot, other, at),
        b"setslot %d stable at n%d" % (slot, at),
        b"getkeysinslot %d %d at n%d" % (slot, chance.choice([1, 2, 1000]), at),
        b" ".join([b"migrate", *map(escaped, keys), b"at n%d to n%d" % (at, busy_node(chance, nodes))]),
    ])


def script_plan(chance, nodes, owners):
    """A plan of any kind, or one that moves the first slot by small batches."""
    if chance.random() < 0.3:
        return plan_text(chance, nodes, owners, 1)
    source, target, batch = owners[SLOTS[0]], busy_node(chance, nodes), chance.choice([1, 2, 10])
    return b"reshard-plan 1\nmove %d from n%d to n%d by %d\nend\n" % (SLOTS[0], source, target, batch)


def script_text(chance):
    """Lines of clients and of the administrator, or, once a plan is there, of clients and of the plan's steps."""
    nodes, even, _ = nodes_and_even(chance)
    has_marks = chance.random() < 0.5
    lines, has_plan = [b"cluster %d even %d" % (nodes, even)], False
    for _ in range(chance.randint(0, 60)):
        turn = chance.random()
        if turn < 0.1 and not has_plan and not has_marks:
            has_plan = True
            lines += script_plan(chance, nodes, even_split(even)).split(b"\n")[:-1]
        elif turn < 0.3 and has_marks:
            lines.append(administrator_line(chance, nodes))
        elif turn < 0.35 and has_plan:
            lines.append(b"run" if chance.random() < 0.03 else b"step")
        elif turn < 0.4:
            lines.append(b"honest")
        else:
            lines.append(client_line(chance, nodes))
    return b"".join(line + b"\n" for line in lines)


def script_case(chance):
    text = script_text(chance)
    if chance.random() < 0.1:
        text = damaged(chance, text)
    lines, status = scripts.rehearse(text)
    return Case(["rehearse"], text, "".join(f"{line}\n" for line in lines).encode("latin-1"), status)


KINDS = [verify_case] * 3 + [explain_case] * 2 + [reshard_case, rebalance_case, drain_case] + [script_case] * 4


def case(chance):
    return chance.choice(KINDS)(chance)
