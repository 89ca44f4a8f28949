"""What is compared of an answer: a form is a function of a reply, whose IDs and ports are told by the node's number."""

import re

BUS = 10_000
# Fields of CLUSTER INFO that say what has come over the bus, or by which epoch.
PACKETS = re.compile(rb"cluster_stats_messages_|cluster_(current|my)_epoch:")
# The fields of INFO whose values are compared too.
FIXED = (b"redis_version", b"redis_mode", b"role", b"loading", b"cluster_enabled", b"connected_slaves")


def listed(words):
    return " ".join(word.decode("latin-1") if isinstance(word, bytes) else str(word) for word in words)


class Told:
    """The IDs of a cluster's nodes and their ports, which follow each other."""

    def __init__(self, ids, port):
        self.ids, self.port = ids, port

    def number_of(self, identity):
        return self.ids.index(identity)

    def plain(self, reply):
        """The reply with `<id-0>` and `<port-0>` in the place of the first node's."""
        mark, carried = reply
        if isinstance(carried, list):
            return mark, [self.plain(part) for part in carried]
        if isinstance(carried, int):
            number = carried - self.port
            return (mark, f"<port-{number}>") if 0 <= number < len(self.ids) else reply
        return (mark, self.text(carried)) if isinstance(carried, bytes) else reply

    def text(self, text):
        for number, identity in enumerate(self.ids):
            text = text.replace(identity.encode(), b"<id-%d>" % number)
            text = re.sub(rb":%d\b" % (self.port + number), b":<port-%d>" % number, text)
            text = re.sub(rb"@%d\b" % (self.port + number + BUS), b"@<bus-%d>" % number, text)
        return text


def exact(reply):
    return reply


def shape(reply):
    """The kind of each part, and whether a text is empty."""
    mark, carried = reply
    if isinstance(carried, list):
        return mark, [shape(part) for part in carried]
    return mark, bool(carried) if isinstance(carried, bytes) else None


def pairs(reply):
    """A map by its names, whatever their order."""
    parts = reply[1]
    return {name[1]: value for name, value in zip(parts[::2], parts[1::2])}


def hello(reply):
    """Of what HELLO answers, without the number of the connection."""
    if reply[0] != "*":
        return reply
    return [(name, shape(value) if name == b"id" else value) for name, value in pairs(reply).items()]


def node_lines(reply):
    """CLUSTER NODES in the nodes' order, without the times of pings and pongs and the epochs."""
    if reply[0] != "$":
        return reply
    lines = [line.split(b" ") for line in reply[1].split(b"\n")]
    whole = [b" ".join([*words[:4], b"PING PONG EPOCH", *words[7:]]) for words in lines]
    return sorted(whole)


def shards(reply):
    """CLUSTER SHARDS in the order of slots, without the offset of a replica."""
    if reply[0] != "*":
        return reply
    told = []
    for part in reply[1]:
        fields = pairs(part)
        nodes = [{**pairs(node), b"replication-offset": None} for node in fields[b"nodes"][1]]
        told.append((list(fields), fields[b"slots"], [list(node.items()) for node in nodes]))
    return sorted(told, key=lambda shard: str(shard))


def state(reply):
    """CLUSTER INFO without packets and epochs."""
    if reply[0] != "$":
        return reply
    return [line for line in reply[1].split(b"\r\n") if not PACKETS.match(line)]


def fields_of(reply):
    """The fields of INFO, by their sections."""
    section, found = b"", {}
    for line in reply[1].split(b"\r\n"):
        if line.startswith(b"# "):
            section = line
        elif line:
            name, _, value = line.partition(b":")
            found[section, name] = value if name in FIXED else None
    return found


# Commands that take options at a redis-server and none here, by what it tells of their count of words and what is told
# here.
COUNTS = {b"set": (-3, 3), b"lpop": (-2, 2), b"rpop": (-2, 2)}


def counted(name, count):
    """The count of words as a node tells it, whoever told this one."""
    there, here = COUNTS.get(name[1], (None, None))
    return (":", here) if count == (":", there) else count


def command_rows(reply):
    """Of each command: its name, its count of words and where its keys stand."""
    if reply[0] != "*":
        return reply
    rows = [row[1] for row in reply[1]]
    return [row and [row[0], counted(row[0], row[1]), *row[3:6]] for row in rows]


def flags_of(reply):
    """The flags of each command."""
    return [set() if row[1] is None else {flag[1] for flag in row[1][2][1]} for row in reply[1]]


def documents(reply):
    """The name of each command with its group and since when it is there."""
    if reply[0] != "*":
        return reply
    told = pairs(reply)
    return {name: [pairs(fact).get(word) for word in (b"summary", b"since", b"group")] for name, fact in told.items()}
