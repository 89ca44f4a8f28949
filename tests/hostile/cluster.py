"""A cluster by its definition: nodes with keys, owners and marks, one event after the other, all of them kept."""

import dataclasses

import store
from hash_slots import slot_of

BASE_PORT = 7000
NOT_OWNER = ("-", b"ERR the node does not own the slot")
ALREADY_OWNER = ("-", b"ERR the node already owns the slot")
UNKNOWN_NODE = ("-", b"ERR unknown node")
KEYS_REMAIN = ("-", b"ERR the node still holds keys of the slot")
SAME_NODE = ("-", b"ERR the node itself is named")
BUSY = ("-", b"ERR Target instance replied with error: BUSYKEY Target key name already exists.")
NOT_IMPORTING = ("-", b"ERR Target instance replied with error: ERR the slot is not importing")
NO_KEY = ("+", b"NOKEY")
CROSS_SLOT = ("-", b"CROSSSLOT Keys in request don't hash to the same slot")
TRY_AGAIN = ("-", b"TRYAGAIN Multiple keys request during rehashing of slot")


@dataclasses.dataclass
class Node:
    number: int
    owners: list
    keys: dict
    importing: dict
    migrating: dict


@dataclasses.dataclass
class Sent:
    """A client's command that is on the trail, and whether its ASKING counts: at a node that imports the slot."""
    node: int
    keys: list
    reply: tuple
    has_to_be_earned: bool


@dataclasses.dataclass
class Imported:
    """A SETSLOT IMPORTING that was accepted: no ASK from before it earns an ASKING at the node."""
    node: int
    slot: int


def redirection(word, slot, node):
    return "-", b"%s %d 127.0.0.1:%d" % (word, slot, BASE_PORT + node)


class Cluster:
    def __init__(self, nodes, owners):
        self.nodes = [Node(number, list(owners), {}, {}, {}) for number in range(nodes)]
        self.events = []

    def is_clean(self, owners):
        return all(it.owners == owners and not it.importing and not it.migrating for it in self.nodes)

    def verdict(self, node, asking, keys):
        """None where the node serves the command."""
        slots = {slot_of(key) for key in keys}
        if len(slots) > 1:
            return CROSS_SLOT
        slot = slots.pop()
        missing = [key not in node.keys for key in keys]
        owns = node.owners[slot] == node.number
        if owns and slot in node.migrating and any(missing):
            return redirection(b"ASK", slot, node.migrating[slot]) if all(missing) else TRY_AGAIN
        if asking and slot in node.importing:
            return TRY_AGAIN if len(set(keys)) > 1 and any(missing) else None
        return None if owns else redirection(b"MOVED", slot, node.owners[slot])

    def client(self, number, asking, name, words):
        """The node's reply to a command that has the right count of words."""
        node, keys = self.nodes[number], store.keys_of(name, words)
        reply = self.verdict(node, asking, keys) or store.apply(node.keys, name, words)
        is_watched = asking and reply != CROSS_SLOT and slot_of(keys[0]) in node.importing
        self.events.append(Sent(number, keys, reply, is_watched))
        return reply

    def look(self, number):
        """CLUSTER SLOTS."""
        owners, ranges, first = self.nodes[number].owners, [], 0
        for slot in range(1, len(owners) + 1):
            if slot == len(owners) or owners[slot] != owners[first]:
                address = [("$", b"127.0.0.1"), (":", BASE_PORT + owners[first]), ("$", b"%040x" % owners[first])]
                ranges.append(("*", [(":", first), (":", slot - 1), ("*", address)]))
                first = slot
        self.events.append(None)
        return "*", ranges

    def setslot(self, what, slot, other, at):
        self.events.append(None)
        node = self.nodes[at]
        owns = node.owners[slot] == at
        if what == "node":
            return self.set_node(node, slot, other)
        if owns != (what == "migrating"):
            return NOT_OWNER if what == "migrating" else ALREADY_OWNER
        if other >= len(self.nodes):
            return UNKNOWN_NODE
        if other == at:
            return SAME_NODE
        if what == "importing":
            self.events[-1] = Imported(at, slot)
        (node.importing if what == "importing" else node.migrating)[slot] = other
        return store.OK

    def set_node(self, node, slot, owner):
        if owner >= len(self.nodes):
            return UNKNOWN_NODE
        if node.owners[slot] == node.number != owner and any(slot_of(key) == slot for key in node.keys):
            return KEYS_REMAIN
        node.owners[slot] = owner
        (node.importing if owner == node.number else node.migrating).pop(slot, None)
        return store.OK

    def set_stable(self, slot, at):
        """Takes both marks of the slot, and is never refused."""
        self.events.append(None)
        self.nodes[at].importing.pop(slot, None)
        self.nodes[at].migrating.pop(slot, None)
        return store.OK

    def keys_in(self, slot, count, at):
        self.events.append(None)
        return store.bulks(sorted(key for key in self.nodes[at].keys if slot_of(key) == slot)[:count])

    def migrate(self, keys, source, target):
        """All of the listed keys that the source holds go to the target, or none."""
        self.events.append(None)
        if target >= len(self.nodes):
            return UNKNOWN_NODE
        if target == source:
            return SAME_NODE
        held, there = self.nodes[source].keys, self.nodes[target]
        moved = [key for key in keys if key in held]
        if not moved:
            return NO_KEY
        if slot_of(keys[0]) not in there.importing:
            return NOT_IMPORTING
        if any(key in there.keys for key in moved):
            return BUSY
        for key in moved:
            there.keys[key] = held.pop(key)
        return store.OK

    def is_earned(self, sent, earlier):
        """Whether an ASK for the same keys names the node, since the last SETSLOT IMPORTING of their slot there."""
        slot = slot_of(sent.keys[0])
        ask = redirection(b"ASK", slot, sent.node)
        for event in reversed(earlier):
            if event == Imported(sent.node, slot):
                return False
            if isinstance(event, Sent) and event.keys == sent.keys and event.reply == ask:
                return True
        return False

    def honesty(self):
        """`honest`, or the first event, counted from 1, whose ASKING no earlier ASK earned."""
        for place, event in enumerate(self.events):
            if isinstance(event, Sent) and event.has_to_be_earned and not self.is_earned(event, self.events[:place]):
                return f"dishonest event {place + 1}"
        return "honest"
