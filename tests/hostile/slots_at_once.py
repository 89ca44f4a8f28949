"""A run by chance: a legal plan whose slots are moved at once, beside clients, and what is broken after an event."""

import enum
import itertools

import slot_phases
import store
from cluster import BASE_PORT, Cluster, Node
from hash_slots import slot_of

KEYS = {slot_of(tag): [b"{%s}%d" % (tag, number) for number in range(4)] for tag in (b"a", b"b", b"c")}
REDIRECTIONS = {b"MOVED", b"ASK", b"TRYAGAIN", b"CROSSSLOT"}


class Dropped(enum.Enum):
    """What a run does in place of a premise, and the clauses that break then."""
    DRAINED = "NODE at the target overtakes the drain", {"no refusal", "goes on", "replies", "one store"}
    OWN_LISTING = "the empty listing of one slot is taken for those of others", {"replies", "one store"}
    TARGET_FIRST = "the source is told before the target", {"left open"}
    SOURCE_NEXT = "another node is told before the source", {"left open"}
    WHOLE = "the last node of a part is not told", {"closed", "clean end"}
    ALONE = "another administrator sends STABLE", {"replies", "one store", "within cost"}
    ASKED = "clients send ASKING unasked", {"replies", "one store"}
    ASKED_SINCE = "clients follow an ASK from before the last IMPORTING", {"replies", "one store"}


class Servers(Cluster):
    """Nodes that know of a few slots, each slot in a phase."""

    def __init__(self, chance, count, phases):
        super().__init__(count, [])
        self.chance = chance
        for node in self.nodes:
            rows = {slot: slot_phases.rows_of(phase, count)[node.number] for slot, phase in phases.items()}
            node.owners = {slot: owner for slot, (owner, _, _) in rows.items()}
            node.migrating = {slot: goes for slot, (_, goes, _) in rows.items() if goes is not None}
            node.importing = {slot: comes for slot, (_, _, comes) in rows.items() if comes is not None}

    def held(self, slot, at):
        return [key for key in KEYS[slot] if key in self.nodes[at].keys]

    def keys_in(self, slot, count, at):
        """Any keys of the slot, in any order, as a server may list them."""
        keys = self.held(slot, at)
        return store.bulks(self.chance.sample(keys, min(count, len(keys))))

    def send(self, call):
        """The reply to a call of the administrator."""
        others = {"keys_in": self.keys_in, "migrate": self.migrate, "stable": self.set_stable}
        return others[call[0]](*call[1:]) if call[0] in others else self.setslot(*call)

    def refuses(self, call):
        """Whether the call would be refused now. Nothing is done."""
        nodes, events = self.nodes, self.events
        self.nodes, self.events = [Node(it.number, dict(it.owners), dict(it.keys), dict(it.importing),
                                        dict(it.migrating)) for it in nodes], []
        reply = self.send(call)
        self.nodes, self.events = nodes, events
        return reply[0] == "-"


class Part:
    """A slot's part of a plan, the owner that it leaves, how many keys the source had as each drain began, and what is
    left of it, with the keys of a listing that no MIGRATE has followed yet."""

    def __init__(self, slot, commands, owner, counts, is_source_told):
        self.slot, self.owner, self.commands, self.counts = slot, owner, len(commands), counts
        self.batches = [command[4] for command in commands if command[0] == "drain"]
        self.rest, self.listed, self.calls, self.is_source_told = list(commands), [], 0, is_source_told

    def next_calls(self):
        """The call that continues, or any of those that tell nodes of the owner once the source was told."""
        first = self.rest[0]
        if first[0] == "drain":
            _, slot, source, target, batch = first
            return [("migrate", self.listed, source, target) if self.listed else ("keys_in", slot, batch, source)]
        is_free = first[0] == "node" and self.is_source_told
        return list(itertools.takewhile(lambda it: it[0] == "node", self.rest)) if is_free else [first]

    def take(self, call, reply):
        self.calls += 1
        if call[0] == "keys_in":
            self.listed = [key for _, key in reply[1]]
            del self.rest[:not self.listed]
        elif call[0] == "migrate":
            self.listed = []
        else:
            self.rest.remove(call)
            self.is_source_told = call[0] == "node" and call[2] != call[3]

    def cost(self):
        """A SETSLOT is one call; a drain is two for each batch of the keys that the source had, and a last listing."""
        return self.commands + sum(2 * -(-count // batch) for count, batch in zip(self.counts, self.batches))

    def left(self, phase):
        """What is left in this phase: the rest, with its drain where the slot was drained and no node was told yet."""
        is_drained = phase.kind == "migrating" and self.rest and self.rest[0][0] == "node"
        return *([("drain", self.slot, phase.source, phase.target, 1)] if is_drained else []), *self.rest


class Run:
    """Servers, the store that they are to be like, the parts of the plan, and the ASKs that count."""

    def __init__(self, chance, dropped=None):
        self.chance, self.dropped, self.haste = chance, dropped, chance.uniform(0.3, 0.9)
        self.values = (b"%d" % number for number in itertools.count())
        self.count, version = chance.randint(2, 4), chance.randint(1, 3)
        found = list(slot_phases.phases(self.count).values())
        phases = {slot: chance.choice(found if chance.random() < 0.5 else found[:self.count])
                  for slot in chance.sample(sorted(KEYS), chance.randint(2, 3))}
        self.servers, self.store, self.asks, self.trace = Servers(chance, self.count, phases), {}, {}, []
        self.reply, self.is_replayed, self.has_gained = store.OK, True, False
        for slot, phase in phases.items():
            for key in chance.sample(KEYS[slot], chance.randint(0, 4)):
                home = chance.choice(sorted(slot_phases.homes(phase)))
                self.store[key] = self.servers.nodes[home].keys[key] = next(self.values)
            keys, at = chance.sample(KEYS[slot], chance.choice([1, 1, 2])), chance.randrange(self.count)
            if slot_phases.allows(phase, self.servers.nodes, keys, at):
                self.asks[tuple(keys), at] = None
        self.begin(phases, {slot: slot_phases.part(chance, slot, phase, self.count, version)
                            for slot, phase in phases.items()})

    def begin(self, phases, plan):
        """A plan begins. A part that begins with its drain has the keys to move that the source has now."""
        self.trace.append(("plan", phases, plan))
        self.parts = []
        for slot, (commands, owner) in plan.items():
            if self.dropped is Dropped.WHOLE and commands and commands[-1][0] == "node":
                commands = commands[:-1]
            drains = commands and commands[0][0] == "drain"
            counts = [len(self.servers.held(slot, phases[slot].source))] if drains else []
            self.parts.append(Part(slot, commands, owner, counts, phases[slot].kind == "source told"))

    def play(self):
        """The clauses that are broken after each event, until all is done or a call was refused."""
        yield from self.broken()
        later = self.chance.randint(0, 6)
        while self.reply[0] != "-" and (later > 0 or self.open_parts()):
            later -= not self.open_parts()
            self.step()
            yield from self.broken()
            if self.chance.random() < 0.01 and None not in (phases := self.phases()).values():
                self.begin(phases, {part.slot: (part.left(phases[part.slot]), part.owner) for part in self.parts})

    def open_parts(self):
        return [part for part in self.parts if part.rest]

    def phases(self):
        return {part.slot: slot_phases.phase_of(self.servers.nodes, part.slot) for part in self.parts}

    def step(self):
        marked = [(slot, node.number, self.servers.held(slot, node.number)) for node in self.servers.nodes
                  for slot in node.migrating if node.owners[slot] == node.number]
        if (open_parts := self.open_parts()) and self.chance.random() < self.haste:
            self.administrator(self.chance.choice(open_parts))
        else:
            self.client()
        self.has_gained = any(set(self.servers.held(slot, at)) - set(held) for slot, at, held in marked)

    def administrator(self, part):
        call = self.chance.choice(self.next_calls(part))
        if call[0] == "migrating":
            part.counts.append(len(self.servers.held(part.slot, call[3])))
        self.reply = self.servers.send(call)
        self.trace.append((*call, self.reply))
        part.take(call, self.reply)
        if call[0] == "importing" and self.dropped is not Dropped.ASKED_SINCE:
            self.asks = {ask: None for ask in self.asks if (slot_of(ask[0][0]), ask[1]) != (part.slot, call[3])}
        if self.dropped is Dropped.OWN_LISTING and call[0] == "keys_in" and not part.listed:
            for other in self.open_parts():
                del other.rest[:other.rest[0][0] == "drain"]
        if self.dropped is Dropped.ALONE and self.chance.random() < 0.05:
            self.servers.set_stable(part.slot, self.chance.randrange(self.count))

    def next_calls(self, part):
        """The part's, or where a premise is dropped a command that overtakes the one before it."""
        first, *more = part.rest
        is_before = bool(more) and more[0][0] == "node" and not part.is_source_told
        overtakes = is_before and (
            self.dropped is Dropped.DRAINED and first[0] == "drain" and self.chance.random() < 0.2
            or self.dropped is Dropped.TARGET_FIRST and first[0] == "node" and first[2] == first[3]
            or self.dropped is Dropped.SOURCE_NEXT and first[0] == "node" and first[2] != first[3])
        return more[:1] if overtakes else part.next_calls()

    def client(self):
        """A command that follows an ASK, or one to any node or to one that a table names the owner."""
        chance, nodes = self.chance, self.servers.nodes
        if self.asks and chance.random() < 0.4:
            (keys, at), is_asking = chance.choice(list(self.asks)), True
        else:
            slot, other = chance.choices(list(nodes[0].owners), k=2)
            is_cross = chance.random() < 0.05
            keys = [KEYS[slot][0], KEYS[other][0]] if is_cross else chance.sample(KEYS[slot], chance.choice([1, 1, 2]))
            at = chance.choice([*range(self.count), *(node.owners[slot] for node in nodes)])
            # To a node that does not import the slot ASKING means nothing.
            is_harmless = slot not in nodes[at].importing or self.dropped is Dropped.ASKED
            is_asking = is_harmless and chance.random() < 0.2
        name = chance.choice([b"get", b"set", b"set", b"del"] if len(keys) == 1 else
                             [b"mget", b"mset", b"del", b"rename"])
        words = [word for key in keys for word in (key, next(self.values))] if name in (b"set", b"mset") else keys
        reply = self.servers.client(at, is_asking, name, words)
        self.trace.append(("asking" if is_asking else "client", f"n{at}", name, words, reply))
        word, _, place = reply[1].partition(b" ") if reply[0] == "-" else (b"", b"", b"")
        if word == b"ASK":
            self.asks[tuple(keys), int(place.rpartition(b":")[2]) - BASE_PORT] = None
        self.is_replayed = word in REDIRECTIONS or reply == store.apply(self.store, name, words)

    def broken(self):
        """The clauses that do not hold now."""
        nodes, phases, open_parts = self.servers.nodes, self.phases(), self.open_parts()
        owners = {part.slot: part.owner for part in self.parts}
        together = {key: value for node in nodes for key, value in node.keys.items()}
        clauses = {
            "no refusal": self.reply[0] != "-",
            "within cost": all(part.calls <= part.cost() for part in self.parts),
            "replies": self.is_replayed,
            "one store": together == self.store and sum(len(node.keys) for node in nodes) == len(together),
            "source gains nothing": not self.has_gained,
            "closed": all(part.rest or phases[part.slot] == slot_phases.Phase("closed", part.owner, part.owner)
                          for part in self.parts),
            "clean end": bool(open_parts) or self.servers.is_clean(owners) and all(
                owners[slot_of(key)] == node.number for node in nodes for key in node.keys),
            "goes on": not any(self.servers.refuses(call) for part in open_parts for call in part.next_calls()),
            # Keys, and the ASKs that count, are as the phases allow, and the rest of each part is legal for its phase.
            "left open": None not in phases.values() and all(
                node.number in slot_phases.homes(phases[slot_of(key)]) for node in nodes for key in node.keys) and all(
                slot_phases.allows(phases[slot_of(keys[0])], nodes, keys, at) for keys, at in self.asks) and all(
                slot_phases.legal_end(phases[part.slot], part.left(phases[part.slot]), self.count) == part.owner
                for part in self.parts),
        }
        return [clause for clause, holds in clauses.items() if not holds]
