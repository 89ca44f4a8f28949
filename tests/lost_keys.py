#!/usr/bin/env python3
"""Keys that plans may lose: has a program run plans at real redis-servers that can lose keys though every command is
answered OK, and looks for each key afterwards.

usage: tests/lost_keys.py [--port FIRST] [--whole] [--seed NUMBER] PROGRAM [PART ..]

Each part starts servers of its own, four at most, on ports of 127.0.0.1 from FIRST on (19700 unless it is given, and
22400 at most, since the servers' bus has ports 10000 above), and ends them by their process ids. A slot moves at most
once in a part, but for `news`. After each plan every key has to lie at one node, with its value, and each node's table
shows the plan's owners, without a mark, within some seconds. In some rounds what servers tell each other is held back.
Without a PART all are tried, in this order:

  swaps        a slot goes one way and one the other, at two masters and at three, the owners told last of all; and
               slots by which two masters may come to have one config epoch
  chance       plans by chance that swap slots, send them round and pass them on
  news         slots that move on to a master that hears late of the owner before, with --wait-for-news
  failovers    a replica takes the source's place at chosen moments of a slot, by hand or as the source is killed, while
               a client writes
  emptied      a master that the plan empties becomes a replica, as may be; one that it does not empty may not
  dead_masters a replica has taken a dead master's place, before a plan and while one runs; then that master returns
  returning    a target dies in mid-move; at Valkey the slot goes on only once it is back, or said to be dead for good

--whole has each part play many more rounds. The plans by chance are those of the seed, which is the number of commits
unless it is given. redis-server and redis-cli are Debian's packages redis-server and redis-tools, and without them all
is skipped. The last line is 'N passed, M failed', a check each; the status is 1 where one failed."""

import pathlib
import random
import re
import signal
import subprocess
import sys
import threading
import time

TESTS = pathlib.Path(__file__).resolve().parent
sys.dont_write_bytecode = True
sys.path[:0] = [str(TESTS / "redis_server"), str(TESTS / "hostile")]

from connection import Connection  # noqa: E402
from followers import Follower  # noqa: E402
from hash_slots import SLOTS, even_split  # noqa: E402
from hooks import HeldBus, Hooks, SlowBus  # noqa: E402
from parts import Parts, plan_of, wait_until  # noqa: E402
from servers import keys_in, tags  # noqa: E402

FIRST_PORT, PORTS = 19_700, 16
FRONT, SECOND, BUSES = 4, 4, 8
KEYS, AT_ONCE = 8, 10
SETTLED_SECONDS = 10
# How late what servers tell each other may come, and how late it comes where it is to fall between two commands.
LATE, SHORT = 0.04, 0.004
PARTS = Parts("keys that plans may lose")
part = PARTS.part


# ---- what each part uses


def rounds(few, many):
    return range(many if PARTS.given.whole else few)


class Rounds:
    """A cluster of which some slots move in each round, and none twice: no round meets what another one left."""

    def __init__(self, it, servers, bus):
        self.it, self.servers, self.bus, self.values = it, servers, bus, {}
        self.unmoved = {node: iter([slot for slot in range(SLOTS) if servers.owners[slot] == node])
                        for node in range(len(servers.ports))}

    def moves(self, pairs):
        """A slot for each source and target."""
        return [(next(self.unmoved[source]), source, target) for source, target in pairs]

    def greatest(self):
        """The node with the greatest config epoch."""
        lines = self.servers.lines(0)
        return max(range(len(self.servers.ids)), key=lambda node: lines[self.servers.ids[node]].epoch)

    def filled(self, moves):
        """New keys in the slots, beside those of the rounds before."""
        self.it.check("all nodes agree before a round", is_quiet(self.servers))
        values = keys_in([slot for slot, _, _ in moves], KEYS)
        self.servers.put(values)
        self.values.update(values)

    def roles_asked(self):
        return {node: self.servers.calls(node, "role") for node in self.servers.running}

    def play(self, what, plan, moves, late, seconds=LATE):
        """Runs the plan while these nodes hear late of the others, by so many seconds at most."""
        it, servers, before = self.it, self.servers, len(self.it.wrong)
        self.filled(moves)
        moved, asked = servers.moves(), self.roles_asked()
        with self.bus.slow(late, seconds):
            ran = it.run("apply", "--cluster", servers.address(0), plan=plan)
        time.sleep(3 * seconds if late else 0)
        it.is_done(ran, servers, moved, what)
        sources = [source for _, source, _ in moves]
        few = [node for node, count in self.roles_asked().items() if count - asked[node] < sources.count(node)]
        it.check(f"{what}: each source was asked for its role", not few, few)
        wanted = {slot: target for slot, _, target in moves}
        shown = wait_until(lambda: shows(servers, wanted), SETTLED_SECONDS)
        it.check(f"{what}: each node has the plan's owners, and no mark", shown, told_owners(servers, wanted))
        are_kept(it, servers, self.values, what)
        if len(it.wrong) > before:
            print(f"{what}, late are {sorted(late)}:\n{plan}", end="", flush=True)
            self.healed(moves)

    def healed(self, moves):
        """Has all nodes say the same of the slots, whatever became of them: nobody claims a slot when its target does.
        """
        self.values = {}
        for connection in self.servers.nodes:
            connection.ask("FLUSHALL")
        for slot, _, target in moves:
            others = [node for node in self.servers.masters() if node != target]
            for node in [*others, target]:
                self.servers.nodes[node].ask("CLUSTER", "SETSLOT", slot, "STABLE")
                self.servers.nodes[node].ask("CLUSTER", "SETSLOT", slot, "NODE", self.servers.ids[target])


def is_quiet(servers):
    """Waits until all nodes agree, and no two masters have one config epoch."""
    def are_apart():
        epochs = [line.epoch for line in servers.lines(1).values() if "master" in line.flags]
        return len(epochs) == len(set(epochs))

    return wait_until(are_apart, SETTLED_SECONDS) and servers.agree(2 * SETTLED_SECONDS)


def are_kept(it, servers, values, what):
    """Each key lies at one node, which may not yet be known to all."""
    wait_until(lambda: not servers.differences(values), SETTLED_SECONDS)
    wrong = servers.differences(values)
    it.check(f"{what}: every key lies at one node, with its value", not wrong, f"{len(wrong)}, as {wrong[:2]}")


def shows(servers, wanted):
    """Whether each master has these owners of slots, and no mark."""
    for node in servers.masters():
        lines = servers.lines(node)
        held = {servers.ids.index(line.id): set(line.slots) for line in lines.values()}
        if any(line.marks for line in lines.values()) or any(slot not in held[to] for slot, to in wanted.items()):
            return False
    return True


def told_owners(servers, wanted):
    """By each master the slots that it gives to another owner than these, and its marks."""
    seen = {}
    for node in servers.masters():
        lines = servers.lines(node)
        owner = {slot: servers.ids.index(line.id) for line in lines.values() for slot in line.slots if slot in wanted}
        marks = [mark[:2] for line in lines.values() for mark in line.marks]
        seen[node] = {slot: owner.get(slot) for slot in wanted if owner.get(slot) != wanted[slot]}, marks
    return seen


def who_is_late(turn, nodes, one):
    """In turn nobody, everybody, and this one."""
    return [set(), set(range(nodes)), {one}][turn % 3]


def openings(slot, source, target, batch):
    return [f"setslot {slot} importing n{source} at n{target}", f"setslot {slot} migrating n{target} at n{source}",
            f"drain {slot} at n{source} to n{target} by {batch}"]


def notices(slot, source, target, nodes):
    """The lines by which the target, the source and the others hear of the owner, in this order."""
    others = [node for node in range(nodes) if node not in (source, target)]
    return [f"setslot {slot} node n{target} at n{node}" for node in (target, source, *others)]


def owners_last(moves, nodes):
    """Single commands: all slots are drained, then each target is told, then each source, and then the others."""
    lines = [line for move in moves for line in openings(*move, 5)]
    told = [notices(*move, nodes) for move in moves]
    return lines + [lines[turn] for turn in range(nodes) for lines in told]


def as_moves(moves):
    return [f"move {slot} from n{source} to n{target} by 5" for slot, source, target in moves]


# ---- slots that go one way and another


@part
def swaps(it):
    bus = SlowBus({node: it.port + BUSES + node for node in range(2)}, it.port)
    with bus, it.servers(nodes=2, buses=bus.ports) as servers:
        field = Rounds(it, servers, bus)
        for turn in rounds(3, 20):
            first = field.greatest()
            moves = field.moves([(1 - first, first), (first, 1 - first)])
            late = who_is_late(turn, 2, 1 - first)
            field.play(f"two masters, round {turn}", plan_of(*owners_last(moves, 2)), moves, late)
        it.left(servers, field.values, "a swap at two masters")
        told_at_once(it, field)
    bus = SlowBus({node: it.port + BUSES + SECOND + node for node in range(3)}, it.port + SECOND)
    with bus, it.servers(nodes=3, first=SECOND, buses=bus.ports) as servers:
        field = Rounds(it, servers, bus)
        for turn in rounds(3, 20):
            swap_of_three(field, turn)
            two_takers(field, turn, "lines", as_moves, LATE)
            two_takers(field, turn, "a drain between", a_drain_between, SHORT)
        it.left(servers, field.values, "three masters")


def swap_of_three(field, turn):
    """The first one told has the greatest config epoch already, and takes none; the second one takes a new one."""
    first = field.greatest()
    second, third = [(first + 1) % 3, (first + 2) % 3][::1 if turn % 2 else -1]
    moves = field.moves([(second, first), (third, second)])
    field.play(f"a swap at three masters, round {turn}", plan_of(*owners_last(moves, 3)), moves,
               who_is_late(turn, 3, second))


def two_takers(field, turn, what, spelt, seconds):
    """Two masters, of which neither has the greatest config epoch, take slots, and may take one epoch; then the one
    whose ID is smaller takes the next one, and may still claim the slot that it gives away, with its last one."""
    ids, third = field.servers.ids, field.greatest()
    giver, taker = sorted((node for node in range(3) if node != third), key=lambda node: ids[node])
    moves = field.moves([(third, taker), (third, giver), (giver, taker), (third, giver)])
    field.play(f"{what}, round {turn}", plan_of(*spelt(moves)), moves, who_is_late(turn, 3, giver), seconds)


def a_drain_between(moves):
    """The targets of all slots but the last one are told; that one is drained, and its target told, before anybody else
    is."""
    *first, last = moves
    *opened, drain = openings(*last, 1)
    targets, *others = zip(*(notices(*move, 3) for move in first))
    target, *last_others = notices(*last, 3)
    return [*(line for move in first for line in openings(*move, 5)), *opened, *targets, drain, target,
            *(line for some in others for line in some), *last_others]


def told_at_once(it, field):
    """The test of the test: where nobody waits, and nodes hear of each other late, keys are lost."""
    servers, lost = field.servers, False
    for _ in range(AT_ONCE):
        first = field.greatest()
        moves = field.moves([(1 - first, first), (first, 1 - first)])
        field.filled(moves)
        for slot, source, target in moves:
            drained(servers, slot, source, target)
        with field.bus.slow(range(2)):
            for turn in range(2):
                for slot, *ends in moves:
                    servers.nodes[ends[1 - turn]].ask("CLUSTER", "SETSLOT", slot, "NODE", servers.ids[ends[1]])
            time.sleep(0.3)
        lost = lost or sum(connection.ask("DBSIZE")[1] for connection in servers.nodes) < len(field.values)
        field.healed(moves)
        if lost:
            break
    it.check("without any wait keys are lost", lost, f"never in {AT_ONCE} rounds")


def drained(servers, slot, source, target, *options):
    """Opens the slot, and moves all of its keys. The replies."""
    ids, nodes = servers.ids, servers.nodes
    replies = [nodes[target].ask("CLUSTER", "SETSLOT", slot, "IMPORTING", ids[source]),
               nodes[source].ask("CLUSTER", "SETSLOT", slot, "MIGRATING", ids[target])]
    while keys := nodes[source].ask("CLUSTER", "GETKEYSINSLOT", slot, 100)[1]:
        replies.append(nodes[source].ask("MIGRATE", "127.0.0.1", servers.ports[target], "", 0, 5000, *options, "KEYS",
                                         *(key for _, key in keys)))
        if replies[-1][0] == "-":
            break
    return replies


# ---- plans by chance


def ways(chance):
    """Pairs of masters: slots that swap, go round, and are passed on, and some that do nothing of this."""
    pairs, count = [], chance.randint(4, 12)
    while len(pairs) < count:
        a, b, c = chance.sample(range(3), 3)
        groups = [[(a, b), (b, a)], [(a, b), (b, c), (c, a)], [(a, b), (b, c)], [(a, b)]]
        pairs += chance.choice(groups if pairs else groups[:3])
    pairs = pairs[:count]
    chance.shuffle(pairs)
    return pairs


def merged(chance, lists):
    """The lines of all lists, each list in its order."""
    lists, lines = [list(some) for some in lists], []
    while lists := [some for some in lists if some]:
        lines.append(chance.choice(lists).pop(0))
    return lines


def spelt(chance, moves):
    """The moves as lines of either kind: some as a `move` line each, some as single commands in an order that may be.
    """
    lines, moves = [], list(moves)
    while moves:
        some = [moves.pop(0) for _ in range(min(len(moves), chance.randint(1, 6)))]
        opened, told = [openings(*move, chance.randint(1, 9)) for move in some], [notices(*move, 3) for move in some]
        lines += chance.choice([
            lambda: as_moves(some),
            lambda: owners_last(some, 3),
            lambda: merged(chance, opened) + merged(chance, told),
            lambda: merged(chance, [one + other for one, other in zip(opened, told)]),
        ])()
    return lines


@part
def chance(it):
    seed = commits() if PARTS.given.seed is None else PARTS.given.seed
    print(f"chance: --seed {seed}", flush=True)
    bus = SlowBus({node: it.port + BUSES + node for node in range(3)}, it.port, seed=seed)
    with bus, it.servers(nodes=3, buses=bus.ports) as servers:
        field = Rounds(it, servers, bus)
        for turn in rounds(20, 200):
            by = random.Random(seed * 1_000 + turn)
            moves = field.moves(ways(by))
            plan = plan_of(*spelt(by, moves))
            ran = it.run("verify", "--cluster", servers.address(0), plan=plan)
            it.check(f"round {turn}: verified", ran.status == 0 and ran.out.startswith("verified "), f"{ran}\n{plan}")
            field.play(f"round {turn}", plan, moves, who_is_late(turn, 3, by.randrange(3)), by.choice([LATE, SHORT]))
        it.left(servers, field.values, "plans by chance")


# ---- slots that move on to a master that was notified of an owner before it heard of it


@part
def news(it):
    bus = HeldBus({node: it.port + BUSES + node for node in range(3)}, it.port)
    with bus, it.servers(nodes=3, buses=bus.ports) as servers:
        bus.ids = servers.ids
        field = Rounds(it, servers, bus)
        notified_unheard(it, field)
        for turn in rounds(2, 10):
            for what, hearer in (("a third master", 2), ("the source", 0)):
                moved_on(it, field, hearer, f"{what} hears late, round {turn}")
        notified_late(it, field)


def moved_on(it, field, hearer, what):
    """A slot goes from n0 to n1, of which the hearer hears late. Then it goes to the hearer, which again hears n1 late.
    """
    servers, bus = field.servers, field.bus
    (slot, *_), = moves = field.moves([(0, 1)])
    field.filled(moves)
    for source, target, seconds in ((0, 1, 0.5), (1, hearer, 1)):
        moved = servers.moves()
        plan = plan_of(*as_moves([(slot, source, target)]))
        bus.hold(hearer, 1)
        timer = threading.Timer(seconds, bus.let_go)
        timer.start()
        ran = it.run("apply", "--cluster", servers.address(0), "--wait-for-news", plan=plan)
        timer.join()
        it.is_done(ran, servers, moved, what)
        shown = wait_until(lambda: shows(servers, {slot: target}), SETTLED_SECONDS)
        it.check(f"{what}: all show the owner n{target}", shown, told_owners(servers, {slot: target}))
    are_kept(it, servers, field.values, what)


def notified_late(it, field):
    """A master that hears nothing for 2 seconds is notified all the same, and a line tells of how many slots."""
    servers, bus, what = field.servers, field.bus, "a third master hears nothing"
    moves = field.moves([(0, 1), (0, 1)])
    field.filled(moves)
    moved, log = servers.moves(), it.folder / "log-of-late-news"
    bus.hold(2, 1)
    ran = it.run("apply", "--cluster", servers.address(0), "--wait-for-news", "--log", log,
                 plan=plan_of(*as_moves(moves)))
    bus.let_go()
    it.is_done(ran, servers, moved, what)
    line = "2 slots: masters were notified of the new owner before all of them had heard of it"
    it.check(f"{what}: a line says so", line in ran.err.splitlines(), ran)
    logged = [line.partition(" ")[2] for line in log.read_text().splitlines()[-2:]]
    it.check(f"{what}: the log has it before its end", logged == [line, ran.out.splitlines()[-1]], logged)
    wanted = {slot: target for slot, _, target in moves}
    it.check(f"{what}: all show the owner", wait_until(lambda: shows(servers, wanted), SETTLED_SECONDS),
             told_owners(servers, wanted))
    are_kept(it, servers, field.values, what)


def notified_unheard(it, field):
    """The test of the test: a master that is notified of the owner before it heard of it gives the slot back later."""
    servers, bus, lost = field.servers, field.bus, False
    for turn in range(2 * AT_ONCE):
        hearer = turn % 2 * 2
        (slot, *_), = moves = field.moves([(0, 1)])
        field.filled(moves)
        for source, target in ((0, 1), (1, hearer)):
            drained(servers, slot, source, target)
            bus.hold(hearer, 1)
            time.sleep(1.2)
            for node in (target, source, 3 - source - target):
                servers.nodes[node].ask("CLUSTER", "SETSLOT", slot, "NODE", servers.ids[target])
            bus.let_go()
            time.sleep(2)
        held = sum(connection.ask("CLUSTER", "COUNTKEYSINSLOT", slot)[1] for connection in servers.nodes)
        field.healed([(slot, 0, hearer)])
        if lost := held == 0:
            break
    it.check("without the wait keys are lost", lost, f"never in {2 * AT_ONCE} rounds")


# ---- the source fails over

LISTING, QUESTION, WAITING, NOTICE, LAST = "last listing", "question", "wait", "notice", "last question"
BY_VOTE, BY_FORCE, BY_KILL = "by vote", "TAKEOVER", "by kill"
BEFORE = "SOURCE is no master any more: its shard failed over before the slot was given away"
SINCE = "SOURCE is no master any more: writes of the slot that its shard acknowledged since may be lost"
ENDED = "SOURCE ended the connection, or gave no answer in time"
LATE_NEWS = "n[0-2] has not heard of .+ after 2 seconds"
# At which request the failover comes, how, and what is told. Where a wait fails over, it may as well not end.
FAILOVERS = [
    (LISTING, BY_VOTE, BEFORE),
    (QUESTION, BY_VOTE, BEFORE),
    (QUESTION, BY_FORCE, BEFORE),
    (WAITING, BY_VOTE, f"({BEFORE}|{LATE_NEWS})"),
    (NOTICE, BY_VOTE, SINCE),
    (LAST, BY_VOTE, SINCE),
    (LISTING, BY_KILL, ENDED),
    (QUESTION, BY_KILL, ENDED),
    (WAITING, BY_KILL, f"({ENDED}|{LATE_NEWS})"),
]
# After how long a node is missed, in milliseconds, and how far apart elections of one node have to be.
NODE_TIMEOUT, ELECTION_SECONDS = 1_000, 4.3
SHARD, REPLICA = 0, 3
WRITES = 10


class Writer(Follower):
    """A client that writes to a slot, keys that lie there and new ones, and keeps what was acknowledged. It writes by
    itself while it may."""

    def __init__(self, port, slot, keys):
        super().__init__(port, [slot], 1)
        self.slot, self.keys, self.number, self.acknowledged = slot, list(keys), 0, {}
        self.lock, self.may_write, self.is_over = threading.Lock(), threading.Event(), threading.Event()
        self.thread = threading.Thread(target=self.run, daemon=True)

    def __enter__(self):
        self.may_write.set()
        self.thread.start()
        return self

    def __exit__(self, *_):
        self.is_over.set()
        self.may_write.set()
        self.thread.join()

    def run(self):
        while not self.is_over.is_set():
            self.may_write.wait()
            try:
                self.write()
            except (OSError, SystemExit) as fault:
                self.wrong.append(f"a write: {fault!r}")
                return
            time.sleep(0.002)

    def write(self):
        with self.lock:
            self.number += 1
            new = b"{%s}written:%d" % (tags()[self.slot], self.number)
            key = new if self.number % 3 == 0 else self.keys[self.number % len(self.keys)]
            value = b"written as number %d" % self.number
            reply = self.reply(self.slot, [b"SET", key, value])
            if reply == ("+", b"OK"):
                self.acknowledged[key] = value
            else:
                self.wrong.append(f"SET {key}: {reply}")

    def turns_to(self, port):
        """Forgets all nodes that it knows, but for this one."""
        self.first, self.nodes, self.node_of = port, {}, {}

    def rests(self):
        """No write is under way, and none begins."""
        self.may_write.clear()
        with self.lock:
            pass


class Failover:
    """Has the replica take the source's place before the request goes on that the moment names, of one slot. Some
    writes follow before it goes on; an empty listing goes on first, since it would not be empty any more."""

    def __init__(self, servers, moment, how, slot, source, target, writer):
        self.moment, self.how, self.slot, self.writer = moment, how, b"%d" % slot, writer
        self.source, self.target = source, target
        self.own, self.replica = servers.connected(source), servers.connected(SHARD + REPLICA - source)
        self.servers, self.lock, self.came = servers, threading.Lock(), []
        self.has_taken_over, self.acknowledged = None, {}

    def before(self, node, words):
        if words[0].upper() not in (b"CLUSTER", b"ROLE", b"MIGRATE"):
            return
        with self.lock:
            if self.has_taken_over is None:
                came = self.moment_of(node, [word.upper() for word in words])
                self.came += [came] if came else []
                if came != self.moment:
                    return
                self.writer.rests()
                self.acknowledged = dict(self.writer.acknowledged)
                self.has_taken_over = self.killed() if self.how == BY_KILL else self.fail_over()
                if came == LISTING and self.how != BY_KILL:
                    return
            if not self.writer.may_write.is_set():
                for _ in range(WRITES):
                    self.writer.write()
                self.writer.may_write.set()

    def ends(self):
        """Waits until nothing is done any more: the program may have ended while a node was missed."""
        with self.lock:
            pass

    def moment_of(self, node, words):
        """Which moment of the slot this request is, if it is any. Its last listing is one that is empty."""
        is_of_slot = self.slot in words
        if words[1:2] == [b"GETKEYSINSLOT"] and is_of_slot and node == self.source:
            return None if self.own.ask("CLUSTER", "COUNTKEYSINSLOT", self.slot)[1] else LISTING
        if LISTING not in self.came:
            return None
        if words == [b"ROLE"] and node == self.source:
            return LAST if NOTICE in self.came else QUESTION
        if words == [b"CLUSTER", b"NODES"] and NOTICE not in self.came:
            return WAITING
        return NOTICE if words[1:2] == [b"SETSLOT"] and is_of_slot and node == self.target else None

    def fail_over(self):
        """Whether both know of it. The replica has all that the source had, and both have heard of the slot's new owner
        if there is one: a master that loses its slots to two others at once would stay a master without slots."""
        if self.moment == LAST and not wait_until(lambda: self.has_moved(self.own) and self.has_moved(self.replica), 8):
            return False
        self.own.ask("PING")
        self.own.ask("WAIT", 1, 1_000)
        self.replica.ask("CLUSTER", "FAILOVER", *([self.how] if self.how == BY_FORCE else []))
        return wait_until(lambda: role(self.replica) == b"master" and role(self.own) == b"slave", 8)

    def has_moved(self, connection):
        reply = connection.ask("GET", b"{%s}" % tags()[int(self.slot)])[1] or b""
        return reply.startswith(b"MOVED ") and reply.endswith(b":%d" % self.servers.announced[self.target])

    def killed(self):
        """Whether the replica takes the source's place by itself. It has all that the source had."""
        self.own.ask("PING")
        self.own.ask("WAIT", 1, 1_000)
        self.replica.ask("CONFIG", "SET", "cluster-replica-no-failover", "no")
        self.servers.kill(self.source)
        is_master = wait_until(lambda: role(self.replica) == b"master", 20)
        self.replica.ask("CONFIG", "SET", "cluster-replica-no-failover", "yes")
        self.writer.turns_to(self.servers.ports[SHARD + REPLICA - self.source])
        return is_master


def role(connection):
    return connection.ask("ROLE")[1][0][1]


class Shard:
    """A cluster of three masters, of which the first has a replica that may take its place, each behind a port of its
    own."""

    def __init__(self, it, servers, hooks):
        self.it, self.servers, self.hooks, self.failed = it, servers, hooks, {}
        self.slots = {node: iter([slot for slot in range(SLOTS) if servers.owners[slot] == node]) for node in range(3)}

    def begin(self):
        servers = self.servers
        replica, master = servers.nodes[REPLICA], servers.nodes[SHARD]
        reply = replica.ask("CLUSTER", "REPLICATE", servers.ids[SHARD])
        self.it.check("a master gets a replica", reply == ("+", b"OK") and self.is_whole(), reply)

    def master(self):
        """The one of the two that is the master; where both are, the one that has slots."""
        masters = [node for node in (SHARD, REPLICA) if role(self.servers.nodes[node]) == b"master"]
        lines = self.servers.lines(1)
        return max(masters, key=lambda node: len(lines[self.servers.ids[node]].slots))

    def is_whole(self):
        """Waits until the replica follows, which it may have to be told, and all agree."""
        master = self.master()
        other = self.servers.nodes[SHARD + REPLICA - master]
        if role(other) == b"master":
            other.ask("CLUSTER", "REPLICATE", self.servers.ids[master])
        follows = wait_until(lambda: b"master_link_status:up" in other.ask("INFO", "replication")[1], 20)
        return follows and is_quiet(self.servers)

    def revived(self, node):
        """Starts a node that was killed. It becomes a replica, if need be by hand: one that comes back late may stay a
        master, with a mark of the slot that was open."""
        self.servers.restart(node)
        own, other = self.servers.nodes[node], SHARD + REPLICA - node
        is_replica = wait_until(lambda: role(own) == b"slave", 5)
        until = time.monotonic() + 20
        while not is_replica and time.monotonic() < until:
            for line in self.servers.lines(node).values():
                for slot, *_ in line.marks:
                    own.ask("CLUSTER", "SETSLOT", slot, "STABLE")
            own.ask("FLUSHALL")
            own.ask("CLUSTER", "REPLICATE", self.servers.ids[other])
            is_replica = wait_until(lambda: role(own) == b"slave", 1)
        self.it.check("a node that was killed is a replica", is_replica, own.ask("CLUSTER", "NODES"))

    def number(self, node):
        """The number of a master in a plan."""
        return sorted(self.servers.masters(), key=self.servers.address).index(node)

    def waits_for_votes(self, source):
        """A replica takes votes of its last election for those of a new one until it may ask once more."""
        time.sleep(max(0, self.failed.get(source, 0) + ELECTION_SECONDS - time.monotonic()))


def plan_for(shard, moment, slot, source, target):
    """One slot, or, where the plan has to wait, before it another one that goes the other way."""
    numbers = shard.number(source), shard.number(target)
    back = [(next(shard.slots[target]), *numbers[::-1])] if moment == WAITING else []
    return plan_of(*as_moves([*back, (slot, *numbers)])), [one for one, _, _ in back]


def fails_over(shard, moment, how, told, what):
    it, servers, source, target = shard.it, shard.servers, shard.master(), 1
    slot = next(shard.slots[SHARD])
    plan, back = plan_for(shard, moment, slot, source, target)
    shard.waits_for_votes(source)
    values = keys_in([slot, *back], 4 * KEYS)
    it.check(f"{what}: all is well before", shard.is_whole())
    for node in servers.masters():
        servers.nodes[node].ask("FLUSHALL")
    servers.put(values)
    number, keys = shard.number(source), keys_in([slot], KEYS)
    with Writer(servers.ports[source], slot, keys) as writer:
        failover = Failover(servers, moment, how, slot, source, target, writer)
        shard.hooks.before = failover.before
        ran = it.run("apply", "--cluster", servers.address(target), plan=plan)
        shard.hooks.before = None
        failover.ends()
        shard.failed[source] = time.monotonic()
        time.sleep(0.05)
    it.check(f"{what}: the failover came", failover.has_taken_over, f"{failover.came[-5:]}, {ran}")
    it.check(f"{what}: every write was answered OK", not writer.wrong and not shard.hooks.wrong,
             f"{writer.wrong[:2]}, {shard.hooks.wrong[:2]}")
    is_told = re.search(told.replace("SOURCE", f"n{number}"), f"{ran.out}\n{ran.err}")
    it.check(f"{what}: the program stops, and says why", ran.status == 1 and is_told, ran)
    if source not in servers.running:
        shard.revived(source)
    closed_by_hand(shard, slot, target, what)
    before = {**values, **failover.acknowledged}
    is_all_there(shard, before, writer.acknowledged, is_told and told == SINCE, what)


def closed_by_hand(shard, slot, target, what):
    """The shard's new master gets the mark that it lacks, the target is told of it, and what clients have written since
    the failover goes to the target in the place of what lies there."""
    it, servers, source = shard.it, shard.servers, shard.master()
    nodes, ids, replies = servers.nodes, servers.ids, []
    wait_until(lambda: "slave" in servers.lines(target)[ids[SHARD + REPLICA - source]].flags, SETTLED_SECONDS)
    if slot not in servers.lines(target)[ids[target]].slots:
        replies = [nodes[source].ask("CLUSTER", "SETSLOT", slot, "MIGRATING", ids[target]),
                   nodes[target].ask("CLUSTER", "SETSLOT", slot, "NODE", ids[source])]
        wait_until(lambda: b"cluster_state:ok" in nodes[target].ask("CLUSTER", "INFO")[1], SETTLED_SECONDS)
        replies += drained(servers, slot, source, target, "REPLACE")
        it.check(f"{what}: all agree while the slot is open", servers.agree(SETTLED_SECONDS))
    others = [node for node in servers.masters() if node not in (source, target)]
    replies += [nodes[node].ask("CLUSTER", "SETSLOT", slot, "NODE", ids[target]) for node in (target, source, *others)]
    wrong = [reply for reply in replies if reply != ("+", b"OK")]
    it.check(f"{what}: the slot is closed by hand", not wrong, wrong)
    it.check(f"{what}: the tables show it", wait_until(lambda: shows(servers, {slot: target}), SETTLED_SECONDS),
             told_owners(servers, {slot: target}))


def is_all_there(shard, before, acknowledged, may_be_lost, what):
    """Each key has what was written last; or what it had before the failover, if the program has said that writes may
    be lost."""
    it, servers, wanted, held = shard.it, shard.servers, {**before, **acknowledged}, {}
    it.check(f"{what}: all agree", servers.agree(20))
    for node in servers.masters():
        keys = [key for _, key in servers.nodes[node].ask("KEYS", "*")[1]]
        held.update(zip(keys, (reply for _, reply in servers.piped(node, [[b"GET", key] for key in keys]))))
    gone = [key for key in wanted if held.get(key) != wanted[key]]
    it.check(f"{what}: nothing that was acknowledged is lost", not gone or may_be_lost, f"{len(gone)}, as {gone[:2]}")
    older = [key for key in gone if held.get(key) != before.get(key)]
    it.check(f"{what}: nothing older is lost", not older, f"{len(older)}, as {older[:2]}")
    are_kept(it, servers, held, what)


@part
def failovers(it):
    fronts = {node: it.port + FRONT + node for node in range(4)}
    hooks = Hooks({node: (front, it.port + node) for node, front in fronts.items()})
    more = ["--cluster-node-timeout", str(NODE_TIMEOUT), "--cluster-replica-no-failover", "yes",
            "--cluster-allow-replica-migration", "no", "--repl-diskless-sync-delay", "0"]
    with hooks, it.servers(nodes=4, owners=even_split(3), announced=fronts, more=more) as servers:
        shard = Shard(it, servers, hooks)
        shard.begin()
        for turn in rounds(1, 10):
            for moment, how, told in FAILOVERS:
                fails_over(shard, moment, how, told, f"{moment}, {how}, round {turn}")
        it.check("redis-cli says that all is well", servers.is_checked())


# ---- a master that is emptied

NO_MASTER = "ERR Please use SETSLOT only with masters."


@part
def emptied(it):
    """n2 has two slots, and n3 none."""
    last = range(SLOTS - 2, SLOTS)
    owners = [2 if slot in last else node for slot, node in enumerate(even_split(2))]
    fronts = {node: it.port + FRONT + node for node in range(4)}
    hooks = Hooks({node: (front, it.port + node) for node, front in fronts.items()})
    more = ["--cluster-allow-replica-migration", "yes", "--repl-diskless-sync-delay", "0"]
    with hooks, it.servers(nodes=4, owners=owners, announced=fronts, more=more) as servers:
        not_emptied(it, servers, hooks)
        emptied_by_the_plan(it, servers, hooks, last)


def tells(words, slot):
    """Whether the request tells of the slot's owner."""
    return [word.upper() for word in words[:4]] == [b"CLUSTER", b"SETSLOT", b"%d" % slot, b"NODE"]


def not_emptied(it, servers, hooks):
    """n3 had no slots, and becomes a replica in the middle of the plan: its answer is an error like any other."""
    slot, values, node = 0, keys_in([0], KEYS), servers.nodes[3]
    servers.put(values)

    def before(at, words):
        if at == 3 and tells(words, slot):
            other = Connection(servers.ports[3])
            reply = other.ask("CLUSTER", "REPLICATE", servers.ids[0])
            it.check("an empty master becomes a replica", reply == ("+", b"OK"), reply)

    hooks.before = before
    ran = it.run("apply", "--cluster", servers.address(0), plan=plan_of(f"move {slot} from n0 to n1 by 5"))
    hooks.before = None
    it.check("a replica that the plan has not emptied", role(node) == b"slave")
    it.check("its answer stops the plan", ran.status == 1 and re.search(
        rf"stopped at command \d+: {re.escape(NO_MASTER)}", f"{ran.out}\n{ran.err}"), ran)
    it.check("all masters have heard", wait_until(lambda: shows(servers, {slot: 1}), SETTLED_SECONDS))
    are_kept(it, servers, values, "a replica that the plan has not emptied")


def emptied_by_the_plan(it, servers, hooks, last):
    """n2 is a replica before it is told of its last slot, and before it is told of slots of others. A master that takes
    slots gives one away, so the plan waits, too."""
    moves = [(last[0], 2, 0), (last[1], 2, 0), (1, 0, 1), (SLOTS // 2, 1, 0)]
    values, held, became = keys_in([slot for slot, _, _ in moves], KEYS), [], []
    servers.put(values)
    own = Connection(servers.ports[2])

    def before(at, words):
        if at == 0 and tells(words, last[1]):
            held.append(at)
        if held and at == 2 and words[0].upper() in (b"CLUSTER", b"ROLE"):
            became.append(wait_until(lambda: role(own) == b"slave", 20))

    it.check("all agree before the plan", is_quiet(servers))
    refused, asked = errors_of(servers, 2), servers.moves()
    hooks.before = before
    ran = it.run("apply", "--cluster", servers.address(0), plan=plan_of(*as_moves(moves)))
    hooks.before = None
    it.is_done(ran, servers, asked, "a plan that empties a master")
    it.check("the emptied master becomes a replica", became and all(became), became)
    it.check("the emptied master has refused three commands", errors_of(servers, 2) - refused == 3,
             f"{errors_of(servers, 2) - refused}, {ran}")
    wanted = {slot: target for slot, _, target in moves}
    it.check("each node has the plan's owners, and no mark",
             wait_until(lambda: shows(servers, wanted), SETTLED_SECONDS), told_owners(servers, wanted))
    are_kept(it, servers, {**values, **keys_in([0], KEYS)}, "a plan that empties a master")
    it.check("nothing went wrong before a request", not hooks.wrong, hooks.wrong)


def errors_of(servers, node):
    """How many errors the node has answered."""
    return int(re.search(rb"total_error_replies:(\d+)", servers.nodes[node].ask("INFO", "stats")[1])[1])


# ---- a dead master whose place is filled

DEAD, STAND_IN = 2, 3
PACE = 100
FOLLOWING = ["--cluster-node-timeout", str(NODE_TIMEOUT), "--repl-diskless-sync-delay", "0"]
STAYING = [*FOLLOWING, "--cluster-allow-replica-migration", "no"]


@part
def dead_masters(it):
    """n2 takes no part in a plan. It has a replica, which takes its place, and later it takes that one's."""
    with it.servers(nodes=4, owners=even_split(3), more=STAYING) as servers:
        reply = servers.nodes[STAND_IN].ask("CLUSTER", "REPLICATE", servers.ids[DEAD])
        it.check("n2 gets a replica", reply == ("+", b"OK") and follows(servers, STAND_IN), reply)
        values = keys_in(range(40), 2 * KEYS)
        servers.put(values)
        replaced(it, servers, DEAD, STAND_IN)
        plan_beside_a_dead_master(it, servers, values)
        into_its_shard(it, servers, values)
        servers.restart(DEAD)
        is_replica_again(it, servers, DEAD, STAND_IN)
        killed_beside_a_plan(it, servers, values)
        servers.restart(STAND_IN)
        is_replica_again(it, servers, STAND_IN, DEAD)
        is_left_out(it, servers, "all are alive")
        dead_with_slots(it, servers)


def follows(servers, node):
    """Waits until the replica has what its master has, and all agree."""
    own = servers.nodes[node]
    is_up = wait_until(lambda: b"master_link_status:up" in own.ask("INFO", "replication")[1], 20)
    return is_up and is_quiet(servers)


def replaced(it, servers, dead, other):
    """Kills the master, and waits until its replica has its place and all nodes list it as a failed one without slots.
    """
    servers.kill(dead)

    def is_listed(node):
        lines = servers.lines(node)
        return {"master", "fail"} <= set(lines[servers.ids[dead]].flags) and lines[servers.ids[other]].slots

    it.check("a replica takes the dead master's place", wait_until(lambda: all(map(is_listed, servers.running)), 20),
             servers.lines(0))


def line_of(servers, node):
    """What is said of a dead master without slots."""
    return f"left out {servers.address(node)} {servers.ids[node]}: it failed and has no slots"


def is_left_out(it, servers, what, dead=()):
    """A survey by each master names the three nodes that are not dead, and says which are left out."""
    masters = sorted((node for node in servers.masters()), key=servers.address)
    nodes = [f"n{number} {servers.address(node)} {servers.ids[node]}" for number, node in enumerate(masters)]
    others = [line_of(servers, node) for node in dead]
    for node in masters:
        ran = it.run("survey", "--cluster", servers.address(node))
        *lines, last = [line for line in ran.out.splitlines() if not line.startswith("  ")] or [""]
        told = [line.rsplit(" ", 2)[0] for line in lines[:len(nodes)]]
        it.check(f"{what}: a survey by {servers.address(node)}",
                 ran.status == 0 and last == "clean" and told == nodes and lines[len(nodes):] == others, ran)


def plan_beside_a_dead_master(it, servers, values):
    """A survey, a plan, and its run, while the dead master is listed."""
    what = "beside a dead master"
    is_left_out(it, servers, what, [DEAD])
    expected = it.folder / "survey-with-a-master-left-out"
    expected.write_text(it.run("survey", "--cluster", servers.address(0)).out)
    planned = it.run("plan-reshard", "--cluster", servers.address(0), "--expect", expected,
                     "--from", "n0", "--to", "n1", "--slots", "2")
    it.check(f"{what}: a plan, by what the survey names", planned.status == 0 and planned.out.endswith("\nend\n"),
             planned)
    moved = servers.moves()
    ran = it.run("apply", "--cluster", servers.address(1), plan=planned.out)
    it.is_done(ran, servers, moved, what)
    it.check(f"{what}: who is left out is said", ran.err.splitlines().count(line_of(servers, DEAD)) == 1, ran)
    are_kept(it, servers, values, what)


def is_valkey(servers):
    return b"valkey_version:" in servers.nodes[0].ask("INFO", "server")[1]


def refusal(servers, dead, name):
    """What is said where a dead master may take the slots of the node of this name, once it returns."""
    return (f"refused: {servers.address(dead)} failed, and takes the slots of {name} if it returns as it was: start it "
            "first (it becomes a replica), or remove its nodes.conf, then continue, with --dead-for-good "
            f"{servers.ids[dead]} if it never returns\n")


def is_refused(it, servers, dead, name, what, *words, plan=""):
    """Nothing is sent to a cluster of Valkey in which the dead master may take the slots of this node."""
    before = [servers.calls(node, "cluster|setslot") for node in servers.running]
    ran = it.run(*words, plan=plan)
    it.check(f"{what}: refused", (ran.status, ran.out) == (1, refusal(servers, dead, name)), ran)
    after = [servers.calls(node, "cluster|setslot") for node in servers.running]
    it.check(f"{what}: nothing was sent", after == before, f"{before}, {after}")


def into_its_shard(it, servers, values):
    """A slot moves to the node that has the dead master's place. At Valkey it is to be said that it never returns."""
    what, slot = "into the shard of a dead master", servers.owner().index(0)
    plan, cluster = plan_of(f"move {slot} from n0 to n2 by 4"), ["--cluster", servers.address(0)]
    if is_valkey(servers):
        is_refused(it, servers, DEAD, "n2", what, "apply", *cluster, plan=plan)
        is_refused(it, servers, DEAD, "n2", f"{what}, and another one is dead for good", "apply", *cluster,
                   "--dead-for-good", servers.ids[0], plan=plan)
    moved = servers.moves()
    ran = it.run("apply", *cluster, "--dead-for-good", f"{servers.ids[1]},{servers.ids[DEAD]}", plan=plan)
    it.is_done(ran, servers, moved, what)
    are_kept(it, servers, values, what)


TARGET, FOLLOWER = 1, 3


@part
def returning(it):
    """The target dies in mid-move, and its replica takes its place. At Valkey the slot is not finished there before the
    dead one is back as a replica: it would take its own slots back, with the new one's keys."""
    with it.servers(nodes=4, owners=even_split(3), more=FOLLOWING) as servers:
        reply = servers.nodes[FOLLOWER].ask("CLUSTER", "REPLICATE", servers.ids[TARGET])
        it.check("the target gets a replica", reply == ("+", b"OK") and follows(servers, FOLLOWER), reply)
        if not is_valkey(servers):
            return
        slot = servers.owner().index(0)
        values = {**keys_in([slot], 40), **keys_in([SLOTS // 2], KEYS)}
        servers.put(values)
        dies_in_mid_move(it, servers, slot)
        resume = ["resume", "--cluster", servers.address(0)]
        is_refused(it, servers, TARGET, "n2", "a target that died in mid-move", *resume)
        servers.restart(TARGET)
        is_replica_again(it, servers, TARGET, FOLLOWER)
        ran = it.run(*resume)
        it.has_printed(ran, 0, r"done \d+ commands", "it goes on with the target back")
        is_owner = wait_until(lambda: servers.owner()[slot] == FOLLOWER, SETTLED_SECONDS)
        it.check("the new target owns the slot", is_owner, servers.lines(0))
        are_kept(it, servers, values, "a target that died in mid-move")


def dies_in_mid_move(it, servers, slot):
    """Stops a plan in the middle of the slot, waits until the replica has all keys, and kills target and program."""
    running = it.start(["apply", "--cluster", servers.address(0), "--keys-per-second", 20],
                       plan=plan_of(f"move {slot} from n0 to n1 by 4"))
    held = lambda: servers.nodes[TARGET].ask("CLUSTER", "COUNTKEYSINSLOT", slot)[1]  # noqa: E731
    it.check("the slot is in mid-move", wait_until(lambda: 8 <= held() < 30, 20), held())
    running.process.send_signal(signal.SIGSTOP)
    it.check("the replica has all keys", follows(servers, FOLLOWER) and is_caught_up(servers), held())
    replaced(it, servers, TARGET, FOLLOWER)
    running.kill()


def is_caught_up(servers):
    """The replica has all that its master wrote."""
    def offset(node, name):
        return int(re.search(name + rb":(\d+)", servers.nodes[node].ask("INFO", "replication")[1])[1])

    return wait_until(lambda: offset(FOLLOWER, rb"slave_repl_offset") >= offset(TARGET, rb"master_repl_offset"), 20)


def is_replica_again(it, servers, dead, other):
    """The old master becomes a replica. One that stays a master without slots is made one by hand."""
    own = servers.nodes[dead]
    if not wait_until(lambda: role(own) == b"slave", 5):
        own.ask("FLUSHALL")
        own.ask("CLUSTER", "REPLICATE", servers.ids[other])
    it.check("an old master that returns is a replica", follows(servers, dead), own.ask("CLUSTER", "NODES"))


def killed_beside_a_plan(it, servers, values):
    """The master dies that the plan only tells of new owners. The plan stops, and goes on once the other is in place.
    """
    what, slots = "killed beside a plan", [slot for slot in range(40) if servers.owner()[slot] == 0]
    plan = plan_of(f"move {slots[0]}-{slots[-1]} from n0 to n1 by 4")
    path = it.folder / "plan-of-moves"
    path.write_text(plan)
    before = servers.calls(1, "cluster|setslot")
    running = it.start(["apply", "--cluster", servers.address(0), "--keys-per-second", PACE], plan=plan)
    is_underway = wait_until(lambda: servers.calls(1, "cluster|setslot") > before + 2, 20)
    replaced(it, servers, STAND_IN, DEAD)
    ran = running.end(60)
    it.check(f"{what}: the plan is underway, and stops", is_underway and ran.status == 1, ran)
    ran = it.run("resume", "--cluster", servers.address(1), "--plan", path)
    it.has_printed(ran, 0, r"done \d+ commands", f"{what}: it goes on")
    wanted = {slot: 1 for slot in slots}
    it.check(f"{what}: each node has the plan's owners, and no mark",
             wait_until(lambda: shows(servers, wanted), SETTLED_SECONDS), told_owners(servers, wanted))
    it.check(f"{what}: who is left out is said", ran.err.splitlines().count(line_of(servers, STAND_IN)) == 1, ran)
    are_kept(it, servers, values, what)
    is_left_out(it, servers, what, [STAND_IN])


def dead_with_slots(it, servers):
    """The test of the test: n1 has no replica, so nobody takes its slots, and every command is refused."""
    servers.kill(1)
    is_listed = wait_until(lambda: "fail" in servers.lines(0)[servers.ids[1]].flags, 20)
    it.check("a dead master without a replica is listed with its slots", is_listed, servers.lines(0))
    ran = it.run("survey", "--cluster", servers.address(0))
    it.refused(servers, ran, "a dead master with slots", rf"survey refused: no connection to {servers.address(1)}")


def options(reader):
    reader.add_argument("--whole", action="store_true")
    reader.add_argument("--seed", type=int)


def commits():
    """How many commits there are, or 0 where that is not known."""
    ran = subprocess.run(["git", "-C", TESTS, "rev-list", "--count", "HEAD"], capture_output=True, text=True)
    return int(ran.stdout) if ran.returncode == 0 else 0


sys.exit(PARTS.main(__doc__, FIRST_PORT, options, lambda given: PORTS))
