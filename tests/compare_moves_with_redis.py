#!/usr/bin/env python3
"""Replies in the middle of a move: sends commands by chance to three nodes while slots are on their way, and to three
redis-servers, and compares each pair of replies.

usage: tests/compare_moves_with_redis.py PROGRAM [COUNT] [SEED]

The nodes are those of scripts that PROGRAM rehearses, of 100 lines each, and every script begins anew. An
administrator's SETSLOT IMPORTING and MIGRATING, GETKEYSINSLOT and MIGRATE of one key come between clients' commands at
any node, with ASKING and without; so MOVED, ASK, TRYAGAIN, CROSSSLOT, BUSYKEY and NOKEY come too, and each is compared
word for word, but for the ports. Of SETSLOT only whether it is refused is compared, and a listing without its order:
docs/SANDBOX.md says which replies differ from Redis's. COUNT is 5,000 unless it is given, and SEED 1.

Nothing is installed: redis-server (Debian's package of that name) is used where it is, and else the comparison is
skipped. The last line is 'N passed, M failed', a reply each; the status is 1 where one differs."""

import collections
import pathlib
import subprocess
import sys
import tempfile
import time

TESTS = pathlib.Path(__file__).resolve().parent
sys.dont_write_bytecode = True
sys.path[:0] = [str(TESTS / "redis_server"), str(TESTS / "hostile")]

from commands import Commands, in_no_order  # noqa: E402
from comparing import main  # noqa: E402
from connection import SECONDS, Connection, serves, started  # noqa: E402
from hash_slots import even_split, slot_of  # noqa: E402
from scripts import key_word, reply_lines  # noqa: E402

NODES = 3
REDIS_PORT = 17170
SCRIPT_PORT = 7000
STEPS = 100
TAGS = [b"b", b"c", b"a"]
KEYS = [b"{%s}%d" % (tag, number) for tag in TAGS for number in range(4)]
SLOTS = [slot_of(tag) for tag in TAGS]
OWNERS = even_split(NODES)

# A line of a script, and the same at a redis-server: its words, whether ASKING goes first, and what of the reply is
# compared.
Step = collections.namedtuple("Step", "line node asking words name")


class Steps:
    """The lines of one script, by chance: most are of one slot, which goes from its owner to another node. The
    importing marks that stand after them are known, since each SETSLOT of a right node is accepted."""

    def __init__(self, seed, identities):
        tag = TAGS[seed % len(TAGS)]
        own = [key for key in KEYS if slot_of(key) == slot_of(tag)]
        self.commands = Commands(seed, own, [key for key in KEYS if key not in own], 0)
        self.random, self.identities = self.commands.random, identities
        self.slot, self.source = slot_of(tag), OWNERS[slot_of(tag)]
        self.target = (self.source + self.random.randrange(1, NODES)) % NODES
        self.importing = set()

    def next(self):
        chance = self.random.random()
        if chance < 0.08:
            return self.setslot()
        if chance < 0.13:
            return self.listing()
        if chance < 0.25 and self.importing:
            return self.migration()
        return self.command()

    def of(self, likely, number):
        """The likely ones three times out of four, else any below the number."""
        return self.random.choice(likely) if self.random.random() < 0.75 else self.random.randrange(number)

    def command(self):
        words, node = self.commands.next(), self.of([self.source, self.target], NODES)
        asking = self.random.random() < 0.4
        line = " ".join(["asking" if asking else "at", f"n{node}", *map(key_word, words)])
        return Step(line, node, asking, words, words[0].upper())

    def setslot(self):
        what = self.random.choice(["importing", "migrating"])
        node, other = (self.target, self.source) if what == "importing" else (self.source, self.target)
        slot = self.slot
        if self.random.random() < 0.4:
            slot, node = self.random.choice(SLOTS), self.random.randrange(NODES)
            other = (node + self.random.randrange(1, NODES)) % NODES
        if what == "importing" and OWNERS[slot] != node:
            self.importing.add((slot, node))
        words = ["CLUSTER", "SETSLOT", slot, what.upper(), self.identities[other]]
        return Step(f"setslot {slot} {what} n{other} at n{node}", node, False, words, "SETSLOT")

    def listing(self):
        slot, node = self.random.choice([self.slot, *SLOTS]), self.random.randrange(NODES)
        words = ["CLUSTER", "GETKEYSINSLOT", slot, 1000]
        return Step(f"getkeysinslot {slot} 1000 at n{node}", node, False, words, b"GETKEYSINSLOT")

    def migration(self):
        """At the owner, or at a node that imports the slot: elsewhere Redis redirects a MIGRATE."""
        slot, target = self.random.choice(sorted(self.importing))
        sources = {OWNERS[slot], *(node for at, node in self.importing if at == slot)} - {target}
        source = self.random.choice(sorted(sources))
        key = self.random.choice([key for key in KEYS if slot_of(key) == slot])
        words = ["MIGRATE", "127.0.0.1", REDIS_PORT + target, key, 0, 5000]
        return Step(f"migrate {key_word(key)} at n{source} to n{target}", source, False, words, b"MIGRATE")


class Cluster:
    """Three redis-servers that share the slots evenly."""

    def __init__(self, folder):
        self.servers, self.nodes = [], []
        for node in range(NODES):
            self.servers.append(started(REDIS_PORT + node, folder))
            self.nodes.append(Connection(REDIS_PORT + node))
        for node, connection in enumerate(self.nodes):
            own = [slot for slot in range(len(OWNERS)) if OWNERS[slot] == node]
            connection.ask("CLUSTER", "ADDSLOTSRANGE", own[0], own[-1])
            self.nodes[0].ask("CLUSTER", "MEET", "127.0.0.1", REDIS_PORT + node)
        self.identities = [connection.ask("CLUSTER", "MYID")[1] for connection in self.nodes]

    def is_ready(self):
        """Waits until each server serves all slots and knows each other one."""
        until = time.monotonic() + SECONDS
        while time.monotonic() < until:
            if all(len(it.ask("CLUSTER", "SLOTS")[1]) == NODES and serves(it) for it in self.nodes):
                return True
            time.sleep(0.1)
        return False

    def clear(self):
        for connection in self.nodes:
            connection.ask("FLUSHALL")
            for slot in SLOTS:
                connection.ask("CLUSTER", "SETSLOT", slot, "STABLE")

    def reply(self, step):
        connection = self.nodes[step.node]
        if step.asking:
            connection.ask("ASKING")
        return connection.ask(*step.words)

    def end(self):
        for server in self.servers:
            server.kill()
            server.wait()


def rehearsed(program, steps):
    """What the script prints of each of its lines."""
    script = "".join(f"{line}\n" for line in [f"cluster {NODES}", *(step.line for step in steps)])
    ran = subprocess.run([program, "rehearse"], input=script.encode("latin-1"), capture_output=True, timeout=SECONDS)
    answers = []
    for line in ran.stdout.decode("latin-1").splitlines():
        answers.append([line]) if not line.startswith(" ") else answers[-1].append(line)
    return answers


def compared(step, lines):
    """What is compared of the printed lines of a reply."""
    if step.name == "SETSLOT":
        return lines[0][0]
    for node in range(NODES):
        lines = [line.replace(f"127.0.0.1:{REDIS_PORT + node}", f"127.0.0.1:{SCRIPT_PORT + node}") for line in lines]
    return [lines[0], in_no_order(step.name, lines[1:])]


def compare(program, cluster, count, seed):
    """How many replies are equal, and how many are not, and how often each kind of redirection and refusal came."""
    equal = others = 0
    kinds = collections.Counter()
    while equal + others < count:
        cluster.clear()
        chance = Steps(seed * 1_000_003 + equal + others, cluster.identities)
        steps = [chance.next() for _ in range(STEPS)]
        answers = rehearsed(program, steps)
        if len(answers) != len(steps):
            print(f"{len(steps)} lines, and {len(answers)} replies: {answers[-1:]}")
            return equal, others + 1, kinds
        for step, answer in zip(steps, answers):
            wanted = reply_lines(cluster.reply(step))
            kinds[wanted[0].split(" ")[0] if wanted[0][0] == "-" else "other"] += 1
            if compared(step, wanted) == compared(step, answer):
                equal += 1
                continue
            others += 1
            if others <= 10:
                print(f"{step.line}: Redis answers {wanted}, and the node {answer}")
    return equal, others, kinds


def compare_servers(program, count, seed):
    with tempfile.TemporaryDirectory() as folder:
        cluster = Cluster(folder)
        try:
            if not cluster.is_ready():
                print("the redis-servers do not make a cluster")
                return 0, 1
            equal, others, kinds = compare(program, cluster, count, seed)
            print(", ".join(f"{kind} {number}" for kind, number in sorted(kinds.items())))
            return equal, others
        finally:
            cluster.end()


sys.exit(main(__doc__, "replies in the middle of a move", compare_servers, 5_000))
