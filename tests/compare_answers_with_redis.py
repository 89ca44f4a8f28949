#!/usr/bin/env python3
"""Answers to cluster clients: asks what these ask, of the nodes of a program that answers them and of redis-servers in
the same state, and compares each pair of answers.

usage: tests/compare_answers_with_redis.py PROGRAM

Both are three nodes that share all slots evenly, with the same keys. Most answers are compared byte for byte, once each
cluster's IDs and ports are told by the node's number. CLUSTER NODES, SHARDS and INFO are compared without epochs, times
and the packets of a bus, and in the nodes' order; INFO by the fields that the program has; of COMMAND INFO the name,
the count of arguments and the places of keys; and of what is a server's own, as the number of a connection, the form
alone. PROGRAM surveys both clusters, too. Then it runs a plan, and as soon as a node shows a mark in its CLUSTER NODES,
the redis-servers are brought to that node's state, and have to answer with the same lines.

Nothing is installed: redis-server (Debian's package of that name) is used where it is, and else the comparison is
skipped. The last line is 'N passed, M failed', an answer each; the status is 1 where one differs."""

import contextlib
import pathlib
import subprocess
import sys
import tempfile
import time

TESTS = pathlib.Path(__file__).resolve().parent
sys.dont_write_bytecode = True
sys.path[:0] = [str(TESTS / "redis_server"), str(TESTS / "hostile")]

from answers import Told, fields_of, flags_of, listed, node_lines  # noqa: E402
from comparing import main  # noqa: E402
from connection import SECONDS, Connection  # noqa: E402
from questions import COMMAND_ROWS, FIELDS, LAST_QUESTIONS, QUESTIONS, each  # noqa: E402
from servers import Servers, line_of, tags  # noqa: E402

NODES = 3
REDIS_PORT, NODE_PORT, PLAN_PORT = 17180, 17185, 17190
WORKERS = 16
# There, back and there again, so that the plan lasts until both nodes were asked.
TURNS = [f"move 0-5459 from n{source} to n{1 - source} by 1000" for source in (0, 1, 0)]
PLAN = "\n".join(["reshard-plan 2", *TURNS, "end", ""])
PLAN_SECONDS, TRIES = 2, 20

# Which mark a node is to show: the source that the slot goes elsewhere, and the target that it comes.
WAYS = {0: b"->-", 1: b"-<-"}


@contextlib.contextmanager
def served(program, port, plan=None):
    """The program's nodes, with a plan that runs beside its clients if there is one."""
    words = [program, "serve", "--nodes", str(NODES), "--base-port", str(port), "--workers", str(WORKERS)]
    words += ["--answers-clients"] + ["--plan"] * (plan is not None)
    nodes = subprocess.Popen(words, stdin=subprocess.PIPE, stdout=subprocess.PIPE, text=True)
    try:
        nodes.stdin.write(plan or "")
        nodes.stdin.close()
        if not any(line.startswith("serving ") for line in nodes.stdout):
            raise SystemExit("the nodes are not served")
        yield [Connection(port + node) for node in range(NODES)]
    finally:
        nodes.kill()
        nodes.wait()


class Compared:
    """The redis-servers beside which answers are looked at, and how many were the same."""

    def __init__(self, servers):
        self.servers, self.right, self.wrong = servers, 0, []
        self.redis = Told(servers.ids, REDIS_PORT)

    def same(self, what, wanted, found):
        if wanted == found:
            self.right += 1
        else:
            self.wrong.append(f"{what}: Redis answers {wanted}, and the node {found}")

    def ask_both(self, node, redis, told, question):
        """Asks the question at a node of each, over connections of its own if it ends them."""
        form, words = question
        wanted, found = redis.ask(*words), node.ask(*words)
        self.same(listed(words), form(self.redis.plain(wanted)), form(told.plain(found)))

    def ask_all(self, nodes, told, questions):
        for number, node in enumerate(nodes):
            for question in questions:
                self.ask_both(node, self.servers.nodes[number], told, question)

    def ask_fields(self, node, number):
        """What the program tells of itself by INFO, and by the flags of its commands, is a part of what Redis tells."""
        for words in FIELDS:
            wanted, found = (fields_of(it.ask(*words)) for it in (self.servers.nodes[number], node))
            self.same(listed(words), {name: wanted.get(name, "none") for name in found}, found)
        for _, words in each(flags_of, COMMAND_ROWS):
            wanted, found = (flags_of(it.ask(*words)) for it in (self.servers.nodes[number], node))
            self.same(f"{listed(words)}: flags", [one & other for one, other in zip(wanted, found)], found)

    def ask_last(self, port, told, questions):
        """Questions that end a connection: each has two of its own, which have to be at their end behind the answer."""
        for question in questions:
            redis, node = Connection(REDIS_PORT), Connection(port)
            self.ask_both(node, redis, told, question)
            self.same(f"{listed(question[1])}: the end", redis.replies.read(), node.replies.read())


# A served node has no CLUSTER REPLICAS, as it has no replicas.
UNKNOWN = b"  replicas unknown\n"


def survey(program, told):
    """What the program's own survey prints of a cluster, which it finds by CLUSTER NODES."""
    words = [program, "survey", "--cluster", f"127.0.0.1:{told.port}"]
    ran = subprocess.run(words, capture_output=True, timeout=SECONDS)
    return ran.returncode, told.text(ran.stdout), ran.stderr


def fill(servers, nodes):
    """The same keys at both, three of each of some slots."""
    for slot in range(0, len(servers.owners), 1_500):
        for number in range(3):
            words = ["SET", b"{%s}%d" % (tags()[slot], number), "value"]
            for connection in (servers.nodes[servers.owners[slot]], nodes[servers.owners[slot]]):
                if connection.ask(*words) != ("+", b"OK"):
                    raise SystemExit(f"{listed(words)} is refused")


def marked(nodes):
    """What each of these nodes answers to CLUSTER NODES once it shows such a mark, as far as it does."""
    seen, until = {}, time.monotonic() + PLAN_SECONDS
    while len(seen) < len(WAYS) and time.monotonic() < until:
        for number, way in WAYS.items():
            text = nodes[number].ask("CLUSTER", "NODES")[1]
            if way in text:
                seen.setdefault(number, text)
    return seen


def bring(servers, number, told, text):
    """Brings the redis-servers to the owners that the text tells, and the node to its marks."""
    for line in map(line_of, text.decode().splitlines()):
        owner = servers.ids[told.number_of(line.id)]
        moved = [slot for slot in line.slots if servers.owners[slot] != told.number_of(line.id)]
        for node in range(NODES):
            servers.piped(node, [[b"CLUSTER", b"SETSLOT", b"%d" % slot, b"NODE", owner.encode()] for slot in moved])
        for slot in moved:
            servers.owners[slot] = told.number_of(line.id)
        for slot, way, other in line.marks:
            name = {"->-": "MIGRATING", "-<-": "IMPORTING"}[way]
            servers.nodes[number].ask("CLUSTER", "SETSLOT", slot, name, servers.ids[told.number_of(other)])
    if not servers.agree():
        raise SystemExit("the redis-servers do not agree")


def compare_marks(program, compared):
    """The lines of nodes whose slots are on their way: those of the source, and then those of the target."""
    servers, seen = compared.servers, {}
    for _ in range(TRIES):
        with served(program, PLAN_PORT, PLAN) as nodes:
            told = Told([node.ask("CLUSTER", "MYID")[1].decode() for node in nodes], PLAN_PORT)
            seen = marked(nodes)
        if len(seen) == len(WAYS):
            break
    else:
        raise SystemExit("no node has shown a mark")
    for number, way in WAYS.items():
        text = seen[number]
        bring(servers, number, told, text)
        wanted, found = servers.nodes[number].ask("CLUSTER", "NODES"), ("$", text)
        compared.same(f"CLUSTER NODES with {way.decode()}", node_lines(compared.redis.plain(wanted)),
                      node_lines(told.plain(found)))
        for slot in [slot for line in map(line_of, text.decode().splitlines()) for slot, _, _ in line.marks]:
            servers.nodes[number].ask("CLUSTER", "SETSLOT", slot, "STABLE")


def compare_servers(program):
    with tempfile.TemporaryDirectory() as folder, Servers(folder, REDIS_PORT, NODES) as servers:
        compared = Compared(servers)
        with served(program, NODE_PORT) as nodes:
            told = Told([node.ask("CLUSTER", "MYID")[1].decode() for node in nodes], NODE_PORT)
            fill(servers, nodes)
            compared.ask_all(nodes, told, QUESTIONS)
            compared.ask_fields(nodes[0], 0)
            status, printed, errors = survey(program, told)
            unknown = printed.count(UNKNOWN)
            compared.same("masters that don't tell their replicas", NODES, unknown)
            compared.same("survey", survey(program, compared.redis), (status, printed.replace(UNKNOWN, b""), errors))
            compared.ask_last(NODE_PORT, told, LAST_QUESTIONS)
        compare_marks(program, compared)
    for wrong in compared.wrong[:20]:
        print(wrong)
    return compared.right, len(compared.wrong)


sys.exit(main(__doc__, "answers to cluster clients", compare_servers))
