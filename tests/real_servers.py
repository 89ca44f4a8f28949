#!/usr/bin/env python3
"""Real clusters: has a program survey clusters of real redis-servers and move their slots, and compares what is left
with what has to be.

usage: tests/real_servers.py [--port FIRST] PROGRAM [PART ..]

Each part starts servers of its own, on ports of 127.0.0.1 from FIRST on (17400 unless it is given, and 22500 at most,
since the servers' bus has ports 10000 above), and ends them by their process ids. After each plan, whatever became of
it, every key has to lie at one node, with its value, and `redis-cli --cluster check` has to say that all is well.
Without a PART all are tried, in this order:

  facts        the replies of servers on which the program rests
  surveys      what the program says of a cluster, and when it says nothing
  plans        plans for a cluster as it is, and what they are said to move
  shown        plans explained and drawn for a cluster as it is, and what is there, with a slot in mid-move
  counts       the keys of all slots, each asked for once
  from_a_survey  plans made, verified, explained and drawn by the file of a survey, as at the cluster that it is of
  moves        1,000 slots with 100,000 keys move beside four clients, of whom every reply is compared
  kinds        keys of all bytes, values of all kinds, and keys whose time is limited
  replicas     a cluster of which one node has a replica
  detailed     what a survey prints below a master's line: its slots, its keys and its replicas
  slow         a replica stands still for a while, or all the time, and a node with a replica is drained
  joins        a fourth node is filled, while clients work
  drains       a node gives all its slots away, and becomes a replica before it is told of the last
  forgets      an emptied master is forgotten by all nodes, also by replicas; one that is still needed is not
               (waits for a minute)
  passwords    servers with a password, and with users; what is printed and logged of them
  errors       servers that answer errors: no memory, no such command, no rights
  expect       a plan for one cluster is not run at another
  epochs       slots move to and fro a hundred times; without the wait for epochs keys are lost
  stopped      a server stands still in the middle of a plan, and is killed
  killed       the program is killed in the middle of a slot
  stranded     keys that a STABLE in mid-move has left behind are told with counts, and brought together by what is told
  pauses       a stop file, and no more keys a second than there may be
  deaf         standard error is closed, or breaks, or is a terminal
  logs         a log on a full device, one whose reader goes away, one that another file is, and one that goes on
  order        what is told first where much is wrong; words of the environment that servers can't be shown
  advice       the command that goes on after a stop, as a shell takes it, for each version of a plan
  strange      a server whose replies have no end, come a byte at a time, or are none
  named        errors for which something can be done, at a survey and at a command
  unlinked     a node that has lost its connection to another one
  addresses    a source that reaches its target from another address than it lists, beside 5,000 clients
  descriptors  so few files may be open that there is no connection to each master

Nothing is installed: redis-server and redis-cli (Debian's packages redis-server and redis-tools) are used where they
are, and else all is skipped. The last line is 'N passed, M failed', a check each; the status is 1 where one failed."""

import contextlib
import json
import os
import pathlib
import pty
import re
import resource
import signal
import subprocess
import sys
import threading
import time
import xml.etree.ElementTree as xml

TESTS = pathlib.Path(__file__).resolve().parent
sys.dont_write_bytecode = True
sys.path[:0] = [str(TESTS / "redis_server"), str(TESTS / "hostile")]

from between import Between, Instead  # noqa: E402
from connection import Connection  # noqa: E402
from followers import Followers  # noqa: E402
from hash_slots import SLOTS, even_split  # noqa: E402
from parts import ENVIRONMENT, SECONDS, Parts, Ran, plan_of, wait_until  # noqa: E402
from servers import BUS, Servers, keys_in, tags  # noqa: E402

FIRST_PORT = 17400
FRONT, NOBODY = 10, 11
ROUNDS = 40
SECRET, OTHER_SECRET = "correct-horse-battery", "staple-of-the-mover"
MOST_MEMORY = 64 * 1024
EMPTIED = "gives all of its slots away, and may become a replica"
NO_MEMORY = b"ERR Target instance replied with error: OOM command not allowed when used memory > 'maxmemory'."
PARTS = Parts("real clusters")
part = PARTS.part


# ---- what servers answer


@part
def facts(it):
    """The replies on which the program rests, so that another version of servers shows where it differs."""
    with it.servers() as servers:
        key = keys_in([0], 1)
        servers.put(key)
        (name, _), source = *key.items(), servers.nodes[0]
        ids, unknown = servers.ids, "0" * 40
        target = ["127.0.0.1", servers.ports[1]]
        table = [
            (0, ["CLUSTER", "SETSLOT", 0, "IMPORTING", ids[1]], b"ERR I'm already the owner of hash slot 0"),
            (1, ["CLUSTER", "SETSLOT", 0, "MIGRATING", ids[0]], b"ERR I'm not the owner of hash slot 0"),
            (1, ["CLUSTER", "SETSLOT", 0, "IMPORTING", unknown], b"ERR I don't know about node " + unknown.encode()),
            (0, ["CLUSTER", "SETSLOT", 0, "NODE", unknown], b"ERR Unknown node " + unknown.encode()),
            (0, ["CLUSTER", "SETSLOT", 0, "NODE", ids[1]], b"ERR Can't assign hashslot 0 to a different node while I "
                b"still hold keys for this hash slot."),
            (0, ["CLUSTER", "GETKEYSINSLOT", 16384, 1], b"ERR Invalid slot or number of keys"),
            (0, ["MIGRATE", *target, "", 0, 1000, "KEYS", name], b"ERR Target instance replied with error: MOVED 0 "
                b"%s" % servers.address(0).encode()),
            (0, ["MIGRATE", *target, "", 0, 1000, "KEYS", b"{%s}none" % tags()[0]], b"NOKEY"),
            (0, ["AUTH", "none"], b"ERR AUTH <password> called without any password configured for the default user. "
                b"Are you sure your configuration is correct?"),
        ]
        for node, words, wanted in table:
            reply = servers.nodes[node].ask(*words)
            it.check(f"{words[:4]} at n{node}", reply[1] == wanted, reply)
        role = source.ask("ROLE")[1]
        it.check("ROLE at a master", role[0] == ("$", b"master"), role)
        servers.nodes[1].ask("CLUSTER", "SETSLOT", 0, "IMPORTING", ids[0])
        servers.nodes[1].ask("CONFIG", "SET", "maxmemory", 1)
        reply = source.ask("MIGRATE", *target, "", 0, 1000, "KEYS", name)
        it.check("MIGRATE to a node beyond its memory", reply == ("-", NO_MEMORY), reply)
        servers.nodes[1].ask("CONFIG", "SET", "maxmemory", 0)
        reply = source.ask("MIGRATE", "127.0.0.1", it.port + NOBODY, "", 0, 1000, "KEYS", name)
        it.check("MIGRATE to nobody", reply == ("-", b"IOERR error or timeout writing to target instance"), reply)
        servers.nodes[1].ask("CLUSTER", "SETSLOT", 0, "STABLE")
        it.left(servers, key, "after all these")


# ---- surveys


def survey_lines(servers, counts):
    return [f"n{node} {servers.address(node)} {servers.ids[node]} {count} slots" for node, count in enumerate(counts)]


@part
def surveys(it):
    owners, front, shifted = even_split(3), it.port + FRONT, threading.Event()
    counts = [owners.count(node) for node in range(4)]

    def change(data, is_answer, _):
        """What the node says, or that the first slot of its own is the one before."""
        if is_answer and shifted.is_set():
            return data.replace(b"5461-10922", b"5461-10921").replace(b"10923-16383", b"10922-16383")
        return data

    with (
        Between(front, it.port + 2, change),
        it.servers(nodes=4, owners=owners, announced={2: front}) as servers,
    ):
        order = [0, 1, 3, 2]
        wanted = [f"n{place} {servers.address(node)} {servers.ids[node]} {counts[node]} slots"
                  for place, node in enumerate(order)]
        addresses = [servers.address(node) for node in range(4)]
        for named in [addresses[0], addresses[3], ",".join(reversed(addresses))]:
            ran = it.run("survey", "--cluster", named)
            it.check(f"a survey by {named}", (ran.status, ran.out.splitlines()) == (0, [*wanted, "clean"]), ran)
        ran = it.run("survey", "--cluster", addresses[0], environment={"RESHARD_AUTH": SECRET})
        it.check("a password where there is none", (ran.status, ran.out.splitlines()) == (0, [*wanted, "clean"]), ran)
        an_open_slot(it, servers, wanted)
        it.refused(servers, it.run("survey", "--cluster", f"127.0.0.1:{it.port + NOBODY}"), "nobody listens")
        shifted.set()
        two_tables(it, servers)
        shifted.clear()
        ran = it.run("survey", "--cluster", servers.address(0))
        it.check("a survey once all nodes agree", ran.status == 0, ran)
        it.left(servers, {}, "after surveys")
    with it.servers(nodes=9) as servers:
        owner = servers.owner()
        lines = survey_lines(servers, [owner.count(node) for node in range(9)])
        ran = it.run("survey", "--cluster", servers.address(0))
        it.check("nine masters", (ran.status, ran.out.splitlines()) == (0, [*lines, "clean"]), ran)
    a_mark_without_slots(it)


def a_mark_without_slots(it):
    """n3 has lost its only slot to n0, and keeps its migrating mark, as an old master may that a replica has replaced.
    Then what the survey says is done. At Valkey the mark goes by itself."""
    owners = [3 if slot == 24 else node for slot, node in enumerate(even_split(3))]
    with it.servers(nodes=4, owners=owners, more=["--cluster-allow-replica-migration", "no"]) as servers:
        nodes, ids = servers.nodes, servers.ids
        if is_valkey(servers):
            return
        replies = [nodes[3].ask("CLUSTER", "SETSLOT", 24, "MIGRATING", ids[1]),
                   nodes[3].ask("CLUSTER", "DELSLOTS", 24), nodes[0].ask("CLUSTER", "BUMPEPOCH"),
                   nodes[0].ask("CLUSTER", "SETSLOT", 24, "NODE", ids[0])]
        line = ("n3 has no slots and a mark of slot 24: CLUSTER SETSLOT 24 STABLE at n3, then CLUSTER REPLICATE with "
                "n0's ID if n0 has replaced it, and survey again")
        survey = ["survey", "--cluster", servers.address(1)]
        it.check("a mark at a master without slots", wait_until(lambda: line in it.run(*survey).out.splitlines()),
                 f"{replies}, {it.run(*survey)}")
        nodes[3].ask("CLUSTER", "SETSLOT", 24, "STABLE")
        nodes[3].ask("CLUSTER", "REPLICATE", ids[0])
        is_clean = wait_until(lambda: it.run(*survey).status == 0)
        it.check("what the survey says makes the cluster clean", is_clean, it.run(*survey))


def an_open_slot(it, servers, wanted):
    """A slot with both marks, and then with one alone."""
    plan, ids = plan_of("move 5 from n0 to n1 by 10"), servers.ids
    servers.nodes[1].ask("CLUSTER", "SETSLOT", 24, "IMPORTING", ids[0])
    importing = "slot 24 importing from n0 at n1"
    ran = it.run("survey", "--cluster", servers.address(1))
    phase = "slot 24 is importing from n0 to n1: 0 keys at n0, 0 at n1"
    rest = "rest of slot 24: setslot 24 stable at n1"
    told = [*wanted, importing, phase, rest, "open"]
    it.check("a slot that is importing", (ran.status, ran.out.splitlines()) == (1, told), ran)
    servers.nodes[0].ask("CLUSTER", "SETSLOT", 24, "MIGRATING", ids[1])
    ran = it.run("survey", "--cluster", servers.address(1))
    lines = ran.out.splitlines()
    setting = " / ".join(f"setslot 24 node n1 at n{node}" for node in (1, 0, 2, 3))
    told = [
        *wanted,
        "slot 24 migrating to n1 at n0",
        importing,
        "slot 24 is migrating from n0 to n1: 0 keys at n0, 0 at n1",
        f"rest of slot 24: drain 24 at n0 to n1 by 10 / {setting}",
        "open",
    ]
    it.check("a slot with both marks", (ran.status, lines) == (1, told), ran)
    before = servers.moves()
    ran = it.run("apply", "--cluster", servers.address(0), plan=plan)
    it.check("no plan runs where a slot is open", ran.status == 1 and servers.moves() == before, ran)
    for node in (0, 1):
        servers.nodes[node].ask("CLUSTER", "SETSLOT", 24, "STABLE")


def two_tables(it, servers):
    """One node says something else of a slot than the others."""
    began = time.monotonic()
    ran = it.run("survey", "--cluster", servers.address(0))
    took = time.monotonic() - began
    it.refused(servers, ran, "one node says something else of a slot", r"survey refused: .*\b10922\b.*")
    it.check("such a survey is tried for 2 seconds", 1.5 < took < 10, f"{took:.1f} s")
    before = servers.moves()
    ran = it.run("apply", "--cluster", servers.address(0), plan=plan_of("move 5 from n0 to n1 by 10"))
    it.refused(servers, ran, "a plan where one node says something else")
    it.check("then nothing was moved", servers.moves() == before)


@part
def plans(it):
    """The planners and `verify` by what the servers say."""
    with it.servers() as servers:
        it.check("the servers agree", servers.agree())
        servers.put(keys_in(range(0, 60, 2), 3))
        cluster = ["--cluster", servers.address(1)]
        ran = it.run("plan-reshard", *cluster, "--from", "n0,n2", "--to", "n1", "--slots", 100)
        wanted = plan_of("move 0-49 from n0 to n1 by 10", "move 10923-10972 from n2 to n1 by 10")
        it.check("plan-reshard", (ran.status, ran.out) == (0, wanted), ran)
        ran = it.run("plan-rebalance", *cluster, "--weights", "2,1,1", "--batch", 100)
        wanted = plan_of("move 5461-6826 from n1 to n0 by 100", "move 10923-12287 from n2 to n0 by 100")
        it.check("plan-rebalance", (ran.status, ran.out) == (0, wanted), ran)
        ran = it.run("plan-drain", *cluster, "--from", "n2", "--to", "n0", "--batch", 100)
        wanted = plan_of("move 10923-16383 from n2 to n0 by 100")
        it.check("plan-drain", (ran.status, ran.out) == (0, wanted), ran)
        ran = it.run("plan-drain", *cluster, "--from", "n0,n1,n2")
        it.has_printed(ran, 1, "refused: 7 NoTarget", "a drain of all masters")
        ran = it.run("plan-drain", *cluster, "--from", "n3")
        text = "error: --from: 'n3' is no node of the cluster, which has n0 to n2\n"
        it.check("a drain of an unknown node", (ran.status, ran.out, ran.err) == (2, "", text), ran)
        weights_by_name(it, cluster)
        before = servers.moves()
        ran = it.run("verify", *cluster, plan=plan_of("move 0-59 from n0 to n1 by 10"))
        lines = ran.out.splitlines()
        it.check("verify says how many commands", ran.status == 0 and "verified 360 commands" in lines, ran)
        told = [{int(number) for number in re.findall(r"\d+", line)} for line in lines]
        it.check("and how many slots and keys move", any({60, 90} <= numbers for numbers in told), ran)
        ran = it.run("verify", *cluster, plan=plan_of("move 6000 from n0 to n1 by 10"))
        it.has_printed(ran, 1, "refused: 2 NotOwner slot 6000 command 1", "a slot that the node does not own")
        ran = it.run("apply", *cluster, plan=plan_of("move 6000 from n0 to n1 by 10"))
        it.has_printed(ran, 1, "refused: 2 NotOwner slot 6000 command 1", "apply of it")
        it.check("nothing was moved", servers.moves() == before)


def no_weights(text):
    """What is told of weights that are none of three nodes."""
    weight = r"(?:0|[1-9]\d{0,2}|1000)"
    form = rf"n[012]={weight}" if "=" in text else weight
    wrong = [word for word in text.split(",") if not re.fullmatch(form, word)]
    if wrong and "=" in text:
        return f"error: --weights: '{wrong[0]}' is no weight of a node, as n1=0, from 0 to 1000\n"
    if wrong:
        return f"error: --weights: '{wrong[0]}' is no weight, a number from 0 to 1000\n"
    if "=" in text:
        return "error: --weights: a node is given two weights\n"
    return "error: --weights: n0 to n2 want one weight each\n"


def weights_by_name(it, cluster):
    """Weights of some of three nodes: each other has 1."""
    for named, listed in [
        ("n2=0", "1,1,0"),
        ("n0=2", "2,1,1"),
        ("n2=0,n0=1000", "1000,1,0"),
        ("n1=1", "1,1,1"),
        ("n2=3,n1=1,n0=2", "2,1,3"),
    ]:
        ran = it.run("plan-rebalance", *cluster, "--weights", named)
        wanted = it.run("plan-rebalance", *cluster, "--weights", listed)
        it.check(f"the plan of {named} is that of {listed}",
                 (wanted.status, ran.status, ran.out, ran.err) == (0, 0, wanted.out, wanted.err), ran)
    for bad in [
        "n2=0,n2=1", "n2=1,n2=1", "n9=1", "n3=1", "n1", "1,n1=0", "n1=0,1", "n1=0,", ",n1=0", "", "n1=", "=1",
        "n1=1001", "n1=01", "n1=+1", "n1=1=1", "n01=1", "N1=1", "n1 =1", "1,1", "1,1,1,1", "1,1,1001",
    ]:
        ran = it.run("plan-rebalance", *cluster, "--weights", bad)
        it.check(f"no weights: {bad!r}", (ran.status, ran.out, ran.err) == (2, "", no_weights(bad)), ran)
    ran = it.run("plan-rebalance", "--nodes", 3, "--weights", "n2=0")
    text = "error: --weights: 'n2=0' is no weight, a number from 0 to 1000\n"
    it.check("with --nodes none is named", (ran.status, ran.out, ran.err) == (2, "", text), ran)


@part
def shown(it):
    """What `explain` and `draw` say of a plan here, and what `draw --now` shows of a slot in mid-move."""
    with it.servers() as servers:
        it.check("the servers agree", servers.agree())
        servers.put(keys_in([24, 25, 8000], 20))
        cluster = ["--cluster", servers.address(1)]
        plan = plan_of("move 24-25 from n0 to n1 by 10", "move 8000 from n1 to n2 by 100")
        ran = it.run("explain", *cluster, plan=plan)
        lines = ran.out.splitlines()
        verified = it.run("verify", *cluster, plan=plan).out.splitlines()
        it.check("the verdict comes first", (ran.status, lines[:3]) == (0, [*verified, ""]), ran)
        pairs = [re.sub(" +", " ", line).strip() for line in lines]
        for wanted in ("n0 -> n1 2 slots, 40 keys", "n1 -> n2 1 slot, 20 keys"):
            it.check(f"the pair {wanted}", wanted in pairs, ran)
        for node in range(3):
            it.check(f"the address and ID of n{node}",
                     servers.address(node) in ran.out and servers.ids[node] in ran.out, ran)
        it.check("no line is wider than 80 columns", all(len(line) <= 80 for line in lines), ran)
        told = explained(it, cluster, plan)
        for node, told_of in enumerate(told["nodes"]):
            held = servers.nodes[node].ask("DBSIZE")[1]
            it.check(f"the keys of n{node}", told_of["keys"] == held, (told_of, held))
            used = int(re.search(rb"used_memory:(\d+)", servers.nodes[node].ask("INFO", "memory")[1])[1])
            it.check(f"the memory of n{node}", 0.8 < told_of["used_memory"] / used < 1.2, (told_of, used))
        servers.nodes[2].ask("CONFIG", "SET", "maxmemory", 100_000_000)
        told = explained(it, cluster, plan)
        limits = [told_of["maxmemory"] for told_of in told["nodes"]]
        it.check("the limit of memory", limits == [0, 0, 100_000_000], limits)
        an_untold_figure(it, servers, cluster, plan)
        a_slot_drawn(it, servers, cluster, plan)


@part
def counts(it):
    with it.servers() as servers:
        every_slot(it, servers, ["--cluster", servers.address(0)])


def every_slot(it, servers, cluster):
    """The keys of all slots are counted, each at its owner, and each slot is asked for once."""
    servers.put(keys_in(range(0, SLOTS, 7), 2))
    moves = [(0, 5460, 0, 1), (5461, 10922, 1, 2), (10923, 16383, 2, 0)]
    plan = plan_of(*(f"move {first}-{last} from n{source} to n{target} by 10" for first, last, source, target in moves))
    before = counted(servers)
    pairs = explained(it, cluster, plan)["pairs"]
    it.check("each slot of a plan is asked for once", counted(servers) - before == SLOTS, counted(servers) - before)
    held = [node.ask("DBSIZE")[1] for node in servers.nodes]
    told = {(pair["source"], pair["target"]): (pair["slots"], pair["keys"]) for pair in pairs}
    wanted = {(f"n{source}", f"n{target}"): (last - first + 1, held[source]) for first, last, source, target in moves}
    it.check("the keys of all slots are counted", told == wanted, (told, wanted))


def explained(it, cluster, plan):
    """What `explain --json` says."""
    ran = it.run("explain", "--json", *cluster, plan=plan)
    it.check("JSON in one line", (ran.status, len(ran.out.splitlines())) == (0, 1), ran)
    return json.loads(ran.out)


def an_untold_figure(it, servers, cluster, plan):
    """A server that does not tell its figures stops nothing."""
    servers.nodes[0].ask("ACL", "SETUSER", "default", "-info")
    ran = it.run("explain", *cluster, plan=plan)
    it.check("a server that refuses INFO", ran.status == 0 and "unknown" in ran.out, ran)
    nodes = explained(it, cluster, plan)["nodes"]
    it.check("none of its figures", [nodes[0][name] for name in ("keys", "used_memory", "maxmemory")] == [None] * 3)
    servers.nodes[0].ask("ACL", "SETUSER", "default", "+info")


def a_slot_drawn(it, servers, cluster, plan):
    """What is there, before a slot is in mid-move, while it is, and once a plan to resume has closed it."""
    ran = it.run("draw", *cluster, plan=plan)
    it.check("a plan drawn", (ran.status, ran.err) == (0, "") and xml.fromstring(ran.out).tag.endswith("svg"), ran)
    ran = it.run("draw", "--now", *cluster)
    it.check("no slot is open", (ran.status, ran.err) == (0, "") and "slot 24: from" not in ran.out, ran)
    servers.nodes[1].ask("CLUSTER", "SETSLOT", 24, "IMPORTING", servers.ids[0])
    servers.nodes[0].ask("CLUSTER", "SETSLOT", 24, "MIGRATING", servers.ids[1])
    ran = it.run("draw", "--now", *cluster)
    picture = xml.fromstring(ran.out)
    it.check("a slot in mid-move is drawn", ran.status == 0 and "slot 24: from n0 to n1" in ran.out, ran)
    drawn = [element.get("data-slot") for element in picture.iter() if element.get("class") == "open"]
    it.check("and marked, alone", drawn == ["24"], drawn)
    ran = it.run("draw", *cluster, plan=plan)
    told = (ran.status, ran.out, ran.err)
    it.check("no plan is drawn where a slot is open", told == (1, "", "not clean: slots are open\n"), ran)
    ran = it.run("explain", "--json", *cluster, plan=plan)
    wanted = {"verdict": "refused", "reason": "not clean: slots are open"}
    it.check("nor explained", ran.status == 1 and json.loads(ran.out) == wanted, ran)
    it.has_printed(it.run("resume", *cluster), 0, r"done \d+ commands", "the slot is closed")
    ran = it.run("draw", "--now", *cluster)
    it.check("then no slot is open", ran.status == 0 and "slot 24: from" not in ran.out, ran)


@part
def from_a_survey(it):
    with it.servers() as servers:
        it.check("the servers agree", servers.agree())
        servers.put(keys_in([24, 25, 8000], 20))
        cluster, path = ["--cluster", servers.address(1)], it.folder / "survey"
        ran = it.run("survey", "--full", "--keys", *cluster)
        it.check("a full survey has the ranges of slots", ran.status == 0 and "\n  slots 0-5460\n" in ran.out, ran)
        path.write_text(ran.out)
        by_file = ["--survey", path]
        for words in [
            ["plan-reshard", "--from", "n0,n2", "--to", "n1", "--slots", 100],
            ["plan-rebalance", "--weights", "n0=2", "--batch", 100],
            ["plan-drain", "--from", "n2"],
        ]:
            told, wanted = (it.run(*words, *start) for start in (by_file, cluster))
            it.check(f"{words[0]} by the file", (told.status, told.out, told.err) == (0, wanted.out, ""), told)
        plan = plan_of("move 24-25 from n0 to n1 by 10", "move 8000 from n1 to n2 by 100")
        is_previewed(it, cluster, by_file, plan)
        lines = path.read_text().replace("  slots 0-5460\n", "  slots 0-5461\n").replace("5461 slots", "5462 slots", 1)
        path.write_text(lines)
        text = "survey refused: --survey: slot 5461 is listed at n0 and again at n1"
        it.has_printed(it.run("verify", *by_file, plan=plan), 1, text, "a slot of two nodes")


def is_previewed(it, cluster, by_file, plan):
    """A plan is verified, explained and drawn by the file as at the cluster, but for keys."""
    told, wanted = (it.run("verify", *start, plan=plan) for start in (by_file, cluster))
    it.check("verified by the file", (told.status, told.out) == (0, wanted.out.splitlines(True)[0]), told)
    told, wanted = (it.run("draw", *start, plan=plan) for start in (by_file, cluster))
    it.check("drawn by the file", (told.status, told.out, told.err) == (0, wanted.out, ""), told)
    told, wanted = (explained(it, start, plan) for start in (by_file, cluster))
    for member in ("verdict", "commands", "moves", "counts", "moved_again", "most_open", "resume"):
        it.check(f"explained by the file: {member}", told[member] == wanted[member], told)
    slots = [[(pair["source"], pair["target"], pair["slots"]) for pair in each["pairs"]] for each in (told, wanted)]
    it.check("the pairs, without keys", slots[0] == slots[1] and "keys" not in told["pairs"][0], told)


# ---- plans that run to their end


@part
def moves(it):
    slots, each = range(1_000), 100
    with it.servers_with(slots, each) as (servers, values):
        planned = it.run("plan-reshard", "--cluster", servers.address(0), "--from", "n0", "--to", "n1", "--slots",
                         len(slots), "--batch", 100)
        it.check("the plan", planned.out == plan_of("move 0-999 from n0 to n1 by 100"), planned)
        before = servers.moves()
        with Followers(servers.ports, [*slots[::4], *range(9_000, 9_016)]) as clients:
            time.sleep(0.3)
            running = it.start(["apply", "--cluster", servers.address(2)], planned.out)
            ran = running.end()
            time.sleep(0.3)
            right, followed, longest, wrong, held = clients.end()
        it.is_done(ran, servers, before, "beside four clients")
        it.check("the first line", ran.out.splitlines()[:1] == ["verified 6000 commands"], ran)
        names = [f"n{node} {servers.address(node)}" in ran.err for node in range(3)]
        it.check("standard error names the nodes", all(names), ran)
        it.check("every reply to a client is right", not wrong and right > 1_000, f"{right} right, {wrong[:3]}")
        it.check("clients were redirected", followed > 200, f"{followed} times")
        it.check("memory stays below 64 MiB", 0 < running.peak < MOST_MEMORY, f"{running.peak} KiB")
        print(f"moves: {right} replies to clients, {followed} redirections, the longest wait {longest * 1_000:.0f} ms; "
              f"{running.peak // 1024} MiB")
        it.left(servers, {**values, **held}, "beside four clients")


@part
def kinds(it):
    """Keys are bytes, and values of every kind come through as they were, with what is left of their time."""
    slots, tag = range(3), tags()
    long = b"{%s}%s" % (tag[1], b"k" * 100_000)
    made = [
        ("SET", b"", "the empty key, of slot 0"), ("SET", b"{%s}\r\n\x00\xff \"'" % tag[0], b"\x00\r\n\xff"),
        ("SET", long, "a long key"), ("SET", b"{%s}large" % tag[1], b"v" * 5_000_000),
        ("SET", b"{%s}empty" % tag[1], ""),
        ("RPUSH", b"{%s}list" % tag[1], 1, 2, 3), ("HSET", b"{%s}hash" % tag[1], "f", "g", "", "h"),
        ("SADD", b"{%s}set" % tag[1], 3, 2, 1), ("ZADD", b"{%s}sorted" % tag[2], 1.5, "a", -2, "b"),
        ("XADD", b"{%s}stream" % tag[2], "7-1", "f", "g"), ("SETBIT", b"{%s}bits" % tag[2], 1000, 1),
        ("PFADD", b"{%s}counter" % tag[2], "a", "b"), ("SET", b"{%s}timed" % tag[2], "t", "PX", 1_000_000),
        ("SET", b"{%s}over" % tag[2], "o", "PX", 1),
    ]
    with it.servers() as servers:
        source, target = servers.nodes[:2]
        for name, key, *words in made:
            reply = source.ask(name, key, *words)
            it.check(f"{name} {key[:40]}", reply[0] != "-", reply)
        keys = [key for _, key, *_ in made[:-1]]
        dumped = [source.ask("DUMP", key) for key in keys]
        it.applied(servers, plan_of("move 0-2 from n0 to n1 by 3"), "keys of every kind")
        came = [target.ask("DUMP", key) for key in keys]
        differ = [key[:40] for key, before, after in zip(keys, dumped, came) if before != after or after[1] is None]
        it.check("each value is as it was", not differ, differ)
        left = target.ask("PTTL", keys[-1])[1]
        it.check("what is left of a key's time is kept", 900_000 < left <= 1_000_000, left)
        held = [connection.ask("DBSIZE")[1] for connection in servers.nodes]
        it.check("no key is left behind, and the one whose time was over is gone", held == [0, len(keys), 0], held)
        it.check("redis-cli says that all is well", servers.is_checked())


@part
def replicas(it):
    """A replica is none of the nodes, and follows its master."""
    with it.servers() as servers, replicas_of(it, servers, [1]) as [replica]:
        values = keys_in(range(20), 5)
        servers.put(values)
        counts = [servers.owners.count(node) for node in range(3)]
        ran = it.run("survey", "--cluster", servers.address(0))
        wanted = [*survey_lines(servers, counts), "clean"]
        wanted.insert(2, replica_line(replica))
        it.check("a survey names the replica under its master", ran.out.splitlines() == wanted, ran)
        plan, what = plan_of("move 0-19 from n0 to n1 by 10"), "a master with a replica"
        if is_valkey(servers):  # a SETSLOT that waits for replicas counts twice there
            it.has_printed(it.run("apply", "--cluster", servers.address(0), plan=plan), 0, r"done \d+ commands", what)
        else:
            it.applied(servers, plan, what)
        own = Connection(replica.ports[0])
        it.check("the replica has the keys that came", wait_until(lambda: own.ask("DBSIZE")[1] == len(values)))
        it.left(servers, values, what)
        away(it, servers, replica, values)


def replica_line(replica):
    """What a survey says of a replica."""
    name = Connection(replica.ports[0]).ask("CLUSTER", "MYID")[1].decode()
    return f"  127.0.0.1:{replica.ports[0]} {name} replica"


def masters_alone(ran):
    """The lines of a survey without those that say more of a master."""
    return [line for line in ran.out.splitlines() if not line.startswith("  ")]


@part
def detailed(it):
    """Below a master's line stand what is asked for, and its replicas. --expect passes these lines over."""
    owners = list(even_split(3))
    owners[0], owners[6000] = 1, 2
    with (
        it.servers(nodes=4, owners=owners) as servers,
        replicas_of(it, servers, [1], first=4) as [replica],
    ):
        values, survey = keys_in([1, 2, 6000], 3), ["survey", "--cluster", servers.address(0)]
        servers.put(values)
        masters = survey_lines(servers, [owners.count(node) for node in range(4)])
        slots = [["  slots 1-5460"], ["  slots 0 5461-5999 6001-10922"], ["  slots 6000 10923-16383"], []]
        keys = [[f"  keys {count}"] for count in (6, 0, 3, 0)]
        nothing, followers = [[]] * 4, [[], [replica_line(replica)], [], []]

        def lines(*parts):
            return [line for parts_of_one in zip(masters, *parts) for part in parts_of_one
                    for line in ([part] if isinstance(part, str) else part)] + ["clean"]

        for words, wanted in [
            ([], lines(nothing, followers)),
            (["--slots"], lines(slots, followers)),
            (["--keys"], lines(keys, followers)),
            (["--keys", "--slots", "--stranded"], lines(slots, keys, followers)),
        ]:
            ran = it.run(*survey, *words)
            it.check(f"a survey with {words}", (ran.status, ran.out.splitlines()) == (0, wanted), ran)
        names = it.folder / "detailed-names"
        names.write_text(ran.out)
        again = it.run(*survey, "--slots", "--keys", "--expect", names)
        it.check("that is read by --expect", (again.status, again.out) == (0, ran.out), again)
        names.write_text(ran.out.replace(servers.ids[2], servers.ids[2][:-1] + "01"[servers.ids[2][-1] == "0"]))
        told = "survey refused: n2 is not the node that --expect names so"
        it.refused(servers, it.run(*survey, "--expect", names), "another node below such lines", told)
        unknown = [["  keys unknown", "  replicas unknown"]] * 4
        for connection in servers.nodes:
            connection.ask("ACL", "SETUSER", "looker", "on", f">{OTHER_SECRET}", "~*", "+@all", "-info",
                           "-cluster|replicas")
        ran = it.run(*survey, "--keys", environment={"RESHARD_AUTH": OTHER_SECRET, "RESHARD_USER": "looker"})
        it.check("masters that refuse", (ran.status, ran.out.splitlines()) == (0, lines(unknown)), ran)
        it.left(servers, values, "after detailed surveys")


def version_lines(servers):
    """What `survey` says of the versions of servers that all have the same."""
    told = servers.nodes[0].ask("INFO", "server")[1].decode()
    version = re.search(r"valkey_version:(\S+)", told)
    name = "Valkey" if version else "Redis"
    version = (version or re.search(r"redis_version:(\S+)", told))[1]
    return "".join(f"n{node} runs {name} {version}\n" for node in range(3))


def away(it, servers, replica, values):
    """At Valkey a replica that was away when a slot was opened lacks its mark. A survey says so, and a resume sends it.
    """
    what, slot, address = "a replica that was away", 40, servers.address(0)
    replica.kill(0)
    marks = [(1, "IMPORTING", servers.ids[0]), (0, "MIGRATING", servers.ids[1])]
    opened = [servers.nodes[node].ask("CLUSTER", "SETSLOT", slot, how, other) for node, how, other in marks]
    it.check(f"{what}: a slot is opened", opened == [("+", b"OK")] * 2, opened)
    ran = it.run("survey", "--cluster", address)
    silent = f"127.0.0.1:{replica.ports[0]}, a replica of n1, does not tell its marks\n" if is_valkey(servers) else ""
    it.check(f"{what}: it is silent", ran.err == version_lines(servers) + silent, ran)
    replica.start(0)
    linked = wait_until(lambda: b"master_link_status:up" in Connection(replica.ports[0]).ask("INFO", "replication")[1])
    ran = it.run("survey", "--cluster", address)
    lacks = f"127.0.0.1:{replica.ports[0]}, a replica of n1, has no mark of slot {slot}\n" if is_valkey(servers) else ""
    it.check(f"{what}: it lacks the mark", linked and ran.err == version_lines(servers) + lacks, ran)
    it.has_printed(it.run("resume", "--cluster", address), 0, r"done \d+ commands", what)
    ran = it.run("survey", "--cluster", address)
    it.check(f"{what}: closed", (ran.status, ran.err) == (0, version_lines(servers)), ran)
    it.left(servers, values, what)


@contextlib.contextmanager
def replicas_of(it, servers, masters, first=3):
    """A replica for each of these masters, once all nodes know them and they have what their masters have."""
    replicas = [Servers(it.folder, it.port + first + number, nodes=1) for number in range(len(masters))]
    try:
        for master, replica in zip(masters, replicas):
            replica.start(0)
            own = Connection(replica.ports[0])
            servers.nodes[0].ask("CLUSTER", "MEET", "127.0.0.1", replica.ports[0])
            wait_until(lambda: own.ask("CLUSTER", "REPLICATE", servers.ids[master]) == ("+", b"OK"))
            wait_until(lambda: b"master_link_status:up" in own.ask("INFO", "replication")[1])
        wait_until(lambda: all(sum("slave" in line.flags for line in servers.lines(node).values()) == len(masters)
                               for node in servers.running))
        yield replicas
    finally:
        for replica in replicas:
            replica.__exit__()


FEW = 16


@part
def slow(it):
    """At Valkey a SETSLOT goes to the replicas first, and is refused after 2 seconds where one of them stands still; a
    node with a replica that gives its last slot away turns into a replica while it waits for its own."""
    owners = [2 if slot >= SLOTS - FEW else 2 * slot // SLOTS for slot in range(SLOTS)]
    with it.servers(owners=owners) as servers, replicas_of(it, servers, [0, 1, 2]) as replicas:
        values = keys_in([*range(40), *range(SLOTS - FEW, SLOTS)], 3)
        servers.put(values)
        for turn, (node, what) in enumerate([(1, "target"), (0, "source"), (2, "third node")]):
            plan = plan_of(*[f"move {6 * turn + slot} from n0 to n1 by 2" for slot in (0, 2, 4)])
            is_over_in_time(it, servers, replicas[node], plan, f"a replica of the {what} stands still for a while")
            it.left(servers, values, f"a replica of the {what} stood still")
        too_slow(it, servers, replicas[1], values)
        emptied_with_a_replica(it, servers, values)


def is_over_in_time(it, servers, replica, plan, what):
    """The plan runs to its end though the replica stands still for five seconds."""
    process = replica.running[0]
    process.send_signal(signal.SIGSTOP)
    waker = threading.Timer(5, process.send_signal, [signal.SIGCONT])
    waker.start()
    ran = it.run("apply", "--cluster", servers.address(0), plan=plan)
    waker.join()
    it.has_printed(ran, 0, r"done \d+ commands", what)


def too_slow(it, servers, replica, values):
    """The run stops where the replica stands still for longer than a command may take, and says whose replica it is."""
    what, plan = "a replica stands still all the time", plan_of("move 20 from n0 to n1 by 2")
    path = it.folder / "plan-with-a-slow-replica"
    path.write_text(plan)
    process = replica.running[0]
    process.send_signal(signal.SIGSTOP)
    ran = it.run("apply", "--cluster", servers.address(0), "--timeout", 3000, plan=plan)
    process.send_signal(signal.SIGCONT)
    if is_valkey(servers):
        it.has_printed(ran, 1, r"stopped at command \d+: replicas of n1: NOREPLICAS .*", what)
        ran = it.run("resume", "--cluster", servers.address(0), "--plan", path)
    it.has_printed(ran, 0, r"done \d+ commands", f"{what}: in the end")
    it.left(servers, values, what)


def is_valkey(servers):
    return b"valkey_version:" in servers.nodes[0].ask("INFO", "server")[1]


def emptied_with_a_replica(it, servers, values):
    what = "a node with a replica gives its last slot away"
    plan = plan_of(f"move {SLOTS - FEW}-{SLOTS - 1} from n2 to n0 by 5")
    ran = it.run("apply", "--cluster", servers.address(0), plan=plan)
    it.has_printed(ran, 0, r"done \d+ commands", what)
    it.check(f"{what}: it is a replica", wait_until(lambda: 2 not in servers.masters()), servers.lines(0))
    it.check(f"{what}: clean",
             wait_until(lambda: it.run("survey", "--cluster", servers.address(0)).status == 0), servers.lines(0))
    it.left(servers, values, what)


@part
def joins(it):
    owners = even_split(3)
    with it.servers_with(range(0, SLOTS, 2), 1, nodes=4, owners=owners) as (servers, values):
        cluster = ["--cluster", servers.address(3)]
        planned = it.run("plan-rebalance", *cluster, "--use-empty", "--batch", 100)
        with Followers(servers.ports[:3], range(1, SLOTS, 101)) as clients:
            ran = it.applied(servers, planned.out, "a node that joins")
            right, _, _, wrong, held = clients.end()
        it.check("every reply to a client is right", not wrong and right, f"{right} right, {wrong[:3]}")
        surveyed = it.run("survey", *cluster)
        wanted = [*survey_lines(servers, [SLOTS // 4] * 4), "clean"]
        it.check("each node has its share", surveyed.out.splitlines() == wanted, surveyed)
        it.left(servers, {**values, **held}, "a node that joins")
        again = it.run("plan-rebalance", *cluster, "--use-empty")
        it.check("then there is nothing to plan", again.out == plan_of(), again)
        it.check("a line a second tells how far the plan is", ran.err.count("slots,") >= 1, ran)


@part
def drains(it):
    """The last slot of a node: it becomes a replica as soon as it hears of the new owner, and then refuses SETSLOT."""
    own = range(SLOTS - 64, SLOTS)
    owners = [3 if slot in own else node for slot, node in enumerate(even_split(3))]
    front, last = it.port + FRONT, b"\r\n%d\r\n$4\r\nNODE\r\n" % (SLOTS - 1)

    def change(data, is_answer, _):
        """The node hears of the last slot's new owner by gossip first."""
        if not is_answer and last in data.upper():
            time.sleep(1)
        return data

    with (
        Between(front, it.port + 3, change),
        it.servers(nodes=4, owners=owners, announced={3: front}) as servers,
    ):
        values = keys_in(own, 3)
        servers.put(values)
        before = servers.nodes[3].ask("INFO", "errorstats")[1]
        was = servers.owner()
        planned = it.run("plan-drain", "--cluster", servers.address(0), "--from", "n3")
        ran = it.applied(servers, planned.out, "a node that is drained")
        it.check("no slot of another node has moved", all(
            owner == servers.owner()[slot] for slot, owner in enumerate(was) if owner != 3))
        after = servers.nodes[3].ask("INFO", "errorstats")[1]
        it.check("the node refused the last command, which counts as done", before != after and ran.status == 0, after)
        told = [line for line in ran.err.splitlines() if line.endswith(EMPTIED)]
        it.check("that the node is emptied is said, and of no other", told == [f"n3 {EMPTIED}"], ran)
        it.check("the node is a replica", wait_until(lambda: 3 not in servers.masters()))
        surveyed = it.run("survey", "--cluster", servers.address(0))
        for _ in range(15):
            if surveyed.status == 0:
                break
            time.sleep(1)
            surveyed = it.run("survey", "--cluster", servers.address(0))
        it.check("three nodes are left", len(masters_alone(surveyed)) == 4 and surveyed.status == 0, surveyed)
        it.left(servers, values, "a node that is drained")


@part
def forgets(it):
    owners = [3 if slot >= SLOTS - FEW else node for slot, node in enumerate(even_split(3))]
    more = ["--cluster-allow-replica-migration", "no"]  # an emptied master stays one
    with (
        it.servers(nodes=4, owners=owners, more=more) as servers,
        replicas_of(it, servers, [1, 3], first=4) as replicas,
    ):
        values = keys_in([*range(20), *range(SLOTS - FEW, SLOTS)], 3)
        servers.put(values)
        still_needed(it, servers, replicas[1])
        forgotten(it, servers, replicas)
        it.left(servers, values, "a node that is forgotten")
    with it.servers(nodes=4, owners=even_split(3), more=more) as servers, \
            replicas_of(it, servers, [1], first=4) as [replica]:
        one_untold(it, servers, replica)


def still_needed(it, servers, replica):
    """No node is told where the node has a slot, a mark or a replica, and a word names a node of the cluster."""
    words, source, node = ["forget", "n3", "--cluster", servers.address(0)], servers.nodes[0], servers.nodes[3]

    def kept(what, reason):
        it.refused(servers, it.run(*words), what, f"refused: {reason}")

    kept("a node with slots", rf"slot {SLOTS - FEW} belongs to n3 in the table of n0; move its slots first .*")
    planned = it.run("plan-drain", *words[2:], "--from", "n3")
    it.applied(servers, planned.out, "a node that will be forgotten")
    source.ask("CLUSTER", "SETSLOT", 5, "MIGRATING", servers.ids[3])
    kept("a node that a mark names", "the mark of slot 5 at n0 names n3; close the slot first .*")
    source.ask("CLUSTER", "SETSLOT", 5, "STABLE")
    node.ask("CLUSTER", "SETSLOT", 6, "IMPORTING", servers.ids[0])
    kept("a node with a mark", "slot 6 has a mark at n3; close the slot first .*")
    node.ask("CLUSTER", "SETSLOT", 6, "STABLE")
    place = f"127.0.0.1:{replica.ports[0]}"
    kept("a node with a replica", f"{place} is a replica of n3; let it follow another master first .*")
    for word in ("n4", "n03", "3", "all"):
        ran = it.run("forget", word, *words[2:])
        text = "error: the node to forget is one of the cluster, as n3\n"
        it.check(f"forget {word}", (ran.status, ran.out, ran.err) == (2, "", text), ran)
    asked = [servers.calls(number, "cluster|forget") for number in range(4)]
    it.check("no node was told anything", asked == [0] * 4, asked)


def forgotten(it, servers, replicas):
    """All others are told, and none hears of the node again, though it goes on running."""
    others = [*servers.nodes[:3], *(Connection(replica.ports[0]) for replica in replicas)]
    others[4].ask("CLUSTER", "REPLICATE", servers.ids[2])
    its = [servers.ids[3].encode(), servers.ids[2].encode()]

    def lists(node):
        return others[node].ask("CLUSTER", "NODES")[1]

    it.check("the replica follows another master", wait_until(
        lambda: not servers.nodes[3].ask("CLUSTER", "REPLICAS", its[0])[1]
        and len(servers.nodes[3].ask("CLUSTER", "REPLICAS", its[1])[1]) == 1))
    ran = it.run("forget", "n3", "--cluster", servers.address(0))
    it.check("all are told", (ran.status, ran.out) == (0, f"n3 {servers.address(3)} is forgotten at 5 nodes\n"), ran)
    it.check("none lists it", not any(its[0] in lists(node) for node in range(5)))
    told = [dict(re.findall(r"cmdstat_(\S+):calls=(\d+)", node.ask("INFO", "commandstats")[1].decode()))
            for node in [*others, servers.nodes[3]]]
    told = [counts.get("cluster|forget") for counts in told]
    it.check("each other node is told once", told == ["1"] * 5 + [None], told)
    time.sleep(65)
    it.check("none has heard of it again", not any(its[0] in lists(node) for node in range(5)))
    ran = it.run("survey", "--cluster", servers.address(0))
    it.check("three nodes are left", ran.status == 0 and len(masters_alone(ran)) == 4, ran)
    servers.kill(3)


def one_untold(it, servers, replica):
    """A replica that stands still is named, and can still be told by hand."""
    replica.running[0].send_signal(signal.SIGSTOP)
    ran = it.run("forget", "n3", "--cluster", servers.address(0))
    replica.running[0].send_signal(signal.SIGCONT)
    wanted = (f"127.0.0.1:{replica.ports[0]} is not told, as it gave no answer; "
              f"send it CLUSTER FORGET {servers.ids[3]} within a minute\n"
              f"n3 {servers.address(3)} is forgotten at 3 of 4 nodes\n")
    it.check("a node that stands still is not told", (ran.status, ran.out) == (1, wanted), ran)


# ---- passwords


@part
def passwords(it):
    with it.servers_with(range(20), 10, password=SECRET) as (servers, values):
        survey = ["survey", "--cluster", servers.address(0)]
        it.refused(servers, it.run(*survey), "no password")
        it.refused(servers, it.run(*survey, environment={"RESHARD_AUTH": "wrong"}), "a wrong password")
        given = {"RESHARD_AUTH": SECRET}
        seen = [it.run(*survey, environment=given)]
        it.check("a survey with the password", seen[0].status == 0, seen[0])
        log = it.folder / "log"
        seen.append(it.applied(servers, plan_of("move 0-9 from n0 to n1 by 4"), "with a password", "--log", log,
                               "--overwrite", environment=given))
        is_logged_well(it, log, seen[-1], "with a password")
        for rights in documented_rights():
            replies = [connection.ask("ACL", "SETUSER", "mover", *rights) for connection in servers.nodes]
            it.check("the documented rights", replies == [("+", b"OK")] * len(replies), replies)
        given = {"RESHARD_AUTH": OTHER_SECRET, "RESHARD_USER": "mover"}
        plan = plan_of("move 10-19 from n0 to n2 by 4")
        seen.append(it.run("explain", "--cluster", servers.address(0), plan=plan, environment=given))
        it.check("a plan is explained as a user", seen[-1].status == 0, seen[-1])
        seen.append(it.applied(servers, plan, "as a user", "--log", log, "--overwrite", environment=given))
        is_logged_well(it, log, seen[-1], "as a user")
        seen.append(it.run("resume", "--cluster", servers.address(0), environment=given))
        it.has_printed(seen[-1], 0, "clean, nothing to resume", "as a user")
        it.left(servers, values, "with passwords")
        servers.nodes[2].ask("CONFIG", "SET", "requirepass", "another")
        ran = it.run(*survey, environment={"RESHARD_AUTH": SECRET})
        it.refused(servers, ran, "one node with another password")
        servers.nodes[2].ask("CONFIG", "SET", "requirepass", SECRET)
        it.check("no output shows a password", not any(holds_secrets(ran.out + ran.err) for ran in seen))


def documented_rights():
    """What REQUIREMENTS gives the tool's user, a list of words for each of its lines."""
    text = (TESTS.parent / "docs" / "REQUIREMENTS.md").read_text()
    lines = [line.split()[3:] for line in text.splitlines() if line.startswith("ACL SETUSER mover ")]
    return [[f">{OTHER_SECRET}" if word == ">secret" else word for word in line] for line in lines]


def holds_secrets(text):
    return SECRET in text or OTHER_SECRET in text


def is_logged_well(it, log, ran, what):
    """The log has each command and its reply, keys as their number, and no password."""
    text = log.read_text() if log.exists() else ""
    done = re.search(r"done (\d+) commands", ran.out)
    it.check(f"{what}: the log shows no password", not holds_secrets(text))
    it.check(f"{what}: the log shows no key", "secret:" not in text, text[:300])
    it.check(f"{what}: the log shows each command", done and len(text.splitlines()) >= int(done[1]), text[:300])
    log.unlink(missing_ok=True)


# ---- servers that answer errors


@part
def environment(it):
    """What the environment says in place of words: a password, and a cluster."""
    with it.servers(password=SECRET) as servers:
        file, survey = it.folder / "password", ["survey", "--cluster", servers.address(0)]
        for name, text in [("with a line end", SECRET + "\n"), ("without one", SECRET)]:
            file.write_text(text)
            ran = it.run(*survey, environment={"RESHARD_AUTH_FILE": str(file)})
            it.check(f"a password in a file {name}", ran.status == 0, ran)
        for given, what in [
            ({"REDISCLI_AUTH": SECRET}, "redis-cli's password"),
            ({"RESHARD_AUTH": SECRET, "RESHARD_AUTH_FILE": "nowhere", "REDISCLI_AUTH": "other"}, "the first of three"),
            ({"RESHARD_AUTH_FILE": str(file), "REDISCLI_AUTH": "other"}, "the file before redis-cli's"),
        ]:
            ran = it.run(*survey, environment=given)
            it.check(what, ran.status == 0 and not holds_secrets(ran.out + ran.err), ran)
        is_no_password(it, survey, file)
        found = {"RESHARD_AUTH": SECRET, "RESHARD_CLUSTER": servers.address(0)}
        it.check("a cluster of the environment", it.run("survey", environment=found).status == 0)
        ran = it.run("verify", "--nodes", 3, plan=plan_of("move 1 from n0 to n1 by 10"), environment=found)
        it.check("a word that is given wins", (ran.status, ran.out) == (0, "verified 6 commands\n"), ran)
        for address in ("", "127.0.0.1", "127.0.0.1:0"):
            ran = it.run("survey", environment={"RESHARD_CLUSTER": address})
            told = "error: --cluster is 1 to 8 addresses"
            it.check(f"no address: {address!r}", ran.status == 2 and told in ran.err, ran)
    reads_a_terminal(it)


def is_no_password(it, survey, file):
    """Each is told before a server is asked."""
    long, empty = it.folder / "long", it.folder / "empty"
    long.write_bytes(b"x" * 1_048_577)
    empty.write_text("\n")
    for path, text in [
        (it.folder / "none", "names no file"),
        (it.folder, "names a directory"),
        (empty, "names a file without a password"),
        (long, "names a file of more than 1048576 bytes"),
    ]:
        ran = it.run(*survey, environment={"RESHARD_AUTH_FILE": str(path)})
        told = (2, "", f"error: RESHARD_AUTH_FILE {text}\n")
        it.check(f"a file that {text}", (ran.status, ran.out, ran.err) == told, ran)
    ran = it.run(*survey, environment={"REDISCLI_AUTH": ""})
    it.check("an empty variable", (ran.status, ran.err) == (2, "error: REDISCLI_AUTH is empty\n"), ran)


def reads_a_terminal(it):
    """A plan from a terminal is announced, and ends with Ctrl-D."""
    for words, what in [(["verify", "--nodes", "3"], "a plan"), (["rehearse"], "a script")]:
        keyboard, screen = os.openpty()
        running = subprocess.Popen([it.program, *words], stdin=screen, stdout=subprocess.PIPE, stderr=subprocess.PIPE)
        os.close(screen)
        os.write(keyboard, b"\x04")
        out, err = running.communicate(timeout=60)
        os.close(keyboard)
        told = f"reading {what} from the terminal; end it with Ctrl-D\n".encode()
        it.check(f"{what} from a terminal", err == told, (running.returncode, out, err))


@part
def errors(it):
    no_memory(it)
    no_command(it)
    no_rights(it)


def stopped_by(it, servers, ran, text, what):
    """The plan stops with the server's text, and an open slot may be left, which redis-cli ends."""
    it.has_printed(ran, 1, rf"stopped at command \d+: {text}", what)
    before = servers.moves()
    again = it.run("apply", "--cluster", servers.address(0), plan=plan_of("move 5000 from n0 to n1 by 10"),
                   environment={"RESHARD_AUTH": servers.password} if servers.password else {})
    it.check(f"{what}: then no plan runs", again.status == 1 and servers.moves() == before, again)
    it.check(f"{what}: redis-cli ends the slot", servers.fix())


def no_memory(it):
    with it.servers_with(range(3), 20) as (servers, values):
        servers.nodes[1].ask("CONFIG", "SET", "maxmemory", 1)
        ran = it.run("apply", "--cluster", servers.address(0), plan=plan_of("move 0-2 from n0 to n1 by 10"))
        servers.nodes[1].ask("CONFIG", "SET", "maxmemory", 0)
        stopped_by(it, servers, ran, re.escape(NO_MEMORY.decode()), "no memory")
        it.left(servers, values, "no memory")


def no_command(it):
    """A node without MIGRATE shows the beginning of the command in its text, with the password in it."""
    with it.servers_with(range(3), 2, password=SECRET, more=["--rename-command", "MIGRATE", ""]) as (servers, values):
        log = it.folder / "log"
        ran = it.run("apply", "--cluster", servers.address(0), "--log", log, "--overwrite",
                     environment={"RESHARD_AUTH": SECRET}, plan=plan_of("move 0-2 from n0 to n1 by 10"))
        it.has_printed(ran, 1, r"stopped at command \d+: ERR unknown command 'MIGRATE'.*", "no MIGRATE")
        it.check("no MIGRATE: no output shows the password", not holds_secrets(ran.out + ran.err), ran)
        it.check("no MIGRATE: the log does not show it", log.exists() and not holds_secrets(log.read_text()))
        for node in (1, 0):
            servers.nodes[node].ask("CLUSTER", "SETSLOT", 0, "STABLE")
        it.left(servers, values, "no MIGRATE")


def no_rights(it):
    with it.servers_with(range(3), 2) as (servers, values):
        for connection in servers.nodes:
            connection.ask("ACL", "SETUSER", "looker", "on", f">{OTHER_SECRET}", "~*", "&*", "+@all", "-migrate")
        given = {"RESHARD_AUTH": OTHER_SECRET, "RESHARD_USER": "looker"}
        ran = it.run("apply", "--cluster", servers.address(0), environment=given,
                     plan=plan_of("move 0-2 from n0 to n1 by 10"))
        told = f"NOPERM this user has no permissions to run the 'migrate' command; {ADVICE['NOPERM']}"
        stopped_by(it, servers, ran, re.escape(told), "no rights")
        it.left(servers, values, "no rights")


# ---- plans for another cluster


@part
def expect(it):
    with it.servers() as servers:
        cluster, names = ["--cluster", servers.address(0)], it.folder / "names"
        values = keys_in(range(5), 2)
        servers.put(values)
        surveyed = it.run("survey", *cluster).out
        first, second, third, last = surveyed.splitlines(keepends=True)
        ids, other = servers.ids, "is not the node that --expect names so"
        others = [
            ("another node", surveyed.replace(ids[1], ids[1][:-1] + "01"[ids[1][-1] == "0"]), f"n1 {other}"),
            ("two names exchanged", surveyed.replace(ids[0], "-").replace(ids[1], ids[0]).replace("-", ids[1]),
             f"n0 {other}"),
            ("a node less", first + second + last, f"n2 {other}"),
            ("a node more", first + second + third + third.replace("n2", "n3") + last, f"n3 {other}"),
            ("a line that is none", first + second + "and so on\n" + last,
             "--expect: line 3 is not a line of a survey"),
        ]
        before, plan = servers.moves(), plan_of("move 0-4 from n0 to n1 by 10")
        for what, text, told in others:
            names.write_text(text)
            for words in (["survey"], ["verify"], ["plan-rebalance"], ["apply"],
                          ["plan-reshard", "--from", "n0", "--to", "n1", "--slots", "1"]):
                ran = it.run(*words, *cluster, "--expect", names, plan=plan)
                it.refused(servers, ran, f"{words[0]} with {what}", f"survey refused: {told}")
        missing = it.folder / "no-such-file"
        ran = it.run("apply", *cluster, "--expect", missing, plan=plan)
        it.refused(servers, ran, "no such file", f"survey refused: {missing} could not be read: .+")
        it.check("nothing was moved", servers.moves() == before)
        names.write_text(surveyed)
        it.applied(servers, plan, "the same cluster", "--expect", names)
        it.left(servers, values, "the same cluster")


# ---- epochs


@part
def epochs(it):
    slots, times = [0, 1, 2, 3], 25
    with it.servers_with(slots, 5) as (servers, values):
        lines = [f"move {slot} from n{turn % 2} to n{1 - turn % 2} by 10" for slot in slots for turn in range(times)]
        ran = it.applied(servers, plan_of(*lines, version=2), "to and fro")
        it.check("to and fro: a hundred moves", ran.out.startswith("verified 600 commands"), ran)
        it.left(servers, values, "to and fro")
    without_the_wait(it)


def without_the_wait(it):
    """The test of the test: where nodes hear of each other late, and nobody waits for that, keys are lost."""
    buses = {node: it.port + 3 + node for node in range(3)}
    late = threading.Event()

    def change(data, is_answer, _):
        if late.is_set():
            time.sleep(0.2)
        return data

    with contextlib.ExitStack() as stack:
        for node, bus in buses.items():
            stack.enter_context(Between(bus, it.port + node + BUS, change))
        servers = stack.enter_context(it.servers(buses=buses))
        late.set()
        it.check("without the wait for epochs keys are lost", loses_keys(servers, 4), f"never in {ROUNDS} rounds")


def loses_keys(servers, slot):
    """A slot goes to and fro four times with nothing in between, until its keys are lost."""
    values = keys_in([slot], 5)
    for _ in range(ROUNDS):
        if not servers.agree():
            return False
        servers.put(values)
        for turn in range(4):
            move_at_once(servers, slot, turn % 2, 1 - turn % 2)
        time.sleep(1)
        held = sum(it.ask("CLUSTER", "COUNTKEYSINSLOT", slot)[1] for it in servers.nodes)
        if held != len(values):
            return True
        for connection in servers.nodes:
            connection.ask("CLUSTER", "SETSLOT", slot, "NODE", servers.ids[0])
    return False


def move_at_once(servers, slot, source, target):
    """The commands of a plan for one slot, in its order, each after the reply to the one before."""
    ids, nodes = servers.ids, servers.nodes
    nodes[target].ask("CLUSTER", "SETSLOT", slot, "IMPORTING", ids[source])
    nodes[source].ask("CLUSTER", "SETSLOT", slot, "MIGRATING", ids[target])
    while keys := nodes[source].ask("CLUSTER", "GETKEYSINSLOT", slot, 10)[1]:
        words = [key for _, key in keys]
        nodes[source].ask("MIGRATE", "127.0.0.1", servers.ports[target], "", 0, 5000, "KEYS", *words)
    for node in [target, source, *(node for node in range(len(nodes)) if node not in (source, target))]:
        nodes[node].ask("CLUSTER", "SETSLOT", slot, "NODE", ids[target])


# ---- what is broken off


def begun(it, servers, slots, *words, rate=400, **more):
    """A plan that moves slots slowly, once some have moved."""
    plan = plan_of(f"move {slots[0]}-{slots[-1]} from n0 to n1 by 10")
    running = it.start(["apply", "--cluster", servers.address(0), "--keys-per-second", rate, *words], plan, **more)
    began = wait_until(lambda: not running.is_running() or servers.nodes[1].ask("DBSIZE")[1] >= 100)
    it.check("a plan has begun", began and running.is_running(), running.out.read_text())
    return running


@part
def stopped(it):
    slots = range(20)
    kept = ["--appendonly", "yes", "--appendfsync", "always"]
    with it.servers_with(slots, 50, more=kept) as (servers, values):
        running = begun(it, servers, slots, "--timeout", 500)
        servers.running[1].send_signal(signal.SIGSTOP)
        ran = running.end()
        it.has_printed(ran, 1, r"stopped at command \d+: (IOERR error or timeout reading to target instance|"
                       r"n1 ended the connection, or gave no answer in time)", "a target that stands still")
        servers.kill(1)
        it.refused(servers, it.run("survey", "--cluster", servers.address(0)), "a node that is dead")
        servers.restart(1)
        it.check("the servers agree again", servers.agree())
        it.check("redis-cli ends the slot", servers.fix())
        it.left(servers, values, "a target that stands still")
        the_rest(it, servers, slots, values, "a target that stood still")


def the_rest(it, servers, slots, values, what):
    """Plans what has not moved yet, and runs that."""
    owner = servers.owner()
    left = [slot for slot in slots if owner[slot] == 0]
    words = ["--from", "n0", "--to", "n1", "--slots", len(left)]
    planned = it.run("plan-reshard", "--cluster", servers.address(0), *words)
    it.applied(servers, planned.out, f"{what}: the rest")
    it.check(f"{what}: all slots have moved", all(servers.owner()[slot] == 1 for slot in slots))
    it.left(servers, values, f"{what}: the rest")


@part
def killed(it):
    """The program is killed: one slot at most is open, and no key is lost."""
    slots = range(20)
    with it.servers_with(slots, 50) as (servers, values):
        running = begun(it, servers, slots)
        running.process.kill()
        running.process.wait()
        servers.agree(5)
        marks = {mark[0] for node in range(3) for line in servers.lines(node).values() for mark in line.marks}
        it.check("one slot at most is open", len(marks) <= 1, marks)
        ran = it.run("survey", "--cluster", servers.address(0))
        last = (ran.out.splitlines() or [""])[-1]
        it.check("a survey says so", (ran.status, last) == ((1, "open") if marks else (0, "clean")), ran)
        it.check("redis-cli ends the slot", servers.fix())
        it.left(servers, values, "the program is killed")
        the_rest(it, servers, slots, values, "the program was killed")


# ---- keys that nobody finds

NOTHING = "clean, nothing to resume"


@part
def stranded(it):
    """Each line tells how many keys lie where, and names the line of a plan that brings them together."""
    with it.servers_with([5, 24, 6000, 16383], 10) as (servers, values):
        before = counted(servers)
        told(it, servers, [NOTHING], "no key is stranded")
        asked = counted(servers) - before
        it.check("each node is asked for each slot that it does not own", asked == 2 * SLOTS, asked)
        lines = [strand(servers, 5, 0, 1, 3), strand(servers, 5, 0, 2, 1), strand(servers, 6000, 1, 2, 1)]
        ran = it.run("survey", "--cluster", servers.address(0))
        it.check("a survey says that all is clean", ran.status == 0 and ran.out.endswith("\nclean\n"), ran)
        it.check("redis-cli says that all is well", servers.is_checked())
        told(it, servers, [NOTHING, *lines], "keys are stranded")
        shown = [*survey_lines(servers, [5461, 5462, 5461]), "clean"]
        ran = it.run("survey", "--stranded", "--cluster", servers.address(0))
        it.check("a survey tells stranded keys", (ran.status, ran.out.splitlines()) == (1, [*shown, *lines]), ran)
        saved = it.folder / "survey-of-stranded"
        saved.write_text(ran.out)
        ran = it.run("survey", "--cluster", servers.address(0), "--expect", saved)
        it.check("that is read by --expect", (ran.status, ran.out.splitlines()) == (0, shown), ran)
        none = it.folder / "no-moves"
        none.write_text(plan_of())
        ran = it.run("resume", "--cluster", servers.address(0), "--plan", none)
        it.check("with a plan they are not looked for", (ran.status, ran.out.splitlines()) == (0, [NOTHING]), ran)
        an_open_slot_first(it, servers, lines)
        gathered(it, servers, values)
        written_anew(it, servers, values)


def strand(servers, slot, source, target, count):
    """Some keys of the slot go to the target, and STABLE takes both marks. The line that tells of them."""
    ids, nodes = servers.ids, servers.nodes
    marked_both(servers, slot, source, target)
    keys = [key for _, key in nodes[source].ask("CLUSTER", "GETKEYSINSLOT", slot, count)[1]]
    nodes[source].ask("MIGRATE", "127.0.0.1", servers.ports[target], "", 0, 5000, "KEYS", *keys)
    for node in (target, source):
        nodes[node].ask("CLUSTER", "SETSLOT", slot, "STABLE")
    plan = f"move {slot} from n{source} to n{target} by 10"
    return f"slot {slot}: {count} keys at n{target}, and n{source} owns it; a plan with '{plan}' brings them together"


def marked_both(servers, slot, source, target):
    servers.nodes[target].ask("CLUSTER", "SETSLOT", slot, "IMPORTING", servers.ids[source])
    servers.nodes[source].ask("CLUSTER", "SETSLOT", slot, "MIGRATING", servers.ids[target])


def counted(servers):
    """How many times the servers were asked for the number of a slot's keys."""
    return sum(servers.calls(node, "cluster|countkeysinslot") for node in servers.running)


def told(it, servers, lines, what):
    """What `resume` says where no slot is open. The status is 1 where keys are stranded."""
    ran = it.run("resume", "--cluster", servers.address(0))
    it.check(what, (ran.status, ran.out.splitlines()) == (int(len(lines) > 1), lines), ran)
    return ran


def an_open_slot_first(it, servers, lines):
    """An open slot is closed first, and its keys are none of those."""
    marked_both(servers, 24, 0, 1)
    ran = it.run("survey", "--stranded", "--cluster", servers.address(0))
    it.check("they are not looked for while a slot is open",
             (ran.status, ran.out.splitlines()[-1]) == (1, "open"), ran)
    ran = it.run("resume", "--cluster", servers.address(0))
    first, last, *others = [*ran.out.splitlines(), "", ""]
    is_done = re.fullmatch(r"verified \d+ commands", first) and re.fullmatch(r"done \d+ commands", last)
    it.check("an open slot is closed first", is_done and servers.owner()[24] == 1, ran)
    it.check("then stranded keys are told", (ran.status, others[:-2]) == (1, lines), ran)


def gathered(it, servers, values):
    """The plans that the lines name, one after the other, bring all keys together."""
    for moves in range(4):
        ran = it.run("resume", "--cluster", servers.address(0))
        named = re.findall(r"a plan with '(.+)' brings them together", ran.out)
        if not named:
            break
        it.applied(servers, plan_of(named[0]), f"a plan that was told: {named[0]}")
    it.check("three plans bring the keys of two slots together", moves == 3, ran)
    it.check("then no key is stranded", (ran.status, ran.out.splitlines()) == (0, [NOTHING]), ran)
    it.left(servers, values, "stranded keys")


def written_anew(it, servers, values):
    """A key that a client has written anew meanwhile stops the plan, and keeps the client's value."""
    line = strand(servers, 16383, 2, 0, 4)
    lost = [key for _, key in servers.nodes[0].ask("CLUSTER", "GETKEYSINSLOT", 16383, 1)[1]]
    values = {**values, lost[0]: b"written anew"}
    servers.put({lost[0]: values[lost[0]]})
    told(it, servers, [NOTHING, line], "a stranded key was written anew")
    ran = it.run("apply", "--cluster", servers.address(0), plan=plan_of("move 16383 from n2 to n0 by 10"))
    it.has_printed(ran, 1, r"stopped at command \d+: ERR Target instance replied with error: BUSYKEY .*",
                   "a key that was written anew")
    ran = it.run("resume", "--cluster", servers.address(0))
    it.has_printed(ran, 0, r"done \d+ commands", "a key that was written anew is sent once more")
    it.left(servers, values, "a key that was written anew")


@part
def pauses(it):
    slots, each, rate = range(20), 50, 400
    with it.servers_with(slots, each) as (servers, values):
        stop = it.folder / "stop"
        running = begun(it, servers, slots, "--stop-file", stop)
        stop.touch()
        ran = running.end()
        it.has_printed(ran, 3, r"paused after \d+ commands, no slot is open", "a stop file")
        surveyed = it.run("survey", "--cluster", servers.address(0))
        it.check("no slot is open", surveyed.status == 0 and surveyed.out.endswith("\nclean\n"), surveyed)
        left = [slot for slot in slots if servers.owner()[slot] == 0]
        it.check("some slots have moved, and some have not", 0 < len(left) < len(slots), left)
        again = it.run("apply", "--cluster", servers.address(0), "--stop-file", stop,
                       plan=plan_of(f"move {left[0]}-{left[-1]} from n0 to n1 by 10"))
        it.has_printed(again, 1, re.escape(f"refused: --stop-file {stop} is there already: remove it first"),
                       "a stop file that was there before")
        it.left(servers, values, "a stop file")
        stop.unlink()
        began = time.monotonic()
        ran = it.applied(servers, plan_of(f"move {left[0]}-{left[-1]} from n0 to n1 by 10"), "no more keys a second",
                         "--keys-per-second", rate)
        took, least = time.monotonic() - began, (len(left) * each - 10) / rate
        it.check("no more keys move a second than may", took > 0.9 * least, f"{took:.2f} s, and {least:.2f} is least")
        it.check("a line a second", took < 1.5 or re.search(r"\d+ of \d+ slots", ran.err), ran)
        it.left(servers, values, "no more keys a second")


@part
def deaf(it):
    """Each plan has slots of its own, so that one which stops is no fault of the next."""
    with it.servers_with(range(400), 5) as (servers, values):
        fresh, words = iter(range(0, 400, 40)), ["apply", "--cluster", servers.address(0)]

        def plan():
            close_all(servers)
            first = next(fresh)
            return plan_of(f"move {first}-{first + 39} from n0 to n1 by 10")

        before = servers.moves()
        it.is_done(closed(it, 2, words, plan()), servers, before, "standard error is closed")
        reader, writer = os.pipe()
        os.close(reader)
        it.applied(servers, plan(), "standard error is broken", errors=writer)
        os.close(writer)
        full = os.open("/dev/full", os.O_WRONLY)
        it.applied(servers, plan(), "standard error is full", errors=full)
        os.close(full)
        on_a_terminal(it, servers, plan())
        for stream, name in enumerate(["standard input", "standard output"]):
            ran = closed(it, stream, words, plan())
            it.check(f"{name} is closed: no slot is open", not marked(servers), ran)
            it.check(f"{name} is closed: the status says so", stream or ran.status == 1, ran)
        refused = [node for node in range(3) if b"errorstat_ERR" in servers.nodes[node].ask("INFO", "errorstats")[1]]
        it.check("no server was sent what is for the operator", not refused, f"n{refused} refused some command")
        close_all(servers)
        it.left(servers, values, "nobody listens to the program")


def close_all(servers):
    """Has redis-cli end the slots that a fault has left open."""
    if marked(servers):
        servers.fix()


def marked(servers):
    """The slots that have a mark."""
    return {mark[0] for node in servers.running for line in servers.lines(node).values() for mark in line.marks}


def closed(it, stream, words, plan):
    """Runs the program with this stream closed: 0, 1 or 2."""
    given, out = it.folder / "plan", it.folder / "out"
    given.write_text(plan)
    shell = ["sh", "-c", f'exec "$0" "$@" {stream}>&-', it.program, *map(str, words)]
    with given.open() as plan, out.open("w") as printed:
        ran = subprocess.run(shell, stdin=plan, stdout=printed, stderr=subprocess.DEVNULL, env=ENVIRONMENT,
                             timeout=SECONDS)
    return Ran(ran.returncode, out.read_text(), "")


def on_a_terminal(it, servers, plan):
    ours, theirs = pty.openpty()
    it.applied(servers, plan, "standard error is a terminal", "--keys-per-second", 100, errors=theirs)
    shown = os.read(ours, 1 << 16)
    os.close(theirs)
    os.close(ours)
    it.check("on a terminal one line is written again and again", re.search(rb"\r[^\n]", shown), shown[-300:])
    it.check("on a terminal that line ends at last", shown.replace(b"\r\n", b"\n").endswith(b"\n"), shown[-300:])


# ---- logs

UNLOGGED = r"stopped after (\d+) commands, no slot is open: the log could not be written"
OPEN_TO_OTHERS, OWNER_ALONE = 0o644, 0o600


@part
def logs(it):
    with it.servers_with(range(200), 5) as (servers, values):
        firsts = iter(range(0, 200, 10))

        def plan():
            first = next(firsts)
            return plan_of(f"move {first}-{first + 9} from n0 to n1 by 2")

        words = ["apply", "--cluster", servers.address(0)]
        before = servers.moves()
        ran = it.run(*words, "--log", "/dev/full", plan=plan())
        it.has_printed(ran, 1, UNLOGGED.replace(r"(\d+)", "0"), "a log on a full device")
        it.check("a log on a full device: nothing was sent", servers.moves() == before, ran)
        told = "no slot is open; continue with: reshard resume"
        it.check("a log on a full device: how to go on", told in ran.err, ran)
        reader_goes_away(it, servers, words, plan())
        rights(it, servers, plan)
        same_files(it, words, plan())
        behind_half_a_line(it, servers, words, plan())
        it.left(servers, values, "logs")


def reader_goes_away(it, servers, words, plan):
    """The slot that is open then is ended, and no further one is begun."""
    pipe = it.folder / "pipe"
    os.mkfifo(pipe)
    running = it.start([*words, "--log", pipe], plan=plan)
    with pipe.open() as lines:
        for _ in range(25):
            lines.readline()
    ran = running.end()
    it.has_printed(ran, 1, UNLOGGED, "a log whose reader goes away")
    it.check("a log whose reader goes away: some commands were sent", not re.search("after 0 ", ran.out), ran)
    it.check("a log whose reader goes away: no slot is open", not marked(servers), ran)


def rights(it, servers, plan):
    log = it.folder / "log"
    log.unlink(missing_ok=True)
    it.applied(servers, plan(), "a new log", "--log", log)
    it.check("a new log is for its owner alone", log.stat().st_mode & 0o777 == OWNER_ALONE, oct(log.stat().st_mode))
    log.chmod(OPEN_TO_OTHERS)
    before = log.read_bytes()
    ran = it.run("apply", "--cluster", servers.address(0), "--log", log, plan=plan())
    told = re.escape(f"refused: --log {log} is not empty: give --append or --overwrite")
    it.has_printed(ran, 1, told, "a log in use")
    it.check("a log that is refused stays", log.read_bytes() == before and not marked(servers))
    it.applied(servers, plan(), "a log that was there", "--log", log, "--append")
    it.check("a log that is appended to keeps its lines", log.read_bytes().startswith(before) and len(before) > 0)
    it.applied(servers, plan(), "a log that is overwritten", "--log", log, "--overwrite")
    it.check("a log that is overwritten has new lines alone", before not in log.read_bytes())
    it.check("a log that was there keeps its rights", log.stat().st_mode & 0o777 == OPEN_TO_OTHERS)


def same_files(it, words, plan):
    """A log in the place of a file that the program needs is refused, and the file stays."""
    given, names = it.folder / "plan", it.folder / "names"
    names.write_text(it.run("survey", *words[1:]).out)
    link = it.folder / "link"
    link.symlink_to(given)
    stop = it.folder / "stop"
    for log, more, what in [
        (given, [], "standard input"),
        (link, [], "standard input"),
        (names, ["--expect", names], "the file of --expect"),
        (stop, ["--stop-file", stop], "the stop file"),
    ]:
        ran = it.run(*words, "--log", log, *more, plan=plan)
        it.has_printed(ran, 1, re.escape(f"refused: --log {log} is {what}, too"), f"a log that is {what}")
    it.check("the plan is as it was", given.read_text() == plan)
    it.check("the names are as they were", names.read_text())
    it.check("there is no stop file", not stop.exists())
    kept = it.folder / "kept"
    kept.write_text(plan)
    ran = it.run("resume", *words[1:], "--plan", kept, "--log", kept)
    it.has_printed(ran, 1, re.escape(f"refused: --log {kept} is the plan, too"), "a log that is the plan")
    it.check("that plan is as it was", kept.read_text() == plan)


def behind_half_a_line(it, servers, words, plan):
    log, kept = it.folder / "cut", it.folder / "kept"
    log.write_text("2026-01-01T00:00:00Z setslot 0 impor")
    kept.write_text(plan)
    ran = it.run("resume", *words[1:], "--plan", kept, "--log", log)
    it.has_printed(ran, 0, r"done \d+ commands", "a log that goes on")
    lines = log.read_text().splitlines()
    is_line = re.match(r"\d{4}-\d\d-\d\dT\d\d:\d\d:\d\d\.\d{3}Z setslot \d+ importing n0 at n1", lines[1])
    it.check("a log goes on in a line of its own", is_line, lines[:3])


# ---- what is told first


@part
def order(it):
    nobody = ["--cluster", f"127.0.0.1:{it.port + NOBODY}"]
    no_plan = "reshard-plan 1\nmove\nend\n"
    missing = it.folder / "no-such-plan"
    ran = it.run("apply", *nobody, "--plan", missing, plan=plan_of("move 0 from n0 to n1 by 1"))
    it.has_printed(ran, 1, rf"refused: {missing} could not be read: .+", "a plan's file that is not there")
    for command in ["apply", "verify"]:
        ran = it.run(command, *nobody, plan=no_plan)
        it.has_printed(ran, 1, r"refused: .*", f"{command}: a text that is no plan, and nobody there")
    for given, text in [
        ({"RESHARD_AUTH": ""}, "RESHARD_AUTH is empty"),
        ({"RESHARD_USER": "mover"}, "RESHARD_USER is set, and RESHARD_AUTH is not"),
        ({"RESHARD_AUTH": "secret", "RESHARD_USER": ""}, "RESHARD_USER is empty"),
    ]:
        for command in [["survey"], ["apply"], ["resume"], ["verify"], ["plan-rebalance"]]:
            ran = it.run(*command, *nobody, environment=given)
            it.check(f"{command[0]}: {text}", (ran.status, ran.out, ran.err) == (2, "", f"error: {text}\n"), ran)
    ran = it.run("verify", "--nodes", 2, plan=plan_of("move 0 from n0 to n1 by 1"), environment={"RESHARD_AUTH": ""})
    it.check("no servers are asked: the environment is not looked at", ran.status == 0, ran)
    a_slow_plan(it)


def a_slow_plan(it):
    """The cluster is surveyed once the whole plan has come: what was opened meanwhile is seen."""
    with it.servers() as servers:
        for command in ["apply", "verify"]:
            words = [it.program, command, "--cluster", servers.address(0)]
            running = subprocess.Popen(words, stdin=subprocess.PIPE, stdout=subprocess.PIPE, stderr=subprocess.DEVNULL,
                                       text=True, env=ENVIRONMENT)
            running.stdin.write("reshard-plan 1\n")
            running.stdin.flush()
            time.sleep(1)
            servers.nodes[1].ask("CLUSTER", "SETSLOT", 9, "IMPORTING", servers.ids[0])
            out, _ = running.communicate("move 24 from n0 to n1 by 10\nend\n", timeout=SECONDS)
            servers.nodes[1].ask("CLUSTER", "SETSLOT", 9, "STABLE")
            it.check(f"{command}: a slot that was opened while the plan came", running.returncode == 1 and
                     out.splitlines()[-1:] != ["done 6 commands"] and "open" in out, out)
        it.check("no slot was opened", not marked(servers))


# ---- how to go on


@part
def advice(it):
    """What is told after a stop is typed as it stands, in a folder whose name a shell would part."""
    odd = it.folder / "it's a folder"
    odd.mkdir()
    with it.servers_with(range(8), 20) as (servers, values):
        for first, (version, from_file) in enumerate([(1, False), (2, False), (3, False), (1, True)]):
            slots = (2 * first, 2 * first + 1)
            plan = plan_of(f"move {slots[0]}-{slots[1]} from n0 to n1 by 10", version=version)
            kept, log, stop = odd / "plan", odd / "log", odd / "stop"
            kept.write_text(plan)
            log.unlink(missing_ok=True)
            servers.nodes[1].ask("CONFIG", "SET", "maxmemory", 1)
            given = ["--plan", kept] if from_file else []
            ran = it.run("apply", "--cluster", servers.address(0), "--keys-per-second", 100000, "--log", log,
                         "--stop-file", stop, *given, plan="" if from_file else plan)
            servers.nodes[1].ask("CONFIG", "SET", "maxmemory", 0)
            it.has_printed(ran, 1, rf"stopped at command \d+: {re.escape(NO_MEMORY.decode())}", f"version {version}")
            told = re.search(rf"^open: slot {slots[0]} from n0 to n1; (.*): (reshard resume .*?)(; then make a new "
                             r"plan for the rest)?$", ran.err, re.M)
            it.check(f"version {version}: what is open, and how to go on", told, ran)
            if told:
                is_left = version == 1 and not from_file
                it.check("a plan's file is named", (" --plan FILE" in told[2]) == is_left, told)
                goes_on(it, servers, version, told, kept)
            before = servers.owner()
            left = [slot for slot in slots if before[slot] == 0]
            it.check(f"version {version}: slots that are left", left == ([] if version == 1 else [slots[1]]), left)
            lines = log.read_text().splitlines() if log.exists() else []
            it.check(f"version {version}: the log goes on", any("node n1 at n1" in line for line in lines), lines[-3:])
        it.left(servers, values, "what is told after a stop")


def goes_on(it, servers, version, told, kept):
    """Runs the command as it was told, with the plan's file in the place of FILE."""
    how, command, anew = told.groups()
    it.check(f"version {version}: the words", (how, bool(anew)) == (("continue with", False) if version == 1 else
                                                                  ("close what is open with", True)), told.group(0))
    it.check(f"version {version}: the options are kept", all(word in command for word in (
        "--keys-per-second 100000", "--log ", "--stop-file ")), command)
    words = command.replace("reshard ", '"$0" ', 1).replace(" --plan FILE", ' --plan "$1"')
    ran = subprocess.run(["sh", "-c", words, it.program, kept], capture_output=True, text=True, env=ENVIRONMENT,
                         timeout=SECONDS)
    last = (ran.stdout.splitlines() or [""])[-1]
    it.check(f"version {version}: it goes on", ran.returncode == 0 and re.fullmatch(r"done \d+ commands", last),
             f"{command}: {ran}")


# ---- servers that answer strangely

MEGABYTE = 1 << 20
TOO_LONG, NO_REPLY = "gave a longer answer than this command has", "answered something that is no reply"
SILENT, ODD = "ended the connection, or gave no answer in time", "answered something strange"


def a_byte_at_a_time(_):
    """A text that is announced, of which a byte comes each half a second."""
    yield b"$1000\r\n"
    for _ in range(200):
        yield b"x"
        time.sleep(0.5)


WORDS_OF_A_MEGABYTE = b"*2097152\r\n" + (b"$%d\r\n%s\r\n" % (MEGABYTE, b"x" * MEGABYTE)) * 4
STRANGE = [
    ("two million words of a megabyte", b"GETKEYSINSLOT", WORDS_OF_A_MEGABYTE, f"({TOO_LONG}|{NO_REPLY})"),
    ("a line without an end", b"SETSLOT", b"+" + b"x" * (4 * MEGABYTE), TOO_LONG),
    ("a text that is only announced", b"GETKEYSINSLOT", b"*1\r\n$536870911\r\n", f"({TOO_LONG}|{NO_REPLY})"),
    ("no reply", b"MIGRATE", b"HTTP/1.1 400 Bad Request\r\n", NO_REPLY),
    ("a number in the place of keys", b"GETKEYSINSLOT", b":5\r\n", ODD),
    ("a byte at a time", b"GETKEYSINSLOT", a_byte_at_a_time, SILENT),
]


@part
def strange(it):
    """n2 answers by what stands before it. Each stop leaves one slot open, and it is said which."""
    front, instead = it.port + FRONT, Instead()
    with Between(front, it.port + 2, instead), it.servers(announced={2: front}) as servers:
        slots = range(SLOTS - len(STRANGE), SLOTS)
        values = keys_in(slots, 5)
        servers.put(values)
        cluster = ["--cluster", servers.address(0)]
        for slot, (what, name, answer, told) in zip(slots, STRANGE):
            instead.tell(name, answer)
            began = time.monotonic()
            running = it.start(["apply", *cluster, "--timeout", 500],
                               plan_of(f"move {slot} from n2 to n0 by 2"))
            ran = running.end()
            took = time.monotonic() - began
            instead.tell()
            it.has_printed(ran, 1, rf"stopped at command \d+: n2 {told}", what)
            it.check(f"{what}: the slot is said to be open", f"slot {slot} from n2 to n0" in ran.err, ran)
            it.check(f"{what}: within the time for a reply", took < 15, f"{took:.1f} s")
            it.check(f"{what}: memory stays below 64 MiB", running.peak < MOST_MEMORY, f"{running.peak} KiB")
            it.has_printed(it.run("resume", *cluster), 0, r"done \d+ commands", f"{what}: resume")
        it.left(servers, values, "strange replies")
        strange_surveys(it, servers, instead)


def strange_surveys(it, servers, instead):
    for what, answer in [
        ("a text of 2 GB that is announced", b"$2000000000\r\n"),
        ("a text of 4 MB", b"$%d\r\n%s\r\n" % (4 * MEGABYTE, b"x" * (4 * MEGABYTE))),
        ("two million words", WORDS_OF_A_MEGABYTE),
        ("a line without an end", b"-" + b"x" * (4 * MEGABYTE)),
        ("a byte at a time", a_byte_at_a_time),
    ]:
        instead.tell(b"NODES", answer)
        began = time.monotonic()
        running = it.start(["survey", "--cluster", servers.address(0)])
        ran = running.end()
        took = time.monotonic() - began
        it.refused(servers, ran, f"a survey: {what}", r"survey refused: n2 (gave no answer|answered something strange)")
        it.check(f"a survey: {what}: within the time for a reply", took < 6, f"{took:.1f} s")
        it.check(f"a survey: {what}: memory stays below 64 MiB", running.peak < MOST_MEMORY, f"{running.peak} KiB")
    instead.tell()


# ---- errors for which something can be done

ADVICE = {
    "NOAUTH": "set RESHARD_AUTH, and RESHARD_USER for a user of an ACL",
    "WRONGPASS": "RESHARD_AUTH or RESHARD_USER is not what this server knows",
    "NOPERM": "the user needs +cluster +migrate +client +select +restore +restore-asking and ~*",
    "LOADING": "wait until the server has read its data",
    "BUSY": "wait until the script there ends, or send the server SCRIPT KILL",
    "MISCONF": "the server can't save its data: its log says why",
    "CLUSTERDOWN": "the cluster serves no keys: ask each node for CLUSTER INFO",
}
SCRIPT = "while true do end"


@part
def named(it):
    played_errors(it)
    a_script_that_runs(it)
    rights_that_are_missing(it)


def played_errors(it):
    front, instead = it.port + FRONT, Instead()
    with Between(front, it.port + 2, instead), it.servers(announced={2: front}) as servers:
        first = SLOTS - 2 * len(ADVICE)
        values = keys_in(range(first, SLOTS), 5)
        servers.put(values)
        cluster = ["--cluster", servers.address(0)]
        for slot, (word, advice) in enumerate(ADVICE.items(), first):
            instead.tell(b"NODES", f"-{word} said by the server\r\n".encode())
            ran = it.run("survey", *cluster)
            it.refused(servers, ran, f"{word} at a survey", re.escape(f"survey refused: n2 answered {word}: {advice}"))
            ran = it.run("survey", "--cluster", servers.address(2))
            it.refused(servers, ran, f"{word} at the first server",
                       re.escape(f"survey refused: {servers.address(2)} answered {word}: {advice}"))
            for said in [f"{word} said by the server", f"ERR Target instance replied with error: {word} said by it"]:
                instead.tell(b"MIGRATE", f"-{said}\r\n".encode())
                ran = it.run("apply", *cluster, plan=plan_of(f"move {slot} from n2 to n0 by 10"))
                instead.tell()
                told = re.escape(f"{said}; {advice}")
                it.has_printed(ran, 1, rf"stopped at command \d+: {told}", f"{said}: a MIGRATE")
                it.has_printed(it.run("resume", *cluster), 0, r"done \d+ commands", f"{said}: resume")
                it.applied(servers, plan_of(f"move {slot} from n0 to n2 by 10"), f"{said}: back")
        texts_of_servers(it, servers, instead, cluster, SLOTS - 1)
        it.left(servers, values, "errors for which something can be done")


def texts_of_servers(it, servers, instead, cluster, slot):
    """A server's own text can't reach the terminal, and shows no password."""
    plan = plan_of(f"move {slot} from n2 to n0 by 10")
    for answer, told in [
        (b"-ERR \x1b[31mred\x07\x7f\r\n", r"ERR \x1b[31mred\x07\x7f"),
        (b"-ERR the word %s was wrong\r\n" % SECRET.encode(), "ERR the word *** was wrong"),
    ]:
        instead.tell(b"MIGRATE", answer)
        ran = it.run("apply", *cluster, plan=plan, environment={"RESHARD_AUTH": SECRET})
        instead.tell()
        it.has_printed(ran, 1, rf"stopped at command \d+: {re.escape(told)}", f"a text with {answer}")
        it.has_printed(it.run("resume", *cluster), 0, r"done \d+ commands", f"a text with {answer}: resume")
        it.applied(servers, plan_of(f"move {slot} from n0 to n2 by 10"), f"a text with {answer}: back")


def a_script_that_runs(it):
    """Redis answers BUSY once a script has run for longer than a limit."""
    with it.servers(more=["--busy-reply-threshold", "50"]) as servers:
        caller = Connection(servers.ports[1])
        caller.send([[b"EVAL", SCRIPT.encode(), b"0"]])
        time.sleep(0.5)
        ran = it.run("survey", "--cluster", servers.address(0))
        it.refused(servers, ran, "a script that runs", re.escape(f"survey refused: n1 answered BUSY: {ADVICE['BUSY']}"))
        servers.nodes[1].ask("SCRIPT", "KILL")
        caller.reply()
        ran = it.run("survey", "--cluster", servers.address(0))
        it.check("a script that has ended", ran.status == 0, ran)


def rights_that_are_missing(it):
    with it.servers(password=SECRET) as servers:
        survey = ["survey", "--cluster", servers.address(0)]
        first = servers.address(0)
        ran = it.run(*survey)
        told = f"survey refused: {first} answered NOAUTH: {ADVICE['NOAUTH']}"
        it.refused(servers, ran, "no password", re.escape(told))
        ran = it.run(*survey, environment={"RESHARD_AUTH": "wrong"})
        it.refused(servers, ran, "a wrong password", re.escape(f"survey refused: AUTH refused at {first}: ") + ".*")
        for connection in servers.nodes:
            connection.ask("ACL", "SETUSER", "looker", "on", f">{OTHER_SECRET}", "~*", "&*", "+@all", "-cluster")
        ran = it.run(*survey, environment={"RESHARD_AUTH": OTHER_SECRET, "RESHARD_USER": "looker"})
        it.refused(servers, ran, "no rights", re.escape(f"survey refused: {first} answered NOPERM: {ADVICE['NOPERM']}"))


# ---- what servers say of each other


@part
def unlinked(it):
    """n1 says of n2 that their connection is gone."""
    front, instead = it.port + FRONT, Instead()

    def without_a_link(answer):
        head, _, text = answer.partition(b"\r\n")
        lines = [line.replace(b" connected", b" disconnected") if line.startswith(servers.ids[0].encode()) else line
                 for line in text[:-2].split(b"\n")]
        made = b"\n".join(lines)
        return b"$%d\r\n%s\r\n" % (len(made), made) if head.startswith(b"$") else answer

    with Between(front, it.port + 2, instead), it.servers(announced={2: front}) as servers:
        it.check("the servers agree", servers.agree())
        instead.tell(b"NODES", without_a_link)
        began = time.monotonic()
        ran = it.run("survey", "--cluster", servers.address(0))
        took = time.monotonic() - began
        it.refused(servers, ran, "a connection that is gone", "survey refused: n2 is not connected to n0")
        it.check("it is asked again for 2 seconds", 1.5 < took < 10, f"{took:.1f} s")
        instead.tell()
        ran = it.run("survey", "--cluster", servers.address(0))
        it.check("the connection is there again", ran.status == 0, ran)


IDLE_CLIENTS = 5_000


def idle_clients(port):
    """So many connections to the port, or as many as files may be open here and there."""
    _, most = resource.getrlimit(resource.RLIMIT_NOFILE)
    wanted = IDLE_CLIENTS if most == resource.RLIM_INFINITY else min(IDLE_CLIENTS, most - 1_000)
    resource.setrlimit(resource.RLIMIT_NOFILE, (wanted + 1_000, most))
    return [Connection(port) for _ in range(wanted)]


@part
def addresses(it):
    """The source lists an address from which its connections do not come, so none is found; the target's clients stay,
    whose list is longer than a megabyte."""
    here, there = "127.0.0.1", "127.0.0.2"
    with it.servers(more=["--bind", here, there]) as servers:
        slots = range(SLOTS - 2, SLOTS)
        values = keys_in(slots, 20)
        servers.put(values)
        idle = idle_clients(servers.ports[0])
        listed = len(servers.nodes[0].ask("CLIENT", "LIST")[1])
        it.check("the list of connections is longer than a megabyte",
                 listed > MEGABYTE or len(idle) < IDLE_CLIENTS, listed)
        servers.nodes[2].ask("CONFIG", "SET", "cluster-announce-ip", there)
        it.check("all hear of the other address", wait_until(lambda: all(
            servers.lines(node)[servers.ids[2]].address.startswith(f"{there}:") for node in range(3))))
        cluster = ["--cluster", servers.address(0)]
        servers.nodes[0].ask("CLUSTER", "SETSLOT", slots[0], "IMPORTING", servers.ids[2])
        servers.nodes[2].ask("CLUSTER", "SETSLOT", slots[0], "MIGRATING", servers.ids[0])
        log = it.folder / "log"
        ran = it.run("resume", *cluster, "--log", log)
        it.has_printed(ran, 0, r"done \d+ commands", "a source of another address")
        told = f"settled slot {slots[0]}: 0 connections ended at n0 (none is from the address that n2 lists)"
        it.check("it is said that no connection was found", told in ran.err, ran)
        it.check("the log says so, too", told in log.read_text(), log.read_text()[:300])
        held = [client.ask("CLUSTER", "MYID")[1].decode() == servers.ids[0] for client in idle]
        it.check("the clients of the target stay", all(held), f"{held.count(False)} are gone")
        it.left(servers, values, "a source of another address")



def with_files(it, most, *words, plan=""):
    """The program, which may have so many files open."""
    limited = ["bash", "-c", 'ulimit -n "$0"; exec "$@"', str(most), it.program, *words]
    ran = subprocess.run(limited, input=plan.encode(), capture_output=True, timeout=SECONDS)
    return Ran(ran.returncode, ran.stdout.decode(), ran.stderr.decode())


@part
def descriptors(it):
    """Three files are open from the start, and each connection takes two."""
    with it.servers_with(range(3), 5) as (servers, values):
        before, cluster = servers.moves(), ["--cluster", servers.address(1)]
        told = r"survey refused: no connection to [\d.]+:\d+: too many open files; allow more with ulimit -n"
        for most in [4, 5, 6, 7, 8]:
            it.has_printed(with_files(it, most, "survey", *cluster), 1, told, f"a survey with {most} files at most")
        plan = plan_of("move 0-2 from n0 to n1 by 2")
        it.has_printed(with_files(it, 7, "apply", *cluster, plan=plan), 1, told, "a plan with 7 files at most")
        it.check("nothing was moved", servers.moves() == before)
        it.left(servers, values, "with too few files")
        ran = with_files(it, 32, "apply", *cluster, plan=plan)
        it.is_done(ran, servers, before, "a plan with 32 files at most")
        it.left(servers, values, "with files enough")

sys.exit(PARTS.main(__doc__, FIRST_PORT))
