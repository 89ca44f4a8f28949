#!/usr/bin/env python3
"""Interruptions of real clusters: has plans at real redis-servers broken off in every way, and resumes them.

usage: tests/real_interruptions.py [--port FIRST] PROGRAM [PART ..]

Each part starts servers of its own, on ports of 127.0.0.1 from FIRST on (17640 unless it is given, and 22500 at most),
and ends them by their process ids. After each `resume` that went to its end no slot is open, every key lies at one
node, with its value, and `redis-cli --cluster check` says that all is well. Without a PART all are tried, in this
order:

  commands     the program is killed after each command of a plan of ten slots, once the server has done it and before
               the program hears of it
  resuming     the same while the program resumes such a plan
  moments      the program is killed at 50 random moments of plans of 1,000 slots with 100,000 keys, beside four
               clients, of whom every reply is compared
  nothing      there is nothing to resume
  refused      plans that are none, and clusters that have no survey
  stopped      the target stands still in a MIGRATE; meanwhile keys are written and deleted at the source
  lost         the program is stopped while a MIGRATE is under way at a target that stands still
  large        a list of 1,000,000 elements, which takes longer than a MIGRATE may
  strangers    a client that asks unasked has written at the target
  failover     a replica takes the place of the source in mid-move
  restarts     the source and the target are killed in mid-move, and start again with their data
  millions     the program is killed while it moves a slot of 2,200,000 keys; some minutes, and only by its name

A key that a client deleted at the source after a MIGRATE had failed may come back with its old value: the servers can't
tell it from one that has moved. That is counted, and is no fault. redis-server and redis-cli are Debian's packages
redis-server and redis-tools, and without them all is skipped. The last line is 'N passed, M failed', a check each; the
status is 1 where one failed."""

import contextlib
import pathlib
import random
import re
import signal
import sys
import threading
import time

TESTS = pathlib.Path(__file__).resolve().parent
sys.dont_write_bytecode = True
sys.path[:0] = [str(TESTS / "redis_server"), str(TESTS / "hostile")]

from between import Between  # noqa: E402
from connection import Connection  # noqa: E402
from followers import Followers  # noqa: E402
from parts import Parts, plan_of, wait_until  # noqa: E402
from servers import Servers, keys_in, tags  # noqa: E402

FIRST_PORT = 17640
FRONT = 6
SEED = 1
NOTHING = "clean, nothing to resume"
TOO_LATE = re.compile(r"stopped at command \d+: IOERR error or timeout \w+ (to|from) target instance")
ELEMENTS = 1_000_000
AT_A_TIME = 10_000
MILLIONS = 2_200_000
MOST_IN_AN_ARRAY = 2_097_152
FILL = "for number = ARGV[1], ARGV[2] do redis.call('SET', KEYS[1] .. number, 'value ' .. number) end"
PARTS = Parts("interruptions of real clusters")
part = PARTS.part


# ---- what each part uses


def resume(it, servers, *words, plan=None, **more):
    """Runs `resume`, with a plan in a file where there is one."""
    if plan is not None:
        path = it.folder / "plan-to-resume"
        path.write_text(plan)
        words = [*words, "--plan", path]
    return it.run("resume", "--cluster", servers.address(0), *words, **more)


def marks(servers):
    """The slots that have a mark at some node."""
    return {mark[0] for node in servers.masters() for line in servers.lines(node).values() for mark in line.marks}


def is_clean(it, servers, what):
    """No node has a mark, and the program's survey says so too."""
    it.check(f"{what}: no mark is left", not marks(servers), marks(servers))
    ran = it.run("survey", "--cluster", servers.address(0))
    it.check(f"{what}: the survey is clean", ran.status == 0 and ran.out.endswith("\nclean\n"), ran)


def is_resumed(it, servers, ran, what, is_open=True, opened=()):
    """It went to its end, told the rest of each slot that was open, and no slot is."""
    last = r"done \d+ commands" if is_open else NOTHING
    it.has_printed(ran, 0, last, what)
    untold = [slot for slot in opened if not re.search(rf"\b{slot}\b", ran.err)]
    it.check(f"{what}: the rest of each open slot is told", not untold, f"{untold}, {ran}")
    is_clean(it, servers, what)


def have_moved(it, servers, slots, node, what):
    owner = servers.owner()
    wrong = [slot for slot in slots if owner[slot] != node]
    it.check(f"{what}: all slots have moved", not wrong, wrong[:5])


def resumed_whole(it, servers, plan, what, opened=()):
    """Resumes with the plan until nothing is left of it. A slot that was only announced may be withdrawn by the first
    run, and moved by the second. How many runs did something."""
    runs = 0
    while runs < 3:
        ran = resume(it, servers, plan=plan)
        if ran.out.splitlines()[-1:] == [NOTHING]:
            break
        runs += 1
        is_resumed(it, servers, ran, what, opened=opened if runs == 1 else ())
    it.check(f"{what}: resumed in two runs at most", runs <= 2, runs)
    return runs


class Assassin:
    """Stands before all servers, and kills a process once a server has answered the command with a number that moves
    slots, before that answer is passed on. Numbers count from 1, and what a source sends to a target has none."""

    def __init__(self, it, stack, nodes=3):
        self.lock, self.number, self.count, self.process = threading.Lock(), 0, 0, None
        self.fronts = {node: it.port + FRONT + node for node in range(nodes)}
        for node, front in self.fronts.items():
            stack.enter_context(Between(front, it.port + node, self.change))

    def begin(self, number):
        self.number, self.count, self.process = number, 0, None

    def change(self, data, is_answer, link):
        if not is_answer:
            link["moves"] = re.match(rb"\*.{,40}\r\n(SETSLOT|GETKEYSINSLOT|MIGRATE)\r\n", data, re.DOTALL)
        elif link.pop("moves", None):
            with self.lock:
                self.count += 1
                is_due = self.count == self.number
            if is_due:
                self.kill()
        return data

    def kill(self):
        wait_until(lambda: self.process is not None)
        self.process.kill()
        self.process.wait()


# ---- the program is killed


def killed_after(it, servers, assassin, number, words, plan=""):
    """Runs the program, and kills it after a command. Whether it was killed, or else ended before."""
    assassin.begin(number)
    running = it.start([*words, "--cluster", servers.address(0)], plan)
    assassin.process = running.process
    return running.end().status == -signal.SIGKILL


def in_tens(number):
    return range(10 * number, 10 * number + 10)


def plan_in_tens(number):
    slots = in_tens(number)
    return plan_of(f"move {slots[0]}-{slots[-1]} from n0 to n1 by 2")


@part
def commands(it):
    """Each command is the last one in turn, of a plan of ten slots of its own."""
    each, cost = 3, 100
    with contextlib.ExitStack() as stack:
        assassin = Assassin(it, stack)
        servers = stack.enter_context(it.servers(announced=assassin.fronts))
        values = keys_in(range(10 * cost), each)
        servers.put(values)
        clients = stack.enter_context(Followers(servers.ports, range(0, 10 * cost, 40), count=1))
        twice = 0
        for number in range(1, cost + 1):
            what, plan = f"killed after command {number}", plan_in_tens(number - 1)
            was_killed = killed_after(it, servers, assassin, number, ["apply"], plan)
            it.check(f"{what}: the program was killed", was_killed)
            opened = marks(servers)
            it.check(f"{what}: one slot at most is open", len(opened) <= 1, opened)
            assassin.begin(0)
            runs = resumed_whole(it, servers, plan, what, opened)
            twice += runs > 1
            have_moved(it, servers, in_tens(number - 1), 1, what)
            it.check(f"{what}: redis-cli says that all is well", servers.is_checked())
        right, _, _, wrong, held = clients.end()
        it.check("every reply to a client is right", not wrong and right, f"{right} right, {wrong[:3]}")
        it.left(servers, {**values, **held}, "killed after each command")
        print(f"commands: {right} replies to clients; {twice} of {cost} plans were resumed twice")


@part
def resuming(it):
    """A plan that was killed in the middle of a slot is resumed, and that is killed after each command in turn."""
    each, cost = 5, 24
    with contextlib.ExitStack() as stack:
        assassin = Assassin(it, stack)
        servers = stack.enter_context(it.servers(announced=assassin.fronts))
        values = keys_in(range(10 * cost), each)
        servers.put(values)
        for number in range(1, cost + 1):
            what, plan = f"resume killed after command {number}", plan_in_tens(number - 1)
            it.check(f"{what}: the plan was killed", killed_after(it, servers, assassin, 4, ["apply"], plan))
            path = it.folder / "plan-to-resume"
            path.write_text(plan)
            was_killed = killed_after(it, servers, assassin, number, ["resume", "--plan", path])
            it.check(f"{what}: the program was killed", was_killed)
            assassin.begin(0)
            resumed_whole(it, servers, plan, what)
            have_moved(it, servers, in_tens(number - 1), 1, what)
        it.left(servers, values, "resumes that were killed")


@part
def moments(it):
    """Fifty kills, ten of them on each way of the slots. Each time the rest of the plan is what is killed next."""
    slots, each, ways, kills = range(1_000), 100, 5, 10
    chance = random.Random(SEED)
    with it.servers_with(slots, each) as (servers, values):
        opened = right = 0
        for way in range(ways):
            source, target = way % 2, 1 - way % 2
            plan = plan_of(f"move 0-999 from n{source} to n{target} by 10")
            (it.folder / "whole-plan").write_text(plan)
            with Followers(servers.ports, slots[way::40]) as clients:
                for kill in range(kills):
                    what = f"kill {kill + 1} of way {way + 1}"
                    words = ["resume", "--plan", it.folder / "whole-plan"] if kill else ["apply"]
                    opened += killed_by_chance(it, servers, chance, words, plan, source, what)
                resumed_whole(it, servers, plan, f"way {way + 1}")
                served, _, _, wrong, held = clients.end()
            right += served
            it.check(f"way {way + 1}: every reply to a client is right", not wrong and served, wrong[:3])
            have_moved(it, servers, slots, target, f"way {way + 1}")
            it.left(servers, {**values, **held}, f"way {way + 1}")
            servers.delete(held)
            time.sleep(3)
        print(f"moments: {right} replies to clients; {opened} of {ways * kills} kills left a slot open")


def killed_by_chance(it, servers, chance, words, plan, source, what):
    """Kills the plan, or what is left of it, once some more keys have moved, and closes what is open. Whether a slot
    was."""
    keys = servers.nodes[1 - source].ask("DBSIZE")[1]
    wanted = keys + chance.randrange(1, 8_000)
    running = it.start([*words, "--cluster", servers.address(0)], plan)
    wait_until(lambda: not running.is_running() or servers.nodes[1 - source].ask("DBSIZE")[1] >= wanted)
    time.sleep(chance.random() / 50)
    ran = running.kill()
    it.check(f"{what}: the program was killed", ran.status == -signal.SIGKILL, ran)
    opened = marks(servers)
    it.check(f"{what}: one slot at most is open", len(opened) <= 1, opened)
    ran = resume(it, servers)
    is_resumed(it, servers, ran, what, bool(opened) or NOTHING not in ran.out, opened)
    it.check(f"{what}: redis-cli says that all is well", servers.is_checked())
    return bool(opened)


# ---- there is nothing to resume


@part
def nothing(it):
    with it.servers_with(range(5), 3) as (servers, values):
        before = servers.moves()
        is_resumed(it, servers, resume(it, servers), "a clean cluster", is_open=False)
        done = plan_of("move 5461-5470 from n0 to n1 by 10")
        is_resumed(it, servers, resume(it, servers, plan=done), "a plan that is done", is_open=False)
        it.check("nothing was moved", servers.moves() == before)
        plan = plan_of("move 0-4 from n0 to n1 by 10")
        is_resumed(it, servers, resume(it, servers, plan=plan), "a plan that was never begun")
        have_moved(it, servers, range(5), 1, "a plan that was never begun")
        before = servers.moves()
        is_resumed(it, servers, resume(it, servers, plan=plan), "the same again", is_open=False)
        it.check("nothing was moved again", servers.moves() == before)
        it.left(servers, values, "nothing to resume")


@part
def refused(it):
    with it.servers_with(range(5), 3) as (servers, values):
        before = servers.moves()
        for what, plan in [("no plan", "and so on\n"), ("no end", "reshard-plan 1\nmove 1 from n0 to n1 by 10\n"),
                           ("a node that is none", plan_of("move 1 from n0 to n7 by 10"))]:
            ran = resume(it, servers, plan=plan)
            it.check(f"{what}: refused", ran.status == 1 and "done" not in ran.out, ran)
        ran = resume(it, servers, "--plan", it.folder / "no-such-file")
        it.check("no such file: refused", ran.status == 1 and "done" not in ran.out, ran)
        ran = it.run("resume", "--cluster", f"127.0.0.1:{it.port + FRONT}")
        it.refused(servers, ran, "nobody listens")
        names = it.folder / "names"
        surveyed = it.run("survey", "--cluster", servers.address(0)).out
        names.write_text(surveyed.replace(servers.ids[2], servers.ids[2][:-1] + "01"[servers.ids[2][-1] == "0"]))
        ran = resume(it, servers, "--expect", names)
        it.refused(servers, ran, "another node", "survey refused: n2 is not the node that --expect names so")
        it.check("nothing was moved", servers.moves() == before)
        it.left(servers, values, "plans that are none")


# ---- a MIGRATE fails


def keys_at(servers, node, slot):
    return {key for _, key in servers.nodes[node].ask("CLUSTER", "GETKEYSINSLOT", slot, 10_000)[1]}


def with_those_that_came_back(servers, values, deleted):
    """The values, with those keys that were deleted and have come back, and how many these are."""
    back = [key for key in deleted if servers.at_owners([[b"EXISTS", key]]) == [[(":", 1)]]]
    return {key: value for key, value in values.items() if key not in deleted or key in back}, len(back)


def slowly(it, servers, slots, *words):
    """A plan that moves ten keys at a time, and then waits for half a second, once it is in the middle of the second
    slot, of which it has moved the first ten keys of thirty."""
    plan = plan_of(f"move {slots[0]}-{slots[-1]} from n0 to n1 by 10")
    running = it.start(["apply", "--cluster", servers.address(0), "--keys-per-second", 20, *words], plan)
    began = wait_until(lambda: not running.is_running() or keys_at(servers, 1, slots[1]))
    it.check("a plan has begun", began and running.is_running(), running.out.read_text())
    return running, plan


def at_a_still_target(it, servers, slots, timeout):
    """Such a plan, whose target then stands still."""
    running, plan = slowly(it, servers, slots, "--timeout", timeout)
    target = servers.running[1]
    target.send_signal(signal.SIGSTOP)
    return running, plan, target


@part
def stopped(it):
    """The keys of the batch that failed are at the source, and come late at the target."""
    slots = range(4)
    with it.servers_with(slots, 30) as (servers, values):
        running, plan, target = at_a_still_target(it, servers, slots, 300)
        try:
            ran = running.end()
            told = r"stopped at command \d+: (IOERR .*|n\d ended .* in time)"
            it.has_printed(ran, 1, told, "the target stands still")
            slot = slots[1]
            going = [mark[0] for line in servers.lines(0).values() for mark in line.marks]
            it.check("the second slot is open at the source", going == [slot], going)
            held = sorted(keys_at(servers, 0, slot))
            it.check("keys are left at the source", held)
            written, deleted = held[::2], held[1::4]
            for key in written:
                values[key] = b"written meanwhile to %s" % key
                it.check("a write at the source", servers.nodes[0].ask("SET", key, values[key]) == ("+", b"OK"))
            for key in deleted:
                it.check("a key is deleted at the source", servers.nodes[0].ask("DEL", key) == (":", 1))
        finally:
            target.send_signal(signal.SIGCONT)
        ran = resume(it, servers)
        is_resumed(it, servers, ran, "the target goes on")
        have_moved(it, servers, [slot], 1, "the target goes on")
        wanted, back = with_those_that_came_back(servers, values, deleted)
        it.left(servers, wanted, "the target goes on")
        resumed_whole(it, servers, plan, "the rest")
        have_moved(it, servers, slots, 1, "the rest")
        it.left(servers, wanted, "the rest")
        print(f"stopped: {len(written)} keys were written and {len(deleted)} deleted, of which {back} came back")


@part
def lost(it):
    """The program is killed while a MIGRATE waits for its target, and resumes as soon as that goes on."""
    slots = range(4)
    with it.servers_with(slots, 30) as (servers, values):
        running, plan, target = at_a_still_target(it, servers, slots, 20_000)
        time.sleep(1)
        running.kill()
        target.send_signal(signal.SIGCONT)
        ran = resume(it, servers)
        is_resumed(it, servers, ran, "killed in a MIGRATE", is_open=NOTHING not in ran.out)
        it.left(servers, values, "killed in a MIGRATE")
        resumed_whole(it, servers, plan, "the rest")
        have_moved(it, servers, slots, 1, "the rest")
        it.left(servers, values, "the rest")


@part
def large(it):
    """One key takes longer than a MIGRATE waits; then it and those behind it in the batch are at both nodes."""
    with it.servers_with([7], 4) as (servers, values):
        key = b"{%s}large" % tags()[7]
        elements = [b"%d" % number for number in range(ELEMENTS)]
        for first in range(0, ELEMENTS, AT_A_TIME):
            servers.nodes[0].ask("RPUSH", key, *elements[first:first + AT_A_TIME])
        plan = plan_of("move 5-9 from n0 to n1 by 10")
        ran = it.run("apply", "--cluster", servers.address(0), "--timeout", 2, plan=plan)
        it.check("a large key: the MIGRATE that took too long is told", TOO_LATE.search(ran.out + ran.err), ran)
        if ran.status == 0:
            # The target was done by the time that the slot was settled, so that the plan went on by itself.
            print("large: the plan went on by itself")
            is_resumed(it, servers, ran, "a large key")
        else:
            it.has_printed(ran, 1, TOO_LATE.pattern, "a large key")
            wait_until(lambda: servers.nodes[1].ask("CLUSTER", "COUNTKEYSINSLOT", 7)[1] == 5, 10)
            both = keys_at(servers, 0, 7) & keys_at(servers, 1, 7)
            print(f"large: {len(both)} of 5 keys were at both nodes")
            ran = resume(it, servers, plan=plan)
            is_resumed(it, servers, ran, "a large key")
        have_moved(it, servers, range(5, 10), 1, "a large key")
        kept = servers.nodes[1].ask("LRANGE", key, 0, -1)[1]
        it.check("the list is whole", kept == [("$", text) for text in elements], len(kept))
        servers.delete([key])
        it.left(servers, values, "a large key")


@part
def strangers(it):
    """What a stranger wrote at the target is not what the source has served all the time."""
    slot, each = 3, 60
    with it.servers_with([slot], each) as (servers, values):
        # Servers list the newest keys first, so the first one is the last to move.
        key = next(iter(values))
        plan = plan_of(f"move {slot} from n0 to n1 by 10")
        running = it.start(["apply", "--cluster", servers.address(0), "--keys-per-second", 50], plan)
        stranger = servers.connected(1)

        def writes():
            stranger.ask("ASKING")
            return stranger.ask("SET", key, "a stranger's") == ("+", b"OK")

        it.check("a stranger has written at the target", wait_until(writes))
        it.check("the source has its own", servers.nodes[0].ask("GET", key) == ("$", values[key]))
        ran = running.end()
        busy = r"ERR Target instance replied with error: BUSYKEY Target key name already exists\."
        it.has_printed(ran, 1, rf"stopped at command \d+: {busy}", "a stranger")
        values[key] = b"written after that"
        it.check("a write at the source", servers.nodes[0].ask("SET", key, values[key]) == ("+", b"OK"))
        is_resumed(it, servers, resume(it, servers), "a stranger")
        have_moved(it, servers, [slot], 1, "a stranger")
        it.left(servers, values, "a stranger")


# ---- servers fail


@part
def failover(it):
    """The new master has no mark of the slot, so its keys at the target are not to be seen; and the target knows no
    owner of it, and takes the cluster to be down. Both is set right by hand."""
    slots = range(4)
    with it.servers() as servers:
        replica = Servers(it.folder, it.port + 3, nodes=1)
        replica.start(0)
        try:
            own = Connection(it.port + 3)
            becomes_replica(servers, own, it.port + 3)
            values = keys_in(slots, 30)
            servers.put(values)
            servers.nodes[0].ask("WAIT", 1, 10_000)
            running, _ = slowly(it, servers, slots)
            wait_until(lambda: own.ask("CLUSTER", "FAILOVER") == ("+", b"OK"))
            ran = running.end()
            it.has_printed(ran, 1, r"stopped at command \d+: .+", "a failover of the source")
            took_over = wait_until(lambda: b"role:master" in own.ask("INFO", "replication")[1])
            it.check("the replica is the master", took_over)
            taken_on_by_hand(it, servers, own, values)
        finally:
            replica.kill(0)


def becomes_replica(servers, own, port):
    servers.nodes[0].ask("CLUSTER", "MEET", "127.0.0.1", port)
    wait_until(lambda: own.ask("CLUSTER", "REPLICATE", servers.ids[0]) == ("+", b"OK"))
    wait_until(lambda: b"master_link_status:up" in own.ask("INFO", "replication")[1])
    wait_until(lambda: all(any("slave" in line.flags for line in servers.lines(node).values()) for node in range(3)))


def taken_on_by_hand(it, servers, own, values):
    """The new master takes the old one's place among the nodes, and gets the mark that it lacks."""
    old, new = servers.ids[0], own.ask("CLUSTER", "MYID")[1].decode()
    coming = {mark[0] for line in servers.lines(1).values() for mark in line.marks}
    it.check("a slot is open at the target", len(coming) == 1, coming)
    addresses = ["--cluster", servers.address(1)]

    def is_known():
        """By each node, which may take some seconds: the new master, and that the old one is a replica."""
        texts = [connection.ask("CLUSTER", "NODES")[1].decode() for connection in [*servers.nodes, own]]
        return all(re.search(f"{new} .*master", text) and re.search(f"{old} .*slave", text) for text in texts)

    it.check("all know the new master", wait_until(is_known))
    ran = it.run("resume", *addresses)
    it.check("that is not resumed", ran.status == 1 and "done" not in ran.out, ran)
    for slot in coming:
        for connection, *words in [(servers.nodes[1], "NODE", new), (own, "MIGRATING", servers.ids[1]),
                                   (servers.nodes[1], "IMPORTING", new)]:
            reply = connection.ask("CLUSTER", "SETSLOT", slot, *words)
            it.check(f"{words[0]} is set by hand", reply == ("+", b"OK"), reply)
    ran = it.run("resume", *addresses)
    it.has_printed(ran, 0, r"done \d+ commands", "once both marks are set")
    servers.nodes[0], servers.ids[0] = own, new
    is_clean_at(it, addresses, "once both marks are set")
    have_moved(it, servers, coming, 1, "once both marks are set")
    it.left(servers, values, "once both marks are set")
    it.check("the old master is a replica", old != new)


def is_clean_at(it, addresses, what):
    ran = it.run("survey", *addresses)
    it.check(f"{what}: the survey is clean", ran.status == 0 and ran.out.endswith("\nclean\n"), ran)


@part
def restarts(it):
    """Marks are kept in a server's own file, and keys in its log."""
    slots, kept = range(4), ["--appendonly", "yes", "--appendfsync", "always"]
    for node, who in enumerate(["the source", "the target"]):
        with it.servers_with(slots, 30, more=kept) as (servers, values):
            running, plan = slowly(it, servers, slots, "--timeout", 1_000)
            servers.kill(node)
            ran = running.end()
            it.has_printed(ran, 1, r"stopped at command \d+: .+", f"{who} is killed")
            servers.restart(node)
            it.check(f"{who}: the servers agree again", servers.agree())
            runs = resumed_whole(it, servers, plan, f"{who} was killed")
            it.check(f"{who}: something was left", runs >= 1)
            have_moved(it, servers, slots, 1, f"{who} was killed")
            it.left(servers, values, f"{who} was killed")


@PARTS.part_by_name
def millions(it):
    """The source holds more keys than an array of replies may have, and the target an old copy of one of them."""
    slot, what = 11, "millions of keys"
    with it.servers() as servers:
        source, target = servers.nodes[:2]
        tag = b"{%s}" % tags()[slot]
        for first in range(0, MILLIONS, AT_A_TIME):
            source.ask("EVAL", FILL, 1, tag, first, first + AT_A_TIME - 1)
        plan = plan_of(f"move {slot} from n0 to n1 by 1000")
        running = it.start(["apply", "--cluster", servers.address(0)], plan)
        wait_until(lambda: count_at(target, slot) > AT_A_TIME)
        running.kill()
        # The oldest key is the last to move.
        target.ask("ASKING")
        target.ask("SET", tag + b"0", "an old value")
        it.check(f"{what}: the source has more than an array", count_at(source, slot) > MOST_IN_AN_ARRAY)
        began = time.monotonic()
        running = it.start(["resume", "--cluster", servers.address(0), "--by", 1_000])
        ran = running.end()
        print(f"{what}: resumed in {time.monotonic() - began:.1f} s, and the program had {running.peak} kB at most")
        is_resumed(it, servers, ran, what)
        it.check(f"{what}: one key was at both nodes", ", 1 keys were at n0 and n1, " in ran.err, ran)
        it.check(f"{what}: all are at the target", (count_at(source, slot), count_at(target, slot)) == (0, MILLIONS))
        for number in range(0, MILLIONS, AT_A_TIME):
            reply = target.ask("GET", tag + b"%d" % number)
            it.check(f"{what}: key {number} has its value", reply == ("$", b"value %d" % number), reply)


def count_at(node, slot):
    """How many keys of the slot the node holds."""
    return node.ask("CLUSTER", "COUNTKEYSINSLOT", slot)[1]


sys.exit(PARTS.main(__doc__, FIRST_PORT))
