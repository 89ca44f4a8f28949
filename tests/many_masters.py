#!/usr/bin/env python3
"""Clusters of many masters: has a program move slots at clusters of more masters than a process of this repository can
be.

usage: tests/many_masters.py [--port FIRST] [--masters COUNT] PROGRAM [PART ..]

The clusters have COUNT masters (10 unless it is given, 9 to 120), real redis-servers that start on ports of 127.0.0.1
from FIRST on (18100 unless it is given) and are ended by their process ids. Without a PART all are tried, in this
order:

  joined       a master that joined is given its share: surveyed, planned, verified, and applied beside four clients, of
               whom every reply is compared
  killed       such a plan is killed in the middle, a master joins whose address stands before all others, and the plan
               is resumed: its nodes keep their numbers by their names
  renumbered   a plan that is older than a master is verified, drawn, explained and applied by the names of its nodes
  surveyed     plans of 33 masters, made, verified and explained by the file of a survey as at the cluster
  names        plans that name no masters of the cluster, and faults of the lines that name them
  few          plans of few nodes at many masters, and what a cluster of more than 255 masters is told
  in_one_go    once a slot's target and source were told, all others are told in one go: what fails among these, and a
               program that is killed meanwhile

redis-server and redis-cli are Debian's packages redis-server and redis-tools, and without them all is skipped. The last
line is 'N passed, M failed', a check each; the status is 1 where one failed."""

import pathlib
import re
import signal
import sys
import time

TESTS = pathlib.Path(__file__).resolve().parent
sys.dont_write_bytecode = True
sys.path[:0] = [str(TESTS / "redis_server"), str(TESTS / "hostile")]

from between import Between, Instead  # noqa: E402
from followers import Followers  # noqa: E402
from fronts import CLOSED, SILENT, Fronts  # noqa: E402
from hash_slots import SLOTS, even_split  # noqa: E402
from parts import Parts, plan_of, wait_until  # noqa: E402
from servers import keys_in  # noqa: E402

FIRST_PORT, MASTERS, SURVEYED = 18_100, 10, 33
FRONT = 1
SPARE_PORTS = 6
TIMEOUT = 20_000
NOTHING = "clean, nothing to resume"
PARTS = Parts("clusters of many masters")
part = PARTS.part


# ---- what each part uses


def cluster(it, empty=1, **more):
    """Masters of which the last ones are empty, on ports behind the spare ones."""
    owners = even_split(PARTS.given.masters)
    return it.servers(nodes=PARTS.given.masters + empty, owners=owners, first=SPARE_PORTS,
                      more=["--cluster-node-timeout", str(TIMEOUT)], **more)


def by_address(servers):
    """The nodes in the order of their addresses, which is that of their numbers in a survey."""
    return sorted(range(len(servers.ports)), key=lambda node: servers.ports[node])


def survey_lines(servers):
    """What a survey says of the nodes, by what the first server says of the slots."""
    owner = servers.owner()
    counts = [owner.count(node) for node in range(len(servers.ports))]
    return [f"n{number} {servers.address(node)} {servers.ids[node]} {counts[node]} slots"
            for number, node in enumerate(by_address(servers))]


def read_plan(text):
    """The header, the names of the nodes by their numbers, and the moves: slots, source and target."""
    header, *lines, _ = text.splitlines()
    names = {int(number): name for line in lines
             for number, name in re.findall(r"^node n(\d+) ([0-9a-f]{40})$", line)}
    moves = []
    for line in lines:
        if found := re.match(r"move (\d+)(?:-(\d+))? from n(\d+) to n(\d+) by ", line):
            first, last, source, target = found.groups()
            moves.append((range(int(first), int(last or first) + 1), int(source), int(target)))
    return header, names, moves


def numbers_in(moves):
    return {number for _, *ends in moves for number in ends}


def owners_after(servers, text):
    """The node that owns each slot once the plan is done, by the names in it."""
    _, names, moves = read_plan(text)
    owner = servers.owner()
    for slots, _, target in moves:
        for slot in slots:
            owner[slot] = servers.ids.index(names[target])
    return owner


def share_planned(it, servers, to, slots, what):
    """A plan that gives slots of all others to the node with this number, of which the form is checked."""
    ran = it.run("plan-reshard", "--cluster", servers.address(0), "--from", "all", "--to", f"n{to}", "--slots", slots,
                 "--batch", 100)
    header, names, moves = read_plan(ran.out) if ran.status == 0 else ("", {}, [])
    order = by_address(servers)
    wanted = {number: servers.ids[order[number]] for number in sorted(numbers_in(moves))}
    it.check(f"{what}: version 4", (ran.status, header) == (0, "reshard-plan 4"), ran)
    it.check(f"{what}: the nodes that it mentions are listed in order",
             list(names.items()) == list(wanted.items()) and names, ran)
    it.check(f"{what}: so many slots", sum(len(run) for run, _, _ in moves) == slots, ran)
    return ran.out


def has_moved(it, servers, wanted, what):
    it.check(f"{what}: all nodes agree", servers.agree())
    owner = servers.owner()
    wrong = [slot for slot in range(SLOTS) if owner[slot] != wanted[slot]]
    it.check(f"{what}: each slot is where the plan says", not wrong, wrong[:5])


def slots_of(text):
    return [slot for slots, _, _ in read_plan(text)[2] for slot in slots]


# ---- a master joins


@part
def joined(it):
    masters = PARTS.given.masters
    with cluster(it) as servers:
        ran = it.run("survey", "--cluster", servers.address(0))
        it.check("the survey", (ran.status, ran.out.splitlines()) == (0, [*survey_lines(servers), "clean"]), ran)
        plan = share_planned(it, servers, masters, SLOTS // (masters + 1), "the joiner's share")
        slots, wanted = slots_of(plan), owners_after(servers, plan)
        values = keys_in(slots, 10)
        servers.put(values)
        ran = it.run("verify", "--cluster", servers.address(1), plan=plan)
        it.check("verified", ran.status == 0 and re.match(r"verified \d+ commands\n", ran.out), ran)
        it.check("what it moves is told", f"{len(slots)} slots" in ran.out or f"{len(slots)} moves" in ran.out, ran)
        before = servers.moves()
        with Followers(servers.ports, [*slots[::4], *range(0, SLOTS, 1_000)]) as clients:
            time.sleep(0.3)
            running = it.start(["apply", "--cluster", servers.address(2)], plan)
            ran = running.end()
            right, followed, longest, wrong, held = clients.end()
        it.is_done(ran, servers, before, "beside four clients")
        it.check("every reply to a client is right", not wrong and right, f"{right} right, {wrong[:3]}")
        has_moved(it, servers, wanted, "beside four clients")
        it.left(servers, {**values, **held}, "beside four clients")
        ran = it.run("resume", "--cluster", servers.address(0))
        it.has_printed(ran, 0, NOTHING, "nothing is left")
        print(f"joined: {masters + 1} masters, {right} replies to clients, {followed} redirections, the longest wait "
              f"{longest * 1_000:.0f} ms; {running.peak // 1024} MiB")


@part
def killed(it):
    masters = PARTS.given.masters
    with cluster(it) as servers:
        plan = share_planned(it, servers, masters, 200, "a plan")
        slots, wanted = slots_of(plan), owners_after(servers, plan)
        values = keys_in(slots, 20)
        servers.put(values)
        path = it.folder / "plan-to-resume"
        path.write_text(plan)
        with Followers(servers.ports[:masters], slots[::4]) as clients:
            running = it.start(["apply", "--cluster", servers.address(0)], plan)
            began = wait_until(lambda: not running.is_running() or servers.nodes[masters].ask("DBSIZE")[1] > 2_000)
            ran = running.kill()
            it.check("the program was killed", began and ran.status == -signal.SIGKILL, ran)
            servers.join(it.port)
            it.check("a master has joined", servers.agree())
            ran = it.run("survey", "--cluster", servers.address(0))
            lines = ran.out.splitlines()
            it.check("it is n0", lines[0] == f"n0 127.0.0.1:{it.port} {servers.ids[masters + 1]} 0 slots", ran)
            for turn in range(3):
                ran = it.run("resume", "--cluster", servers.address(0), "--plan", path)
                if ran.out.splitlines()[-1:] == [NOTHING]:
                    break
                it.has_printed(ran, 0, r"done \d+ commands", f"resumed, run {turn + 1}")
                named = f"n{masters} {servers.address(masters)} {servers.ids[masters]}" in ran.err
                it.check(f"run {turn + 1}: the joiner has the plan's number", named, ran)
            it.check("resumed in two runs at most", turn <= 2 and ran.out.splitlines()[-1:] == [NOTHING], ran)
            right, _, _, wrong, held = clients.end()
        it.check("every reply to a client is right", not wrong and right, f"{right} right, {wrong[:3]}")
        has_moved(it, servers, wanted, "resumed")
        it.left(servers, {**values, **held}, "resumed")


@part
def renumbered(it):
    masters = PARTS.given.masters
    with cluster(it) as servers:
        old = share_planned(it, servers, masters, 40, "a plan")
        wanted = owners_after(servers, old)
        servers.join(it.port)
        it.check("a master has joined", servers.agree())
        at = ["--cluster", servers.address(0)]
        verdict = it.run("verify", *at, plan=old)
        it.check("verified by its names", verdict.status == 0, verdict)
        told = it.run("explain", *at, plan=old)
        it.check("explained by its names", told.status == 0 and told.out.startswith(verdict.out.splitlines()[0]), told)
        drawn = it.run("draw", *at, plan=old)
        it.check("drawn by its names", drawn.status == 0 and drawn.out.startswith("<svg"), drawn)
        new = share_planned(it, servers, masters + 1, 40, "a plan with the joiner")
        order = by_address(servers)
        same = [sorted((slots[0], servers.ids[order[target]]) for slots, _, target in read_plan(new)[2]),
                sorted((slots[0], servers.ids[masters]) for slots, _, _ in read_plan(old)[2])]
        it.check("both plans move the same slots to the same master", same[0] == same[1], same[0][:3])
        it.check("the numbers are others now", read_plan(new)[1] != read_plan(old)[1])
        ran = it.run("apply", *at, plan=old)
        it.has_printed(ran, 0, r"done \d+ commands", "applied by its names")
        has_moved(it, servers, wanted, "applied by its names")
        undone = it.run("apply", *at, plan=new)
        it.check("the other plan is no more legal", undone.status == 1 and "2 NotOwner" in undone.out, undone)


# ---- a survey in a file


@part
def surveyed(it):
    timeout = ["--cluster-node-timeout", str(TIMEOUT)]
    with it.servers(nodes=SURVEYED, owners=even_split(SURVEYED - 1), first=SPARE_PORTS, more=timeout) as servers:
        it.check("the servers agree", servers.agree())
        cluster, path = ["--cluster", servers.address(0)], it.folder / "survey"
        ran = it.run("survey", "--full", *cluster)
        it.check("a full survey", (ran.status, ran.out.splitlines()[-1]) == (0, "clean"), ran)
        path.write_text(ran.out)
        by_file, plan = ["--survey", path], ""
        for words in [["plan-drain", "--from", "n0"], ["plan-rebalance", "--use-empty"]]:
            plans = [it.run(*words, *start) for start in (by_file, cluster)]
            told, plan = plans[0], plans[1].out
            it.check(f"{words[0]} by the file", (told.status, told.out) == (0, plan), told)
        for words in [["verify"], ["explain"], ["draw"]]:
            told, wanted = (it.run(*words, *start, plan=plan).out for start in (by_file, cluster))
            same = told == wanted if words == ["draw"] else told.splitlines()[:1] == wanted.splitlines()[:1]
            it.check(f"{words[0]} by the file", told and same, told[-200:])
        first, second = servers.ids[:2]
        path.write_text(ran.out.replace(first, "x").replace(second, first).replace("x", second))
        told = it.run("verify", *by_file, plan=plan)
        it.check("the names of the plan count", told.status == 1 and "2 NotOwner" in told.out, told)


# ---- plans that are refused


@part
def names(it):
    masters = PARTS.given.masters
    with cluster(it, empty=2) as servers:
        replica = masters + 1
        servers.nodes[replica].ask("CLUSTER", "REPLICATE", servers.ids[0])
        wait_until(lambda: b"role:slave" in servers.nodes[replica].ask("INFO", "replication")[1])
        wait_until(lambda: all("slave" in servers.lines(node)[servers.ids[replica]].flags for node in servers.running))
        plan = share_planned(it, servers, masters, 2 * masters, "a plan")
        last, before = servers.ids[masters], servers.moves()
        unknown = "0" * 40
        for what, name, reason in [
            ("a name of nobody", unknown, f"n{masters} of the plan is {unknown}, which the cluster does not have"),
            ("the name of a replica", servers.ids[replica],
             f"n{masters} of the plan is {servers.ids[replica]}, which is no master"),
        ]:
            bad = plan.replace(last, name)
            for command in ("verify", "apply"):
                ran = it.run(command, "--cluster", servers.address(0), plan=bad)
                it.refused(servers, ran, f"{what}: {command}", re.escape(f"survey refused: {reason}"))
            path = it.folder / "bad-plan"
            path.write_text(bad)
            ran = it.run("resume", "--cluster", servers.address(0), "--plan", path)
            it.refused(servers, ran, f"{what}: resume", re.escape(f"survey refused: {reason}"))
        path.write_text(plan.replace("reshard-plan 4", "reshard-plan 5"))
        ran = it.run("resume", "--cluster", servers.address(0), "--plan", path)
        reason = "only a plan of version 4, which moves each slot once, can be continued"
        it.refused(servers, ran, "a plan that may move a slot again: resume", re.escape(f"refused: {reason}"))
        beyond = re.sub(rf"\bn{masters}\b", "n254", plan)
        ran = it.run("apply", "--cluster", servers.address(0), plan=beyond)
        text = f"n254 of the plan is beyond the {masters + 1} masters of the cluster: plan again"
        it.refused(servers, ran, "a number beyond the masters", re.escape(f"survey refused: {text}"))
        swapped = plan.replace(servers.ids[0], "x").replace(servers.ids[1], servers.ids[0]).replace("x", servers.ids[1])
        ran = it.run("apply", "--cluster", servers.address(0), plan=swapped)
        it.check("names in the place of others", ran.status == 1 and "2 NotOwner" in ran.out, ran)
        lines = plan.splitlines()
        for what, changed, number, fault in [
            ("a node that is not listed", [*lines[:1], *lines[2:]], masters + 2, "13 Unlisted"),
            ("a node listed twice", [*lines[:2], *lines[1:]], 3, "11 Order"),
            ("nodes out of order", [lines[0], lines[2], lines[1], *lines[3:]], 3, "11 Order"),
            ("a name twice", [*lines[:2], lines[2][:-40] + lines[1][-40:], *lines[3:]], 3, "12 SameName"),
            ("a name of 39 digits", [lines[0], lines[1][:-1], *lines[2:]], 2, "10 Name"),
            ("a name in upper case", [lines[0], lines[1][:-40] + "A" * 40, *lines[2:]], 2, "10 Name"),
            ("a zero before a number", [lines[0], lines[1].replace("node n0", "node n00"), *lines[2:]], 2, "4 Node"),
        ]:
            ran = it.run("verify", "--cluster", servers.address(0), plan="".join(f"{line}\n" for line in changed))
            it.has_printed(ran, 1, f"refused: line {number}: {fault}", what)
        it.check("nothing was moved", servers.moves() == before)


@part
def few(it):
    """A plan without names has the nodes n0 to n7, by the survey."""
    masters, front = PARTS.given.masters, it.port + FRONT
    view = Instead()
    with cluster(it) as servers, Between(front, servers.ports[0], view):
        at = ["--cluster", servers.address(0)]
        ran = it.run("apply", *at, plan=plan_of("move 0-4 from n0 to n7 by 10"))
        it.has_printed(ran, 0, r"done \d+ commands", "a plan of version 1")
        it.check("all nodes agree", servers.agree())
        it.check("it has moved", servers.owner()[:5] == [7] * 5, servers.owner()[:5])
        ran = it.run("verify", *at, plan=plan_of("move 0-4 from n7 to n8 by 10"))
        it.has_printed(ran, 1, "refused: line 2: 4 Node", "n8 in version 1")
        ran = it.run("verify", "--nodes", 3, plan=plan_of("move 0 from n0 to n1 by 10", version=4))
        it.has_printed(ran, 1, "refused: line 1: 1 Header", "version 4 at an even split")
        line = "%040x 127.0.0.1:%d@1 master - 0 0 1 connected\n"
        listed = "".join(line % (number, 7_000 + number) for number in range(256)).encode()
        view.tell(b"NODES", b"$%d\r\n%s\r\n" % (len(listed), listed))
        ran = it.run("survey", "--cluster", f"127.0.0.1:{front}")
        it.refused(servers, ran, "256 masters", "survey refused: more than 255 masters are listed")
        it.check("nodes of the cluster", len(servers.ids) == masters + 1)


# ---- other masters are told in one go

UNKNOWN, AGAIN = b"-ERR Unknown node 0\r\n", b"-TRYAGAIN said by the server\r\n"
REPLICA = b"-ERR Please use SETSLOT only with masters.\r\n"
GONE = "n{node} ended the connection, or gave no answer in time"
ODD = "n{node} answered something strange"
# What other masters answer, by their places among these; the place of the first that has not done it, and what is said
# of it.
FAULTS = [
    ("a refusal", {0: UNKNOWN}, 0, "ERR Unknown node 0"),
    ("another error", {-1: AGAIN}, -1, "TRYAGAIN said by the server"),
    ("a replica that was not emptied", {3: REPLICA}, 3, "ERR Please use SETSLOT only with masters."),
    ("a strange reply", {3: b":7\r\n"}, 3, ODD),
    ("no reply", {3: b"HTTP/1.1 400 Bad Request\r\n"}, 3, "n{node} answered something that is no reply"),
    ("a closed connection", {0: CLOSED}, 0, GONE),
    ("two that are at fault", {-1: UNKNOWN, 3: b":7\r\n"}, 3, ODD),
    ("two, and the other first", {3: UNKNOWN, -1: CLOSED}, 3, "ERR Unknown node 0"),
]
SILENCE = "three, of which two are silent", {0: SILENT, 3: AGAIN, -1: SILENT}, 0, GONE
LOGGED = {UNKNOWN: "ERR unknown node", CLOSED: "no reply", SILENT: "no reply"}
# A reply is waited for so much longer than a MIGRATE may take.
REPLY_SECONDS = 10


class Telling:
    """Masters that stand behind fronts, so that their numbers are those of their places, a source and a target among
    them, and slots of the source that have not moved yet."""

    def __init__(self, it, servers, fronts):
        self.it, self.servers, self.fronts = it, servers, fronts
        self.nodes = range(PARTS.given.masters)
        self.log, self.path, self.values = it.folder / "log", it.folder / "plan-to-resume", {}
        self.between(3, self.nodes[-1])

    def between(self, source, target):
        self.source, self.target = source, target
        self.others = [node for node in self.nodes if node not in (source, target)]
        self.left = iter([slot for slot, owner in enumerate(self.servers.owner()) if owner == source])

    def plan(self, version=4):
        """A plan that moves two slots, and the slots."""
        slots, ids = [next(self.left), next(self.left)], self.servers.ids
        names = [f"node n{node} {ids[node]}" for node in sorted([self.source, self.target])] if version == 4 else []
        move = f"move {slots[0]}-{slots[1]} from n{self.source} to n{self.target} by 10"
        text = plan_of(*names, move, version=version)
        self.path.write_text(text)
        return text, slots

    def put(self, slots):
        values = keys_in(slots, 5)
        self.servers.put(values)
        self.values |= values

    def words(self, *more):
        return ["apply", "--cluster", self.servers.address(0), "--log", self.log, "--overwrite", *more]

    def resume(self, *words):
        return self.it.run("resume", "--cluster", self.servers.address(0), *words)

    def resume_alone(self, last):
        """Without a plan, until it says this: stranded keys are not waited for. What it printed until then."""
        running = self.it.start(["resume", "--cluster", self.servers.address(0)])
        wait_until(lambda: re.search(last, running.out.read_text()) or not running.is_running())
        return running.kill()

    def lines(self):
        """The log without its times."""
        return [line.partition(" ")[2] for line in self.log.read_text().splitlines()] if self.log.exists() else []

    def tells(self, slot, node):
        return f"setslot {slot} node n{self.target} at n{node}"

    def group(self, slot, logged):
        """The lines by which all masters are told: others answer what is logged, or OK."""
        first = [line for node in (self.target, self.source) for line in (self.tells(slot, node), "OK")]
        return [*first, *(self.tells(slot, node) for node in self.others),
                *(logged.get(node, "OK") for node in self.others)]

    def are_told(self, slot, nodes, what):
        """These masters were told by their own word, each once, and know it."""
        told = sorted(asked.node for asked in self.fronts.of(slot) if asked.answer == b"+OK\r\n")
        self.it.check(f"{what}: who was told", told == sorted(nodes), told)
        target = self.servers.ids[self.target]
        unaware = [node for node in nodes if slot not in self.servers.lines(node)[target].slots]
        self.it.check(f"{what}: they know the owner", not unaware, unaware)

    def have_moved(self, slots, what):
        self.it.check(f"{what}: all nodes agree", self.servers.agree())
        owner = self.servers.owner()
        self.it.check(f"{what}: all slots have moved", all(owner[slot] == self.target for slot in slots), slots)


@part
def in_one_go(it):
    masters = PARTS.given.masters
    first = it.port + SPARE_PORTS
    with Fronts(first + masters + 2, first, masters) as fronts, cluster(it, 0, announced=fronts.ports) as servers:
        telling = Telling(it, servers, fronts)
        all_at_once(telling)
        for fault in FAULTS:
            stops_among_others(telling, *fault)
        servers_stand_still(telling)
        killed_among_others(telling)
        killed_before_others(telling)
        telling.between(4, 5)
        one_by_one(telling)
        it.left(servers, telling.values, "told in one go, and one by one")


def all_at_once(telling):
    """No other master answers before all of them were asked."""
    it, others = telling.it, telling.others
    plan, slots = telling.plan()
    telling.put(slots)
    telling.fronts.begin(held=others)
    it.applied(telling.servers, plan, "in one go", "--log", telling.log, "--overwrite")
    for slot in slots:
        are_asked_at_once(telling, slot, f"in one go, slot {slot}")
        telling.are_told(slot, telling.nodes, f"in one go, slot {slot}")
        lines, group = telling.lines(), telling.group(slot, {})
        start = lines.index(group[0]) if group[0] in lines else 0
        it.check(f"in one go, slot {slot}: the log", lines[start:start + len(group)] == group, lines[start:])
    telling.have_moved(slots, "in one go")


def are_asked_at_once(telling, slot, what, first=None):
    """The target and the source are asked one by one, unless others come first, and then all others, before one of
    these has answered."""
    asked = telling.fronts.of(slot)
    first = [telling.target, telling.source] if first is None else first
    alone, together = asked[:len(first)], asked[len(first):]
    nodes = [one.node for one in asked]
    telling.it.check(f"{what}: who is asked first, and who then",
                     (nodes[:len(first)], sorted(nodes[len(first):])) == (first, telling.others), nodes)
    came = [one.came for one in asked[:len(first) + 1]]
    after = [one.went is not None and one.went < other for one, other in zip(alone, came[1:])]
    telling.it.check(f"{what}: the next after the answer of each of these", after and all(after), after)
    went = [one.went for one in together if one.went is not None]
    last = max((one.came for one in together), default=0)
    telling.it.check(f"{what}: no answer before the last request", went and last <= min(went))


def one_by_one(telling):
    """A plan without names has each told after the one before has answered."""
    plan, slots = telling.plan(version=1)
    telling.put(slots)
    telling.fronts.begin()
    telling.it.applied(telling.servers, plan, "version 1", "--log", telling.log, "--overwrite")
    for slot in slots:
        asked = telling.fronts.of(slot)
        wanted = [telling.target, telling.source, *telling.others]
        telling.it.check(f"version 1, slot {slot}: the order", [one.node for one in asked] == wanted)
        after = [one.went < other.came for one, other in zip(asked, asked[1:])]
        telling.it.check(f"version 1, slot {slot}: one at a time", all(after), after)
    telling.have_moved(slots, "version 1")


def stops_among_others(telling, what, places, first, said, timeout=1_000):
    """Others that are at fault stop the plan once all were told; the next slot is not opened. How long that took."""
    it, fronts = telling.it, telling.fronts
    faults = {telling.others[place]: fault for place, fault in places.items()}
    plan, slots = telling.plan()
    fronts.begin(faults, held=telling.others)
    before, began = telling.servers.moves(), time.monotonic()
    ran = it.run(*telling.words("--timeout", timeout), plan=plan)
    took, sent = time.monotonic() - began, telling.servers.moves() - before
    right = len(telling.others) - len(faults)
    text = f"stopped at command {right + 6}: {said.format(node=telling.others[first])}"
    it.has_printed(ran, 1, re.escape(text), what)
    told = r"^no slot is open; continue with: reshard resume .* --plan FILE$"
    it.check(f"{what}: how to go on", re.search(told, ran.err, re.M), ran)
    logged = {node: LOGGED.get(fault, "no good answer") for node, fault in faults.items()}
    group, lines = telling.group(slots[0], logged), telling.lines()
    it.check(f"{what}: the log", lines[-len(group) - 1:] == [*group, text], lines)
    are_asked_at_once(telling, slots[0], what)
    telling.are_told(slots[0], [node for node in telling.nodes if node not in faults], what)
    it.check(f"{what}: nothing was sent after it", (sent, fronts.of(slots[1])) == (5 + right, []), sent)
    goes_on(telling, slots, what)
    return took


def goes_on(telling, slots, what):
    """Those that were not told have heard of the first slot from its new owner, so the second one is left."""
    telling.it.check(f"{what}: all nodes agree on it", telling.servers.agree())
    telling.fronts.begin(held=telling.others)
    ran = telling.resume("--plan", telling.path)
    telling.it.has_printed(ran, 0, f"done {3 + len(telling.nodes)} commands", f"{what}: resume")
    telling.it.check(f"{what}: the first slot is not told again", not telling.fronts.of(slots[0]))
    are_asked_at_once(telling, slots[1], f"{what}: resume")
    telling.it.has_printed(telling.resume("--plan", telling.path), 0, NOTHING, f"{what}: nothing is left")
    telling.have_moved(slots, f"{what}: resume")


def servers_stand_still(telling):
    """A silent master costs the others nothing, and two cost no more than one."""
    took = stops_among_others(telling, *SILENCE, timeout=1)
    telling.it.check("silent masters: the limit once", REPLY_SECONDS < took < 1.6 * REPLY_SECONDS, f"{took:.1f} s")


def killed_while(telling, held, faults, what):
    """Kills the program once these, whose answers are held back, and those at fault were asked."""
    plan, slots = telling.plan()
    telling.put(slots)
    telling.fronts.begin(faults, held=held, awaited=[None])
    running = telling.it.start(telling.words(), plan)
    asked = wait_until(lambda: telling.fronts.are_asked(slots[0], {*held, *faults}) or not running.is_running())
    ran = running.kill()
    telling.it.check(f"{what}: the program was killed", asked and ran.status == -signal.SIGKILL, ran)
    telling.fronts.begin()
    return slots


def killed_among_others(telling):
    """All others were asked, and one of them was not told, which hears of the slot from its new owner."""
    what = "killed among others"
    slots = killed_while(telling, telling.others, {telling.others[3]: SILENT}, what)
    telling.it.check(f"{what}: all nodes agree", telling.servers.agree())
    ran = telling.resume_alone(f"{NOTHING}\n")
    telling.it.check(f"{what}: no slot is open", ran.out.startswith(f"{NOTHING}\n"), ran)
    ran = telling.resume("--plan", telling.path)
    telling.it.has_printed(ran, 0, r"done \d+ commands", f"{what}: resume")
    telling.have_moved(slots, what)


def killed_before_others(telling):
    """The target alone was told: the source has its mark yet, and `resume` tells it, and then the others in one go."""
    what, others = "killed before others", telling.others
    slots = killed_while(telling, [telling.target], {}, what)
    telling.fronts.begin(held=others)
    ran = telling.resume_alone(r"done \d+ commands\n")
    telling.it.check(f"{what}: resume", f"done {1 + len(others)} commands\n" in ran.out, ran)
    telling.it.check(f"{what}: by a plan of version 5", "reshard-plan 5\n" in ran.err, ran)
    are_asked_at_once(telling, slots[0], what, first=[telling.source])
    telling.are_told(slots[0], [telling.source, *others], what)
    ran = telling.resume("--plan", telling.path)
    telling.it.has_printed(ran, 0, r"done \d+ commands", f"{what}: the rest")
    telling.it.has_printed(telling.resume("--plan", telling.path), 0, NOTHING, f"{what}: nothing is left")
    telling.have_moved(slots, what)


def options(reader):
    reader.add_argument("--masters", type=int, choices=range(9, 121), default=MASTERS, metavar="COUNT")


if __name__ == "__main__":
    sys.exit(PARTS.main(__doc__, FIRST_PORT, options, lambda given: 2 * max(given.masters, SURVEYED) + 2 + SPARE_PORTS))
