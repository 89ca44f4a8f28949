"""A cluster of redis-servers for a test, and the keys that lie in it."""

import binascii
import collections
import functools
import pathlib
import re
import subprocess
import tempfile
import time

import store
from connection import SECONDS, Connection, started
from hash_slots import SLOTS, even_split, runs

AT_A_TIME = 1_000
BUS = 10_000
# What is asked to read a value of each kind.
READS = {bytes: [b"GET"], dict: [b"HGETALL"], list: [b"LRANGE", b"0", b"-1"], store.Members: [b"SMEMBERS"]}

# A line of CLUSTER NODES: the slots are numbers, and a mark is (slot, "->-" or "-<-", ID).
Line = collections.namedtuple("Line", "id address flags epoch link slots marks")


@functools.cache
def tags():
    """For each slot a hash tag that lies in it."""
    found, number = {}, 0
    while len(found) < SLOTS:
        tag = b"%d" % number
        found.setdefault(binascii.crc_hqx(tag, 0) % SLOTS, tag)
        number += 1
    return [found[slot] for slot in range(SLOTS)]


def slot_at(key):
    """The slot of a key with a hash tag, by the C library's CRC16."""
    return binascii.crc_hqx(key[key.index(b"{") + 1:key.index(b"}")], 0) % SLOTS


def keys_in(slots, each):
    """So many keys in each of the slots, with a value that tells them apart."""
    keys = [b"{%s}secret:%d" % (tags()[slot], number) for slot in slots for number in range(each)]
    return {key: b"value of %s" % key for key in keys}


def line_of(text):
    words = text.split(" ")
    slots, marks = [], []
    for word in words[8:]:
        if word.startswith("["):
            slot, way, other = re.fullmatch(r"\[(\d+)(->-|-<-)([0-9a-f]{40})\]", word).groups()
            marks.append((int(slot), way, other))
        elif word:
            first, _, last = word.partition("-")
            slots += range(int(first), int(last or first) + 1)
    return Line(words[0], words[1], words[2].split(","), int(words[6]), words[7], slots, marks)


class Servers:
    """Servers of one cluster, on ports that follow each other. `owners` says which node owns each slot, `more` are
    words for each server's command line, and `announced` and `buses` have other ports under which nodes tell of
    themselves, for clients and for each other. Each server has a folder of its own."""

    def __init__(self, folder, port, nodes=3, owners=None, more=(), password=None, announced=(), buses=()):
        self.folder, self.more, self.password = pathlib.Path(tempfile.mkdtemp(dir=folder)), list(more), password
        self.ports = [port + node for node in range(nodes)]
        self.announced, self.buses = dict(announced), dict(buses)
        self.owners = even_split(nodes) if owners is None else owners
        self.running = {}
        self.nodes = []

    def __enter__(self):
        try:
            for node in range(len(self.ports)):
                self.start(node)
            self.nodes = [self.connected(node) for node in range(len(self.ports))]
            self.meet()
        except BaseException:
            self.__exit__()
            raise
        return self

    def __exit__(self, *_):
        for node in list(self.running):
            self.kill(node)

    def start(self, node):
        folder = self.folder / str(self.ports[node])
        folder.mkdir(exist_ok=True)
        words = list(self.more)
        if self.password:
            words += ["--requirepass", self.password, "--masterauth", self.password]
        if node in self.announced:
            words += ["--cluster-announce-port", str(self.announced[node])]
        if node in self.buses:
            words += ["--cluster-announce-bus-port", str(self.buses[node])]
        self.running[node] = started(self.ports[node], folder, *words)

    def kill(self, node):
        """Ends the server at once, also one that stands still."""
        server = self.running.pop(node)
        server.kill()
        server.wait()

    def connected(self, node, password=None, user="default"):
        connection = Connection(self.ports[node])
        if password or self.password:
            connection.ask("AUTH", user, password or self.password)
        return connection

    def restart(self, node):
        """Starts the server again, and waits until it has read what it kept."""
        self.start(node)
        self.nodes[node] = self.connected(node)
        while self.nodes[node].ask("PING") != ("+", b"PONG"):
            time.sleep(0.05)

    def meet(self):
        """Each node is told of each, since many take long to hear of one another by one of them alone."""
        for node, connection in enumerate(self.nodes):
            connection.ask("CLUSTER", "SET-CONFIG-EPOCH", node + 1)
            own = runs(slot for slot in range(SLOTS) if self.owners[slot] == node)
            if own:
                connection.ask("CLUSTER", "ADDSLOTSRANGE", *(slot for pair in own for slot in pair))
        for node in range(len(self.nodes)):
            for other in range(node + 1):
                self.nodes[other].ask("CLUSTER", "MEET", *self.place(node))
        self.ids = [connection.ask("CLUSTER", "MYID")[1].decode() for connection in self.nodes]
        if not self.agree(2 * len(self.nodes) + SECONDS):
            raise SystemExit("the redis-servers do not make a cluster")

    def place(self, node):
        """The words by which the node is met."""
        return "127.0.0.1", self.ports[node], self.buses.get(node, self.ports[node] + BUS)

    def join(self, port):
        """One master more, without slots, at a port of its own."""
        node = len(self.ports)
        self.ports.append(port)
        self.start(node)
        self.nodes.append(self.connected(node))
        self.nodes[node].ask("CLUSTER", "SET-CONFIG-EPOCH", node + 1)
        for other in range(node):
            self.nodes[other].ask("CLUSTER", "MEET", *self.place(node))
        self.ids.append(self.nodes[node].ask("CLUSTER", "MYID")[1].decode())

    def address(self, node):
        return f"127.0.0.1:{self.announced.get(node, self.ports[node])}"

    def lines(self, node):
        """What CLUSTER NODES says at the node, by ID."""
        text = self.nodes[node].ask("CLUSTER", "NODES")[1].decode()
        return {line.id: line for line in map(line_of, text.splitlines())}

    def views(self):
        """What each node says of all: the slots and the epoch of each, and whether all is well."""
        found = []
        for node in self.running:
            lines = self.lines(node)
            is_well = b"cluster_state:ok" in self.nodes[node].ask("CLUSTER", "INFO")[1]
            found.append((is_well, sorted((line.id, line.epoch, line.slots) for line in lines.values())))
        return found

    def agree(self, seconds=SECONDS):
        """Waits until all nodes know each other, say the same of all slots and epochs, and serve. Whether they do."""
        until = time.monotonic() + seconds
        while time.monotonic() < until:
            views = self.views()
            if all(view == views[0] and view[0] and len(view[1]) == len(self.ids) for view in views):
                return True
            time.sleep(0.05)
        return False

    def is_checked(self):
        """Whether redis-cli says that all is well, as soon as the nodes agree."""
        words = ["--cluster", "check", f"127.0.0.1:{self.ports[next(iter(self.running))]}"]
        until = time.monotonic() + SECONDS
        while time.monotonic() < until:
            ran = self.client(*words)
            if ran.returncode == 0 and "[OK] All 16384 slots covered." in ran.stdout and "[ERR]" not in ran.stdout:
                return "[OK] All nodes agree about slots configuration." in ran.stdout
            time.sleep(0.1)
        return False

    def fix(self):
        """Has redis-cli end the slots that are on their way, one way or the other."""
        self.agree(5)
        return self.client("--cluster", "fix", f"127.0.0.1:{self.ports[0]}", "--cluster-yes").returncode == 0

    def client(self, *words):
        if self.password:
            words = ["-a", self.password, "--no-auth-warning", *words]
        return subprocess.run(["redis-cli", *words], capture_output=True, text=True, timeout=SECONDS)

    def calls(self, node, *names):
        """How many commands of these names the node has executed."""
        text = self.nodes[node].ask("INFO", "commandstats")[1].decode()
        found = dict(re.findall(r"cmdstat_(\S+):calls=(\d+)", text))
        return sum(int(found.get(name, 0)) for name in names)

    def moves(self):
        """How many commands of an administrator the nodes have executed that move slots."""
        names = "cluster|setslot", "cluster|getkeysinslot", "migrate"
        return sum(self.calls(node, *names) for node in self.running)

    def owner(self):
        """The node that owns each slot, as the first node says."""
        found = [None] * SLOTS
        for line in self.lines(next(iter(self.running))).values():
            for slot in line.slots:
                found[slot] = self.ids.index(line.id)
        return found

    def piped(self, node, requests):
        """The replies to the requests, some of which are on their way together."""
        replies = []
        for start in range(0, len(requests), AT_A_TIME):
            some = requests[start:start + AT_A_TIME]
            self.nodes[node].send(some)
            replies += [self.nodes[node].reply() for _ in some]
        return replies

    def put(self, values):
        """Sets the texts at their keys."""
        for replies in self.at_owners([[b"SET", key, value] for key, value in values.items()]):
            if strange := [reply for reply in replies if reply != ("+", b"OK")]:
                raise SystemExit(f"a SET was answered {strange[0]}")

    def delete(self, keys):
        self.at_owners([[b"DEL", key] for key in keys])

    def at_owners(self, requests):
        """The replies to the requests, each at the node that owns the slot of its key."""
        owner, by_node = self.owner(), collections.defaultdict(list)
        for request in requests:
            by_node[owner[slot_at(request[1])]].append(request)
        return [self.piped(node, some) for node, some in by_node.items()]

    def masters(self):
        """The nodes that are masters, as each itself says."""
        return [node for node in self.running if b"role:master" in self.nodes[node].ask("INFO", "replication")[1]]

    def differences(self, wanted):
        """What is not as it has to be: each key lies at one node, which serves it with its value."""
        found = collections.Counter()
        for node in self.masters():
            found.update(key for _, key in self.nodes[node].ask("KEYS", "*")[1])
        wrong = [f"{key} lies nowhere" for key in wanted if key not in found]
        wrong += [f"{key} lies at {times} nodes" for key, times in found.items() if times > 1]
        wrong += [f"{key} ought not to be there" for key in found if key not in wanted]
        owner, by_node = self.owner(), collections.defaultdict(list)
        for key, value in wanted.items():
            by_node[owner[slot_at(key)]].append((key, value))
        for node, pairs in by_node.items():
            reads = [[READS[type(value)][0], key, *READS[type(value)][1:]] for key, value in pairs]
            for (key, value), reply in zip(pairs, self.piped(node, reads)):
                if value_of(value, reply) != value:
                    wrong.append(f"{key} has to be {value!r}, and is {reply}")
        return wrong


def value_of(wanted, reply):
    """The value that a reply shows, of the kind that is wanted; or the reply, where it is of another kind."""
    mark, carried = reply
    if isinstance(wanted, bytes) or mark != "*":
        return carried if mark == "$" else reply
    parts = [part for _, part in carried]
    if isinstance(wanted, store.Members):
        return store.Members.fromkeys(parts)
    return dict(zip(parts[::2], parts[1::2])) if isinstance(wanted, dict) else parts
