"""Clients in processes of their own that follow redirections, each with keys of its own and a store that says what
every reply has to be."""

import multiprocessing
import random
import time
import traceback

import store
from commands import Commands, in_no_order
from connection import Connection
from servers import slot_at, tags

SECONDS = 60
KEYS_A_SLOT = 4
SHOWN = 5


class Follower:
    """A client whose keys lie in these slots. It knows one node, and the others by what it is told."""

    def __init__(self, port, slots, seed, password=None):
        self.random, self.password = random.Random(seed), password
        self.first, self.nodes, self.node_of = port, {}, {}
        groups = [[b"{%s}%d of %d" % (tags()[slot], number, seed) for number in range(KEYS_A_SLOT)] for slot in slots]
        self.groups = [Commands(seed * 1_000 + at, keys, keys, 0) for at, keys in enumerate(groups)]
        self.store, self.right, self.followed, self.wrong, self.longest = {}, 0, 0, [], 0.0

    def sent(self, port, asking, words):
        if port not in self.nodes:
            self.nodes[port] = Connection(port)
            if self.password:
                self.nodes[port].ask("AUTH", self.password)
        requests = [[b"ASKING"]] * asking + [words]
        self.nodes[port].send(requests)
        return [self.nodes[port].reply() for _ in requests][-1]

    def reply(self, slot, words):
        """The reply, once no node redirects any more. TRYAGAIN has the client begin anew where the slot is."""
        port, asking, until = self.node_of.get(slot, self.first), False, time.monotonic() + SECONDS
        while time.monotonic() < until:
            reply = self.sent(port, asking, words)
            name = reply[1].split(b" ")[0] if reply[0] == "-" else b""
            if name in (b"MOVED", b"ASK"):
                port, asking = int(reply[1].rsplit(b":", 1)[1]), name == b"ASK"
                if name == b"MOVED":
                    self.node_of[slot] = port
            elif name in (b"TRYAGAIN", b"CLUSTERDOWN"):
                time.sleep(0.001)
                port, asking = self.node_of.get(slot, self.first), False
            else:
                return reply
            self.followed += 1
        return "-", b"redirected for a minute"

    def turn(self):
        """One command, whose reply is compared."""
        words = self.random.choice(self.groups).next()
        name = words[0].lower()
        if name in (b"ping", b"cluster"):
            return
        wanted, began = store.apply(self.store, name, words[1:]), time.monotonic()
        reply = self.reply(slot_at(words[1]), words)
        self.longest = max(self.longest, time.monotonic() - began)
        if self.shown(name, reply) == self.shown(name, wanted):
            self.right += 1
        else:
            self.wrong.append(f"{words}: answered {reply}, and ought to be {wanted}")

    @staticmethod
    def shown(name, reply):
        mark, carried = reply
        return (mark, in_no_order(name.upper(), [part for _, part in carried])) if mark == "*" else reply


def follow(client, is_over, told, count):
    try:
        while not is_over.is_set() and len(client.wrong) < SHOWN:
            client.turn()
            count.value = client.right
    except BaseException:
        client.wrong.append(traceback.format_exc())
    told.put((client.right, client.followed, client.longest, client.wrong, client.store))


class Followers:
    """Clients that work until they are told to end. Each has keys of its own in some of the slots, so its store alone
    says what it is to read."""

    def __init__(self, ports, slots, count=4, password=None):
        self.is_over, self.told = multiprocessing.Event(), multiprocessing.Queue()
        clients = [Follower(ports[at % len(ports)], slots[at::count], at + 1, password) for at in range(count)]
        self.counts = [multiprocessing.Value("Q", 0, lock=False) for _ in clients]
        shared = self.is_over, self.told
        self.processes = [multiprocessing.Process(target=follow, args=(it, *shared, count), daemon=True)
                          for it, count in zip(clients, self.counts)]
        for process in self.processes:
            process.start()

    def so_far(self):
        """How many replies have been right so far."""
        return sum(count.value for count in self.counts)

    def end(self):
        """Replies that were right, redirections, the longest wait, what was wrong, and what the keys have to hold."""
        self.is_over.set()
        told = [self.told.get(timeout=2 * SECONDS) for _ in self.processes]
        for process in self.processes:
            process.join(SECONDS)
        right, followed, longest, wrong, stores = zip(*told)
        held = {key: value for one in stores for key, value in one.items()}
        return sum(right), sum(followed), max(longest), [it for some in wrong for it in some], held

    def __enter__(self):
        return self

    def __exit__(self, *_):
        for process in self.processes:
            process.kill()
            process.join()
