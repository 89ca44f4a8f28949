"""What stands before the masters of a cluster, and sees who is told of a slot's owner, and when."""

import contextlib
import functools
import re
import threading
import time

from between import Between
from connection import encoded

TELLS = re.compile(rb"\r\nSETSLOT\r\n\$\d+\r\n(\d+)\r\n\$4\r\nNODE\r\n", re.IGNORECASE)
HELD_SECONDS = 5
# In the place of an answer: the connection is closed, or nothing comes. The master is not told then, as it is not where
# bytes are its answer.
CLOSED, SILENT = "closed", "silent"


class Asked:
    """A request that tells a node of a slot's owner, with the times at which it came and its answer went out, and the
    server's own answer."""

    def __init__(self, slot, node):
        self.slot, self.node, self.came = slot, node, time.monotonic()
        self.instead = self.answer = self.went = None


class Fronts:
    """Stands at a port of its own before each of so many servers, whose ports follow each other. `faults` says by node
    what is answered in the place of the server."""

    def __init__(self, first, to, count):
        self.ports = {node: first + node for node in range(count)}
        self.to, self.stack, self.changed = to, contextlib.ExitStack(), threading.Condition()
        self.begin()

    def __enter__(self):
        for node, port in self.ports.items():
            self.stack.enter_context(Between(port, self.to + node, functools.partial(self.change, node)))
        return self

    def __exit__(self, *_):
        self.begin()
        self.stack.close()

    def begin(self, faults=None, held=(), awaited=None):
        """Forgets what was asked. From now on the answers of the nodes that are held stay here until all that are
        awaited, the same ones unless others are given, were asked of the same slot, or the time is up."""
        with self.changed:
            self.requests, self.faults, self.held = [], faults or {}, set(held)
            self.awaited = self.held if awaited is None else set(awaited)
            self.changed.notify_all()

    def of(self, slot):
        """What was asked of the slot, in the order in which it came."""
        with self.changed:
            return [asked for asked in self.requests if asked.slot == slot]

    def are_asked(self, slot, nodes):
        return {asked.node for asked in self.of(slot)} >= set(nodes)

    def change(self, node, data, is_answer, link):
        if is_answer:
            asked = link.pop("asked", None)
            return self.answered(asked, data) if asked else data
        found = TELLS.search(data)
        return self.asked(Asked(int(found[1]), node), data, link) if found else data

    def asked(self, asked, data, link):
        """What goes to the server in the place of the request."""
        with self.changed:
            self.requests.append(asked)
            fault = self.faults.get(asked.node)
            self.changed.notify_all()
        if fault == CLOSED:
            raise ConnectionAbortedError
        if fault == SILENT:
            return b""
        link["asked"], asked.instead = asked, fault
        return encoded([b"PING"]) if fault else data

    def answered(self, asked, data):
        if not asked.instead:
            asked.answer = data
        with self.changed:
            if asked.node in self.held:
                self.hold(asked, self.awaited)
        asked.went = time.monotonic()
        return asked.instead or data

    def hold(self, asked, awaited):
        """Once the time is up, no more is held."""
        def may_go():
            return self.awaited is not awaited or not self.held or self.are_asked(asked.slot, awaited)

        if not self.changed.wait_for(may_go, HELD_SECONDS):
            self.held = set()
            self.changed.notify_all()
