"""What a script's rehearsal prints, by its definition: played line by line on a cluster that is plain Python."""

import re

import plan_texts
import store
import verification
from cluster import Cluster
from hash_slots import even_split, slot_of

UNKNOWN = ("-", b"ERR unknown command")
ADMINISTRATORS = ("-", b"ERR this command belongs to the administrator's seat")
ADMINISTRATORS_WORDS = {b"setslot", b"getkeysinslot", b"countkeysinslot"}


class ScriptFault(Exception):
    """The number and name of a line's fault."""


def wrong_count(name):
    return "-", b"ERR wrong number of arguments for '%s' command" % name


def printed(text):
    return "".join(chr(byte) if 0x21 <= byte <= 0x7E and byte != 0x5C else f"\\x{byte:02x}" for byte in text)


def reply_lines(reply, indent=""):
    mark, carried = reply
    if mark == "*":
        inner = [line for it in carried for line in reply_lines(it, indent + "  ")]
        return [f"{indent}*{len(carried)}", *inner]
    if mark == "$":
        size = "-1" if carried is None else f"{len(carried)}"
        return [f"{indent}${size}" + (f" {printed(carried)}" if carried else "")]
    return [f"{indent}{mark}{carried if mark == ':' else carried.decode('latin-1')}"]


def unescaped(word):
    if word == b'""':
        return b""
    if not re.fullmatch(rb"(?:[^\\]|\\x[0-9a-f]{2})*", word, re.DOTALL):
        raise ScriptFault("5 Word")
    return re.sub(rb"\\x(..)", lambda found: bytes([int(found[1], 16)]), word, flags=re.DOTALL)


def number(word, least, most):
    if not plan_texts.NUMBER.fullmatch(word) or not least <= int(word) <= most:
        raise ScriptFault("4 Number")
    return int(word)


def node(word, nodes):
    if not re.fullmatch(rb"n[0-7]", word) or word[1] - ord("0") >= nodes:
        raise ScriptFault("3 Node")
    return word[1] - ord("0")


def key_word(key):
    return printed(key) or '""'


def sent_by(cluster, commands):
    """Sends a plan's commands one after the other, and gives each in its words, with its reply."""
    for command in commands:
        if command[0] != "drain":
            what, slot, other, at = command
            yield f"setslot {slot} {what} n{other} at n{at}", lambda: cluster.setslot(what, slot, other, at)
            continue
        _, slot, source, target, size = command
        listed = [None]
        while listed:
            reply = []
            yield (f"getkeysinslot {slot} {size} at n{source}",
                   lambda: reply.append(cluster.keys_in(slot, size, source)) or reply[0])
            listed = [key for _, key in reply[0][1]]
            if listed:
                keys = " ".join(map(key_word, listed))
                yield f"migrate {keys} at n{source} to n{target}", lambda: cluster.migrate(listed, source, target)


class ArmedPlan:
    def __init__(self, cluster, commands):
        self.orders = sent_by(cluster, commands)
        self.next = next(self.orders, None)
        self.taken = 0

    def advance(self):
        """The next command in its words, and its reply."""
        words, send = self.next
        reply = send()
        self.taken += 1
        self.next = next(self.orders, None)
        return words, reply


class Rehearsal:
    def __init__(self, cluster):
        self.cluster, self.plan = cluster, None
        self.lines, self.status = [], 0

    def answer(self, at, asking, words):
        name, rest = words[0].lower(), words[1:]
        if name == b"ping":
            return self.ping(rest)
        if name == b"cluster":
            return self.cluster_words(at, rest)
        if name == b"migrate":
            return ADMINISTRATORS
        if name not in store.TABLE:
            return UNKNOWN
        return self.cluster.client(at, asking, name, rest) if store.is_counted(name, rest) else wrong_count(name)

    def ping(self, words):
        if len(words) > 1:
            return wrong_count(b"ping")
        return ("$", words[0]) if words else ("+", b"PONG")

    def cluster_words(self, at, words):
        word = words[0].lower() if words else b""
        if word == b"keyslot":
            return (":", slot_of(words[1])) if len(words) == 2 else wrong_count(b"cluster|keyslot")
        if word == b"slots":
            return self.cluster.look(at) if len(words) == 1 else wrong_count(b"cluster|slots")
        return ADMINISTRATORS if word in ADMINISTRATORS_WORDS else UNKNOWN

    def play(self, line):
        nodes = len(self.cluster.nodes)
        words = line.split(b" ")
        match words if all(words) else []:
            case [(b"at" | b"asking") as verb, at, *words] if words:
                at, words = node(at, nodes), [unescaped(word) for word in words]
                self.lines += reply_lines(self.answer(at, verb == b"asking", words))
            case [b"setslot", slot, (b"importing" | b"migrating" | b"node") as what, other, b"at", at]:
                slot, other, at = number(slot, 0, 16383), node(other, 8), node(at, nodes)
                self.administrator(lambda: self.cluster.setslot(what.decode(), slot, other, at))
            case [b"setslot", slot, b"stable", b"at", at]:
                slot, at = number(slot, 0, 16383), node(at, nodes)
                self.administrator(lambda: self.cluster.set_stable(slot, at))
            case [b"getkeysinslot", slot, count, b"at", at]:
                slot, count, at = number(slot, 0, 16383), number(count, 1, 1000), node(at, nodes)
                self.administrator(lambda: self.cluster.keys_in(slot, count, at))
            case [b"migrate", *keys, b"at", source, b"to", target] if keys:
                keys = [unescaped(key) for key in keys]
                if len(set(keys)) < len(keys) or len({slot_of(key) for key in keys}) > 1:
                    raise ScriptFault("5 Word")
                source, target = node(source, nodes), node(target, nodes)
                self.administrator(lambda: self.cluster.migrate(keys, source, target))
            case [(b"step" | b"run") as verb]:
                self.go_on(verb == b"step")
            case [b"honest"]:
                self.lines.append(self.cluster.honesty())
            case _:
                raise ScriptFault("2 Verb")

    def administrator(self, send):
        if self.plan:
            raise ScriptFault("6 Seat")
        self.lines += reply_lines(send())

    def arm(self, text):
        owners = self.cluster.nodes[0].owners
        try:
            version, lines = plan_texts.lines_of(text)
            commands = list(plan_texts.expanded(lines, len(self.cluster.nodes)))
            line = verification.answer(version, commands, owners, len(self.cluster.nodes))
        except plan_texts.PlanFault as fault:
            line = f"refused: {fault}"
        if line.startswith("verified") and not self.cluster.is_clean(owners):
            line = "refused: 1 TableChanged"
        self.lines.append(line)
        if line.startswith("verified"):
            self.plan = ArmedPlan(self.cluster, commands)
        else:
            self.status = 1

    def go_on(self, is_step):
        if not self.plan:
            raise ScriptFault("6 Seat")
        while self.plan and self.plan.next:
            words, reply = self.plan.advance()
            if is_step:
                self.lines += [words, *reply_lines(reply)]
            if reply[0] == "-":
                self.lines.append(f"stopped at command {self.plan.taken}: {reply[1].decode()}")
                self.plan, self.status = None, 1
            if is_step:
                break
        if self.plan and not self.plan.next:
            self.lines.append(f"done {self.plan.taken} commands")
            self.plan = None


def opened(line):
    """The cluster that the first line names, and its owners."""
    words = line.split(b" ")
    match words if all(words) else []:
        case [b"cluster", nodes]:
            nodes = even = number(nodes, 1, 8)
        case [b"cluster", nodes, b"even", even]:
            nodes = number(nodes, 1, 8)
            even = number(even, 1, nodes)
        case _:
            raise ScriptFault("1 NoCluster")
    return Rehearsal(Cluster(nodes, even_split(even)))


def rehearse(text):
    """What the rehearsal of a script prints, and its status."""
    lines = text.split(b"\n")
    if not lines[-1]:
        lines.pop()
    rehearsal, place = None, 0
    try:
        while place < len(lines):
            line, place = lines[place], place + 1
            if rehearsal is None:
                rehearsal = opened(line)
            elif line in plan_texts.HEADERS:
                if rehearsal.plan:
                    raise ScriptFault("6 Seat")
                end = lines.index(b"end", place) + 1 if b"end" in lines[place:] else len(lines)
                rehearsal.arm(b"".join(it + b"\n" for it in lines[place - 1:end]))
                place = end
            else:
                rehearsal.play(line)
    except ScriptFault as fault:
        printed = rehearsal.lines if rehearsal else []
        return printed + [f"script line {place}: {fault}"], 1
    if rehearsal and rehearsal.plan:
        return rehearsal.lines + [f"unfinished after {rehearsal.plan.taken} commands"], 1
    return (rehearsal.lines, rehearsal.status) if rehearsal else ([], 0)
