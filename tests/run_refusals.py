#!/usr/bin/env python3
"""Refused allocations, reads and writes: makes each one of some rows fail in turn.

usage: tests/run_refusals.py PROGRAM PROBE

Where memory runs out, whole lines of the row have to be printed and then the line 'out of memory', with status 1, or
nothing changes (a growth that goes on with less room); a picture is not printed at all then, and the line may stand on
standard error. A read or write that fails has to leave a prefix of the row's
bytes, with status 1, and one that moves one byte only changes nothing.

PROBE is the program of crates/probe, of which each allocation fails in turn: what reads a frame or a reply then answers
Memory and nothing else, a session answers one command so or ends so, and a call of a running cluster that answers so is
made again and then leaves what it leaves otherwise. The program's own allocations end it.

It also has a command of each kind kept on a trail: a port that takes the command over has to keep no more memory than
one that copies it, whoever made the command, and with whatever room.

The calls fail in a small library of C, tests/refuse.c, which stands before the program's own calls of the C library.
The last line is 'N passed, M failed'."""

import itertools
import os
import pathlib
import re
import shlex
import shutil
import subprocess
import sys
import tempfile

TESTS = pathlib.Path(__file__).resolve().parent
ROWS = [
    "commands/static-set-get",
    "commands/kinds-and-counters",
    "scripts/commands-one-by-one",
    "migrate/migrate-by-hand",
    "redirections/moved-one-key",
    "interleavings/half-moved-pair",
    "plans/plan-then-clients",
    "scripts/printed-before-a-fault",
    "plans/verify-one-owner",
    "plans/verify-out-of-order",
    "plans/verify-left-open",
    "planners/reshard-100",
    "planners/rebalance-weights",
    "planners/rebalance-use-empty",
    "planners/rebalance-nothing",
    "planners/rebalance-no-weight",
    "planners/reshard-too-many",
    "servers/plan-that-is-refused",
    "previews/explain-moved-twice",
    "previews/json-moved-twice",
    "previews/json-refused",
    "previews/draw-moved-twice",
]
PICTURES = {"previews/draw-moved-twice"}
NO_MEMORY = b"out of memory\n"
UNREAD = b"error: standard input could not be read: "
UNWRITTEN = b"error: standard output could not be written: "
COMPILER = os.environ.get("CC", "cc")
SECONDS = 60
MOST_CALLS = 5_000


def built(folder):
    """The library that refuses calls, or None where it could not be built."""
    library = os.path.join(folder, "refuse.so")
    command = [COMPILER, "-O1", "-shared", "-fPIC", "-o", library, str(TESTS / "refuse.c"), "-ldl"]
    return library if subprocess.run(command).returncode == 0 else None


class Runs:
    """A command with its input, which is run again and again."""

    def __init__(self, library, command, given, counted=None):
        self.command = command
        self.input = given
        self.library = library
        self.whole = self.run(counted or {})

    def run(self, refused):
        """The status, and what was printed on both outputs."""
        ran = subprocess.run(self.command, input=self.input, capture_output=True, timeout=SECONDS,
                             env={"LD_PRELOAD": self.library, **refused})
        return ran.returncode, ran.stdout, ran.stderr

    def each(self, kind):
        """Runs with the first call of the kind refused, the second one, and so on, while there is such a call."""
        for number in range(1, MOST_CALLS):
            with tempfile.NamedTemporaryFile() as report:
                ran = self.run({kind: str(number), "REFUSE_REPORT": report.name})
                if not report.read():
                    return
            yield number, ran
        raise SystemExit(f"run_refusals: more than {MOST_CALLS} calls")


def out_of_memory(whole, ran):
    status, printed, errors = ran
    before = printed.removesuffix(NO_MEMORY)
    is_whole_lines = before == b"" or before.endswith(b"\n")
    begun = before != printed and is_whole_lines and whole[1].startswith(before)
    return ran == whole or (status == 1 and begun and not errors)


def no_picture(whole, ran):
    """The line stands on standard error, once it is known that a picture is asked for."""
    return ran in (whole, (1, NO_MEMORY, b""), (1, b"", NO_MEMORY))


def is_one_line(errors, beginning):
    """Whether this is one line, with the system's reason after its beginning."""
    reason = errors.removeprefix(beginning).removesuffix(b"\n")
    return errors == beginning + reason + b"\n" and reason != b"" and b"\n" not in reason


def failed_read(whole, ran):
    status, printed, errors = ran
    return status == 1 and whole[1].startswith(printed) and is_one_line(errors, UNREAD)


def failed_write(whole, ran):
    """A write of the answer failed, which is told after what is remarked of it; or only the remark was not written."""
    status, printed, errors = ran
    told = errors.removeprefix(whole[2])
    unwritten = status == 1 and whole[1].startswith(printed) and is_one_line(told, UNWRITTEN)
    return unwritten or (whole[2] != b"" and ran == (whole[0], whole[1], b""))


def short_stream(whole, ran):
    return ran == whole


def row_of(program, library, name):
    path = TESTS / "rows" / name
    given = path.with_suffix(".in")
    words = shlex.split(path.with_suffix(".cmd").read_text())
    return Runs(library, [program, *words], given.read_bytes() if given.exists() else b"")


KINDS = [
    ("REFUSE_GROWTH", out_of_memory),
    ("REFUSE_READ", failed_read),
    ("REFUSE_WRITE", failed_write),
    ("SHORTEN_READ", short_stream),
    ("SHORTEN_WRITE", short_stream),
]


FRAME = "0003000000016c02000000020000000161000000016100000001730300000002000000017800000001790000000174000000000131"
REPLY = b"*3\r\n*1\r\n:1\r\n$2\r\n\r\n\r\n+OK\r\n"
SESSION = b"*1\r\n$6\r\nASKING\r\n*2\r\n$3\r\nGET\r\n$1\r\nb\r\n*2\r\n$3\r\nGET\r\n$1\r\nb\r\n"
REPLIES = [b"+OK\r\n", b"$-1\r\n", b"-MOVED 3300 127.0.0.1:7000\r\n"]
NO_REPLY = b"-OOM out of memory\r\n"
DAY = b"""open: done, 0 calls
at n0 RPUSH b x: 1, 1 calls
at n0 RPUSH b y: 2, 2 calls
setslot 3300 importing n0 at n1: done, 1 calls
setslot 3300 migrating n1 at n0: done, 2 calls
getkeysinslot 3300 10 at n0: 1 keys, 3 calls
migrate b at n0 to n1: done, 4 calls
asking n1 LLEN b: 2, 3 calls
close: done, 7 calls
n0 has 0 keys
n1 has 1 keys
n2 has 0 keys
"""
REFUSED = re.compile(rb"(.*): out of memory, ([0-9]+) calls\n")
# What has to be refused at least once in a day.
CALLS = [b"setup", b"open", b"at n0 RPUSH b x", b"at n0 RPUSH b y", b"migrate b at n0 to n1"]
# The program's own allocations, before and between what it tries.
OWN_ENDS = [b"Error: " + it + b"\n" for it in (
    b"Out of memory", b"out of memory", b"memory allocation failed", b"a call was not read", b"a command was not read",
)]


def ended_itself(ran):
    return ran[0] == 1 and ran[1] == b"" and ran[2] in OWN_ENDS


def one_line(line):
    """What is refused where a reader answers this line."""
    return lambda printed: [line] if printed == line else None


def session_refused(printed):
    """What was refused: a reply, or what ends the session. The memory that the probe writes into can be refused too."""
    end, sent, written = printed.removesuffix(b"\n").split(b" ")
    written = bytes.fromhex(written.decode())
    if int(sent) != len(written):
        return None
    if end in (b"Memory", b"WriteFailed"):
        return [end] if written in [b"".join(REPLIES[:count]) for count in range(4)] else None
    replaced = [b"".join([*REPLIES[:at], NO_REPLY, *REPLIES[at + 1:]]) for at in range(3)]
    return [b"reply"] if end == b"Closed" and written in replaced else None


def day_refused(printed):
    """The call that was refused. All else is as in the whole day, and its seat has one call less than after it."""
    lines = printed.splitlines(keepends=True)
    refused = [number for number, line in enumerate(lines) if REFUSED.fullmatch(line)]
    if len(refused) != 1:
        return None
    name, calls = REFUSED.fullmatch(lines.pop(refused[0])).groups()
    if b"".join(lines) != DAY:
        return None
    is_opening = name in (b"setup", b"open")
    again = lines[refused[0]]
    after = b" %d calls\n" % (0 if is_opening else int(calls) + 1)
    return [name] if again.startswith(b"open: " if is_opening else name + b": ") and again.endswith(after) else None


# The words of the probe, its input, what it prints, what a printed text says that was refused, and what has to be.
PROBED = [
    ("frame", FRAME, b"6c list 61,61,;73 set 78,79,;74 text 31;\n", one_line(b"6 Memory\n"), [b"6 Memory\n"]),
    ("reply", REPLY.hex(), b"%d bytes %s\n" % (len(REPLY), REPLY.hex().encode()), one_line(b"7 Memory\n"),
     [b"7 Memory\n"]),
    ("importing", SESSION.hex(), b"Closed %d %s\n" % (len(b"".join(REPLIES)), b"".join(REPLIES).hex().encode()),
     session_refused, [b"Memory", b"reply"]),
    ("live", "", DAY, day_refused, CALLS),
]


# A command of each kind, once with one argument of a list or a pair, and once with several.
COMMANDS = [
    "GET k", "SET k value", "SETNX k value", "APPEND k value", "STRLEN k", "INCR k", "DECR k", "INCRBY k 2",
    "DECRBY k 2", "HSET k field value", "HSET k f 1 g 2 h 3", "HGET k f", "HDEL k f", "HDEL k f g h i j", "HLEN k",
    "HEXISTS k f", "HGETALL k", "LPUSH k a", "LPUSH k a b c d e", "RPUSH k a", "RPUSH k a b c d e", "LPOP k", "RPOP k",
    "LLEN k", "LRANGE k 0 -1", "SADD k a", "SADD k a b c d e", "SREM k a", "SREM k a b c d e", "SISMEMBER k a",
    "SCARD k", "SMEMBERS k", "TYPE k", "DEL k", "DEL k l m n o", "EXISTS k", "EXISTS k l m n o", "RENAME k l",
    "MGET k", "MGET k l m n o", "MSET k 1", "MSET k 1 l 2 m 3", "SMOVE k l a",
]


def on_the_wire(words):
    return b"*%d\r\n" % len(words) + b"".join(b"$%d\r\n%s\r\n" % (len(word), word) for word in words)


def in_a_script(words):
    """The line of a script, with an escape in each word after the command's name."""
    return b" ".join([b"at n0", words[0], *(b"\\x%02x" % word[0] + word[1:] for word in words[1:])])


SOURCES = {"wire": on_the_wire, "script": in_a_script, "roomy": b" ".join}


def kept_bytes(probe, library, words, given):
    """The bytes that are out while the command is kept, or None where the probe fails."""
    with tempfile.NamedTemporaryFile() as report:
        ran = Runs(library, [probe, "kept", *words], given, {"KEPT_REPORT": report.name}).whole
        counted = report.read()
    return int(counted) if ran == (0, b"kept\n", b"") and counted else None


def try_kept(probe, library):
    """How many commands are kept in as much memory as their copies, and a line for each that is not."""
    passed, wrong = 0, []
    for keeper, source, text in itertools.product(("recorded", "running"), SOURCES, COMMANDS):
        given = SOURCES[source](text.encode().split(b" ")).hex().encode() + b"\n"
        lent, handed = (kept_bytes(probe, library, (keeper, way, source), given) for way in ("lent", "handed"))
        if lent is not None and lent == handed:
            passed += 1
        else:
            wrong.append(f"probe kept {keeper} {source}: {text}: {lent} bytes where it is lent, {handed} handed over")
    return passed, wrong


def shown(name, kind, number, ran):
    printed = f"printed {ran[1][-80:]!r}, on standard error {ran[2][-80:]!r}"
    return f"{name}: {kind} {number}: status {ran[0]}, {printed}"


def try_row(row, name):
    """How many runs went as they have to, and a line for each that did not."""
    passed, wrong = 0, []
    kinds = dict(KINDS, REFUSE_GROWTH=no_picture) if name in PICTURES else dict(KINDS)
    for kind, is_right in kinds.items():
        runs = 0
        for number, ran in row.each(kind):
            runs += 1
            if is_right(row.whole, ran):
                passed += 1
            else:
                wrong.append(shown(name, kind, number, ran))
        if runs == 0 and (row.input or not kind.endswith("READ")):
            wrong.append(f"{name}: no call met {kind}")
    return passed, wrong


def try_probe(runs, name, whole, refused_in, calls):
    """The same for what the probe tries, of which these calls have to be refused at least once."""
    passed, wrong, met = 0, [], set()
    if runs.whole != (0, whole, b""):
        return 0, [shown(f"probe {name}", "nothing refused", "", runs.whole)]
    for number, ran in runs.each("REFUSE_GROWTH"):
        if ended_itself(ran) or ran == runs.whole:
            passed += 1
            continue
        refused = refused_in(ran[1]) if ran[0] == 0 and ran[2] == b"" else None
        if refused is None:
            wrong.append(shown(f"probe {name}", "REFUSE_GROWTH", number, ran))
        else:
            passed += 1
            met.update(refused)
    return passed, wrong + [f"probe {name}: never refused: {it!r}" for it in calls if it not in met]


def tried(program, probe, library):
    """What comes of each row, of what the probe tries, and of the commands that are kept."""
    for name in ROWS:
        yield try_row(row_of(program, library, name), name)
    for name, given, whole, refused_in, calls in PROBED:
        runs = Runs(library, [probe, name], f"{given}\n".encode() if given else b"")
        yield try_probe(runs, name, whole, refused_in, calls)
    yield try_kept(probe, library)


def main():
    if len(sys.argv) != 3:
        print("usage: tests/run_refusals.py PROGRAM PROBE", file=sys.stderr)
        return 2
    program, probe = (str(pathlib.Path(it).resolve()) for it in sys.argv[1:])
    passed = failed = 0
    if shutil.which(COMPILER) is None:
        print("run_refusals: there is no compiler of C here, so no call was refused")
        print("0 passed, 0 failed")
        return 0
    with tempfile.TemporaryDirectory() as folder:
        library = built(folder)
        if library is None:
            print("run_refusals: tests/refuse.c was not built")
            print("0 passed, 1 failed")
            return 1
        for right, wrong in tried(program, probe, library):
            passed += right
            failed += len(wrong)
            for line in wrong:
                print(line)
    print(f"{passed} passed, {failed} failed")
    return 1 if failed else 0


sys.exit(main())
