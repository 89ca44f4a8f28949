#!/usr/bin/env python3
"""The script that runs the program: what ./reshard runs with nothing proved, what it passes on, what a signal does.

usage: tests/wrapper.py [--port FIRST] PROGRAM [PART ..]

All but the last part have a copy of the script in a tree of its own, with a program in the place of the proved one that
tells what it was given, and an rt that runs nothing. Without a PART all are tried, in this order:

  unproved     where there is no program, what opens connections or ports ends with status 2 and one line
  building     --build proves crates side by side, says how many are left, and then builds the program or says why not
  passed_on    words, standard input, both outputs and the status
  signals      the first one makes the stop file of the run, beside the operator's, and the second one ends the program
  terminal     Ctrl-C at a terminal
  killed       where the script is killed, so is the program
  plans        PROGRAM runs plans at three redis-servers, which Ctrl-C pauses, or ends in mid-move; resume goes on

The last part starts redis-servers on ports of 127.0.0.1 from FIRST on (19300 unless it is given). They are Debian's
packages redis-server and redis-tools, and without them that part is skipped. The last line is 'N passed, M failed', a
check each; the status is 1 where one failed."""

import contextlib
import fcntl
import json
import os
import pathlib
import pty
import re
import shutil
import signal
import subprocess
import sys
import termios
import time

TESTS = pathlib.Path(__file__).resolve().parent
sys.dont_write_bytecode = True
sys.path[:0] = [str(TESTS / "redis_server"), str(TESTS / "hostile")]

from parts import ENVIRONMENT, Parts, plan_of, wait_until  # noqa: E402

TOP = TESTS.parent
FIRST_PORT = 19_300
PORTS = 3
SECONDS = 30
WAITS = "stopping after the slot that is open; once more ends it at once"
ENDED = "ended at once; './reshard resume' closes what is open"
# In the place of the program: it tells its words and its process, and copies its input. Then it waits for its stop file
# where it is told to, or for ever.
STAND_IN = """#!/usr/bin/env python3
import json, os, pathlib, sys, time
print(json.dumps([os.getpid(), sys.argv[1:]]), flush=True)
print(sys.stdin.read(), file=sys.stderr, end="", flush=True)
waits = os.environ.get("STAND_IN_WAITS")
while waits and not (waits == "once" and pathlib.Path(sys.argv[sys.argv.index("--stop-file") + 1]).exists()):
    time.sleep(0.01)
sys.exit(3 if waits else int(os.environ.get("STAND_IN_STATUS", 0)))
"""
# In the place of an rt that proves two crates of all: where it ran, and its words.
PROVER = """#!/bin/sh
echo "$PWD $*" >&2
[ "$1" != all ] || printf 'fn low::f: proved\\nlogic=proved\\nlow: not proved yet\\nlogic=proved\\n'
[ "$1" = all ] || exit "$PROVER_STATUS"
"""
# In the place of rt: its words, one a line.
RT = """#!/bin/sh
printf '%s\\n' "$@"
"""
PARTS = Parts("plans that ./reshard runs")
part, part_alone = PARTS.part, PARTS.part_alone


# ---- what each part uses


class Tree:
    """A copy of the script at the top of a tree, with this program or none."""

    def __init__(self, it, program=None):
        self.top = it.folder / "tree"
        self.script, self.program = self.top / "reshard", self.top / "crates/reshard/out/reshard"
        self.kit, self.temporary = it.folder / "kit", it.folder / "temporary"
        for folder in (self.program.parent, self.kit, self.temporary):
            folder.mkdir(parents=True)
        for name in ("reshard", "crates.txt"):
            shutil.copy(TOP / name, self.top / name)
        self.make(self.kit / "rt", RT)
        if program:
            self.make(self.program, pathlib.Path(program).read_bytes() if program != STAND_IN else STAND_IN)

    @staticmethod
    def make(path, text):
        path.write_bytes(text if isinstance(text, bytes) else text.encode())
        path.chmod(0o755)

    def environment(self, more):
        path = f"{self.kit}:{os.environ['PATH']}"
        return {**ENVIRONMENT, "PATH": path, "TMPDIR": str(self.temporary), **more}

    def run(self, *words, given="", **more):
        """The status and both outputs."""
        return subprocess.run([self.script, *map(str, words)], input=given, capture_output=True, text=True,
                              timeout=SECONDS, env=self.environment(more))

    @contextlib.contextmanager
    def started(self, *words, given="", **more):
        """The script while it runs, the first process of a group of its own."""
        with subprocess.Popen([self.script, *map(str, words)], text=True, stdin=subprocess.PIPE, stdout=subprocess.PIPE,
                              stderr=subprocess.PIPE, env=self.environment(more), start_new_session=True) as process:
            try:
                process.stdin.write(given)
                process.stdin.close()
                process.stdin = None
                yield process
            finally:
                if process.poll() is None:
                    os.killpg(process.pid, signal.SIGKILL)

    def left(self):
        """What is left of the runs' own folders."""
        return list(self.temporary.iterdir())


def is_alive(number):
    """Whether the process is there, and has not ended."""
    try:
        return " Z " not in pathlib.Path(f"/proc/{number}/stat").read_text()
    except OSError:
        return False


def path_of(words):
    """The stop file that the words name, and the other words."""
    at = words.index("--stop-file")
    return pathlib.Path(words[at + 1]), words[:at] + words[at + 2:]


# ---- where there is no program


@part_alone
def unproved(it):
    tree = Tree(it)
    cluster = ["--cluster", "127.0.0.1:1"]
    for words in [
        ["survey", *cluster], ["apply", *cluster], ["resume", *cluster], ["verify", *cluster], ["explain", *cluster],
        ["draw", *cluster], ["draw", "--now", *cluster], ["plan-reshard", *cluster], ["plan-rebalance", *cluster],
        ["plan-drain", *cluster], ["forget", "n0", *cluster],
        ["verify", "--nodes", "3", *cluster], ["verify", "--nodes=3", "--cluster=127.0.0.1:1"], ["verify"],
        ["serve", "--nodes", "3"], ["serve", "--nodes", "3", "--plan"], ["none", "--nodes", "3"], ["--nodes", "3"],
    ]:
        ran = tree.run(*words)
        it.check(f"{words}: status 2", (ran.returncode, ran.stdout) == (2, ""), ran)
        told = rf"reshard: '{words[0]}' wants the proved program, which './reshard --build' builds in .* hour; .*\n"
        it.check(f"{words}: one line", re.fullmatch(told, ran.stderr), ran)
    plan = ["--from", "n0", "--to", "n1", "--slots", "1"]
    for words in [
        ["rehearse"], ["verify", "--nodes", "3"], ["verify", "--nodes=3", "--even", "2"], ["explain", "--nodes", "3"],
        ["draw", "--nodes", "3"], ["plan-reshard", "--nodes", "3", *plan], ["plan-rebalance", "--nodes", "3"],
        ["plan-drain", "--nodes", "3", "--from", "n0"],
        ["--help"], ["-h"], ["apply", "--help"], ["survey", "-h"], ["serve", "--help"],
    ]:
        wanted = [word.replace("-h", "--help") if word == "-h" else word for word in words]
        ran = tree.run(*words)
        it.check(f"{words}: is tried", (ran.returncode, ran.stdout.split()) == (0, ["try", "--", *wanted]), ran)
        it.check(f"{words}: it is told that nothing was proved", "nothing was proved" in ran.stderr, ran)
    ran = tree.run("apply", *cluster, "--log", "x", "--help")
    it.check("of words with --help the help alone is asked for", ran.stdout.split() == ["try", "--", "apply", "--help"])
    ran = tree.run("--version")
    it.check("the version is told", ran.returncode == 0 and "not proved" in ran.stdout, ran)


@part_alone
def building(it):
    tree = Tree(it)
    tree.make(tree.kit / "rt", PROVER)
    crates = sum(":" in line.split("#")[0] for line in (TOP / "crates.txt").read_text().splitlines())
    for status in (1, 0):
        ran = tree.run("--build", PROVER_STATUS=str(status))
        lines = ran.stderr.splitlines()
        begun = re.fullmatch(rf"reshard: {crates} crates are proved, (\d+) side by side", lines[0])
        it.check(f"{status}: its status, and no output", (ran.returncode, ran.stdout) == (status, ""), ran)
        it.check(f"{status}: how many are proved side by side", begun, ran)
        left = [f"reshard: {crates - ended} of {crates} crates are left, after 0 minutes" for ended in (1, 2)]
        it.check(f"{status}: how many are left", lines[1:3] == left, ran)
        it.check(f"{status}: the program is built in its folder",
                 lines[3] == f"{tree.program.parent.parent} run -- rehearse", ran)
        if status == 0:
            built = ["reshard: the proved program is built, after 0 minutes"]
            it.check("it is there", lines[4:] == built and tree.program.exists(), ran)
        else:
            told = [f"{tree.top} all check --jobs {begun[1]}", "logic=proved", "low: not proved yet", "logic=proved",
                    "reshard: the program was not built"]
            it.check("what was not proved is told", lines[4:] == told and not tree.program.exists(), ran)
        it.check(f"{status}: nothing is left", not tree.left(), tree.left())


# ---- where there is one


@part_alone
def passed_on(it):
    tree = Tree(it, STAND_IN)
    text = "a line\nno end"
    for words in [["rehearse"], ["survey", "--cluster", "A"], ["apply", "--help"], ["resume", "--stop-file"],
                  ["apply", "--stop-file", "a", "--stop-file", "b"], ["apply", "--log", "a", "--stop-file", "a"],
                  ["apply", "--log=a", "--stop-file=a"], ["--help"], []]:
        ran = tree.run(*words, given=text, STAND_IN_STATUS="7")
        it.check(f"{words}: all as it is", ran.returncode == 7 and json.loads(ran.stdout)[1] == words, ran)
        it.check(f"{words}: its input and its errors", ran.stderr == text, ran)
    for command in ("apply", "resume"):
        for status in (0, 1, 2, 3, 77):
            words = [command, "--cluster", "A,B", "--log", "a  b", "", "x*"]
            ran = tree.run(*words, given=text, STAND_IN_STATUS=str(status))
            path, others = path_of(json.loads(ran.stdout)[1])
            it.check(f"{command}, {status}: its status", ran.returncode == status, ran)
            it.check(f"{command}, {status}: its words, and a stop file", others == words, ran)
            told = f"reshard: where a line above has --stop-file {path}, that was for this run alone: leave it out\n"
            it.check(f"{command}, {status}: its input and its errors",
                     ran.stderr == text + told * (status in (1, 3)), ran)
            it.check(f"{command}, {status}: nothing is left", not tree.left(), tree.left())
        the_operators(it, tree, command)
    os.utime(tree.top / "crates.txt", (time.time() + 5,) * 2)
    ran = tree.run("apply")
    it.check("a program that is older than its files", "built from files that changed since" in ran.stderr, ran)


def the_operators(it, tree, command):
    """The program's stop file is there as soon as the operator's is."""
    for name, form in [("stop", ["--stop-file", "{}"]), ("stop here", ["--stop-file={}"])]:
        stop = it.folder / name
        words = [command, "--cluster", "A", *(word.format(stop) for word in form), "--by", "3"]
        with tree.started(*words, STAND_IN_WAITS="once") as process:
            path, others = path_of(json.loads(process.stdout.readline())[1])
            it.check(f"{command}: the other words", others == [command, "--cluster", "A", "--by", "3"], others)
            it.check(f"{command}: its stop file is another one", path != stop and not path.exists())
            stop.touch()
            it.check(f"{command}: the operator's stops it", process.wait(SECONDS) == 3)
            told = process.stderr.read()
            it.check(f"{command}: the operator's is told", "type --stop-file" in told and name[:4] in told, told)
        it.check(f"{command}: the operator's is left as it is", stop.exists() and not tree.left())
        stop.unlink()
    ran = subprocess.run([tree.script, command, "--stop-file", "near"], input="", capture_output=True, text=True,
                         cwd=it.folder, env=tree.environment({}))
    it.check(f"{command}: a stop file in the folder of the run", ran.returncode == 0, ran)


# ---- signals


def is_told(it, process, line, what):
    told = process.stderr.readline()
    it.check(f"{what}: it is told", told == f"reshard: {line}\n", told)


@part_alone
def signals(it):
    tree, stop = Tree(it, STAND_IN), it.folder / "stop"
    for number, name in [(signal.SIGINT, "SIGINT"), (signal.SIGTERM, "SIGTERM"), (signal.SIGHUP, "SIGHUP")]:
        for command in ("apply", "resume"):
            for more in ([], ["--stop-file", stop]):
                for whom, send in [("the group", os.killpg), ("the script", os.kill)][:1 + (command == "apply")]:
                    what = f"{command} {name} to {whom}"
                    with tree.started(command, *more, STAND_IN_WAITS="once") as process:
                        process.stdout.readline()
                        send(process.pid, number)
                        is_told(it, process, WAITS, what)
                        it.check(f"{what}: status 3", process.wait(SECONDS) == 3)
                    it.check(f"{what}: nothing is left", not tree.left() and not stop.exists())
    for first, second in [(signal.SIGINT, signal.SIGINT), (signal.SIGTERM, signal.SIGINT)]:
        what = f"{first} and {second}"
        with tree.started("apply", STAND_IN_WAITS="ever") as process:
            number = json.loads(process.stdout.readline())[0]
            os.killpg(process.pid, first)
            is_told(it, process, WAITS, what)
            it.check(f"{what}: the first one ends nothing", is_alive(number) and process.poll() is None)
            os.killpg(process.pid, second)
            is_told(it, process, ENDED, what)
            it.check(f"{what}: the second one ends it", process.wait(SECONDS) == 128 + signal.SIGKILL)
            it.check(f"{what}: the program, too", wait_until(lambda: not is_alive(number), 5))
        it.check(f"{what}: nothing is left", not tree.left())
    with tree.started("apply", STAND_IN_WAITS="once") as process:
        process.stdout.readline()
        process.stderr.close()
        os.killpg(process.pid, signal.SIGINT)
        it.check("a reader of the errors that went away", process.wait(SECONDS) == 3)


@part_alone
def terminal(it):
    """Ctrl-C comes from the terminal, to all of its processes."""
    tree = Tree(it, STAND_IN)
    ours, theirs = pty.openpty()
    with open(it.folder / "plan", "w+") as plan, open(it.folder / "out", "w+") as out:
        process = subprocess.Popen([tree.script, "apply"], stdin=plan, stdout=out, stderr=theirs,
                                   env=tree.environment({"STAND_IN_WAITS": "once"}), start_new_session=True,
                                   preexec_fn=lambda: fcntl.ioctl(theirs, termios.TIOCSCTTY, 0))
        os.close(theirs)
        it.check("it runs", wait_until(lambda: (it.folder / "out").read_text().endswith("\n"), SECONDS))
        os.write(ours, b"\x03")
        try:
            it.check("Ctrl-C stops it", process.wait(SECONDS) == 3)
        finally:
            process.kill()
    it.check("it is told at the terminal", WAITS.encode() in os.read(ours, 1 << 16))
    os.close(ours)


@part_alone
def killed(it):
    tree = Tree(it, STAND_IN)
    if not shutil.which("setpriv"):
        return
    with tree.started("apply", STAND_IN_WAITS="ever") as process:
        number = json.loads(process.stdout.readline())[0]
        os.kill(process.pid, signal.SIGKILL)
        it.check("the program ends with the script", wait_until(lambda: not is_alive(number), SECONDS))


# ---- plans at servers


@part
def plans(it):
    tree = Tree(it, it.program)
    slots = range(1_000)
    with it.servers_with(slots, 5) as (servers, values):
        plan, rest = plan_of("move 0-999 from n0 to n1 by 10"), it.folder / "rest"
        rest.write_text(plan)
        at = ["--cluster", servers.address(0)]
        for number, words in [(signal.SIGINT, ["apply"]), (signal.SIGTERM, ["resume", "--plan", rest])]:
            what = f"{words[0]}, {number.name}"
            before = servers.nodes[1].ask("DBSIZE")[1]
            with tree.started(*words, *at, given=plan) as process:
                wait_until(lambda: process.poll() is not None or servers.nodes[1].ask("DBSIZE")[1] > before + 50)
                os.killpg(process.pid, number)
                out, err = process.communicate(timeout=SECONDS)
            it.check(f"{what}: paused", process.returncode == 3, (process.returncode, out, err))
            it.check(f"{what}: no slot is open", re.search(r"paused after \d+ commands, no slot is open\n$", out), out)
            it.check(f"{what}: it is told", WAITS in err, err)
            it.left(servers, values, what)
        with tree.started("resume", *at, "--plan", rest, "--keys-per-second", 20) as process:
            wait_until(lambda: process.poll() is not None or any(line.marks for line in servers.lines(0).values()))
            os.killpg(process.pid, signal.SIGINT)
            is_paused = wait_until(lambda: tree.left() and (tree.left()[0] / "stop").exists(), SECONDS)
            os.killpg(process.pid, signal.SIGINT)
            out, err = process.communicate(timeout=SECONDS)
        it.check("twice: the first one was heard", is_paused)
        ended = process.returncode in (3, 128 + signal.SIGKILL)
        it.check("twice: ended at once", ended, (process.returncode, out, err))
        ran = tree.run("resume", *at, "--plan", rest)
        it.check("the rest is done", ran.returncode == 0 and re.search(r"done \d+ commands\n$", ran.stdout), ran)
        ran = tree.run("resume", *at, "--plan", rest)
        it.check("nothing is left", (ran.returncode, ran.stdout) == (0, "clean, nothing to resume\n"), ran)
        owner = servers.owner()
        it.check("all slots have moved", all(owner[slot] == 1 for slot in slots))
        it.left(servers, values, "once all is done")


sys.exit(PARTS.main(__doc__, FIRST_PORT, ports=lambda given: PORTS))
