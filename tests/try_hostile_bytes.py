#!/usr/bin/env python3
"""Damaged frames and streams: damages them in every way that one byte can be damaged, and compares what is read with
slow readers.

usage: tests/try_hostile_bytes.py PROBE

PROBE is the program of crates/probe. Given are each proper beginning of some frames, streams of requests and replies,
each of them with one byte turned into each other byte, with one byte left out or put in, and the headers that come to a
limit. What is to be answered stands in tests/hostile: entries, words and replies with their bytes, not their numbers
alone. A line is printed for each of the four readers, with its number of inputs. The last line is 'N passed, M failed',
a reader each, and the status is 1 where one failed."""

import pathlib
import subprocess
import sys

sys.dont_write_bytecode = True
sys.path.insert(0, str(pathlib.Path(__file__).resolve().parent / "hostile"))

import frames  # noqa: E402
import wire  # noqa: E402

SHOWN = 5
SECONDS = 120
FRAMES = [bytes.fromhex(text) for text in (
    "00010000000162000000000131",
    "00010000000162010000000100000001660000000131",
    "0003000000016c02000000020000000161000000016100000001730300000002000000017800000001790000000174000000000131",
)]
STREAMS = [
    b"*1\r\n$4\r\nPING\r\n*0\r\n*-1\r\n*2\r\n$3\r\nGET\r\n$1\r\nb\r\n",
    b"*1\r\n$6\r\nASKING\r\n*3\r\n$3\r\nSET\r\n$1\r\nb\r\n$0\r\n\r\n*2\r\n$4\r\nTYPE\r\n$1\r\nb\r\n",
    b"*3\r\n$5\r\nRPUSH\r\n$1\r\nl\r\n$2\r\n\r\n\r\n*4\r\n$6\r\nLRANGE\r\n$1\r\nl\r\n$1\r\n0\r\n$2\r\n-1\r\n",
    b"*1025\r\n", b"*1024\r\n", b"*99999999999999999999\r\n", b"*" + b"9" * 23 + b"\r\n", b"*-0\r\n", b"*1\r\n+",
    b"*1\r\n$-1\r\n", b"*1\r\n$4\r\nPINGxx", b"*1\r\n$1048577\r\n", b"*1\r\n$1048576\r\n", b"*-9223372036854775809\r\n",
    b"*01\r\n", b"*+1\r\n", b"PING\r\n", b"*1\r\n$4\nPING\r\n", b"*" + b"1" * 21,
]
REPLIES = [
    b"+OK\r\n", b"-ERR no such key\r\n", b":-9223372036854775808\r\n", b":9223372036854775808\r\n", b"$0\r\n\r\n",
    b"$-1\r\n", b"*-1\r\n", b"*3\r\n*1\r\n:1\r\n$2\r\n\r\n\r\n+\r\n",
    b"*1\r\n" * 8 + b":1\r\n", b"*1\r\n" * 8 + b"*-1\r\n",
    b"+" + b"x" * 1024 + b"\r\n", b"+" + b"x" * 1025 + b"\r\n", b"+" + b"x" * 1024 + b"\n", b"*2097153\r\n", b"$-2\r\n",
    b"*-2\r\n", b"$1048577\r\n", b"!1\r\n", b":007\r\n",
]
MOST_DAMAGED = 80


def damaged(text):
    """Each text that one byte is away from this one, and each proper beginning."""
    yield text
    for place in range(len(text)):
        yield text[:place]
        yield text[:place] + text[place + 1:]
        for byte in range(256):
            yield text[:place] + bytes([byte]) + text[place + 1:]
    for place in range(len(text) + 1):
        for byte in b"\0\r\n$*-01:":
            yield text[:place] + bytes([byte]) + text[place:]


def inputs(texts):
    return list(dict.fromkeys(it for text in texts for it in (damaged(text) if len(text) <= MOST_DAMAGED else [text])))


def tried(probe, kind, texts, answer):
    """What was answered that is not right."""
    given = inputs(texts)
    lines = "".join(f"{text.hex()}\n" for text in given).encode()
    done = subprocess.run([probe, kind], input=lines, capture_output=True, timeout=SECONDS, check=True)
    answers = done.stdout.decode().split("\n")[:-1]
    wrong = [f"{kind} {text!r}: wanted {wanted!r}, answered {answered!r}"
             for text, wanted, answered in zip(given, map(answer, given), answers) if wanted != answered]
    if len(answers) != len(given):
        wrong.append(f"{kind}: {len(given)} inputs and {len(answers)} answers")
    print(f"{kind}: {len(given)} inputs, {len(wrong)} of them answered otherwise")
    return wrong


def main():
    if len(sys.argv) != 2:
        print("usage: tests/try_hostile_bytes.py PROBE", file=sys.stderr)
        return 2
    probe = sys.argv[1]
    results = [
        tried(probe, "frame", FRAMES, frames.answer),
        tried(probe, "requests", STREAMS, wire.requests_answer),
        tried(probe, "session", STREAMS, wire.session_answer),
        tried(probe, "reply", REPLIES, wire.reply_answer),
    ]
    failed = sum(map(bool, results))
    for wrong in results:
        print("\n".join(wrong[:SHOWN]), end="\n" if wrong else "")
    print(f"{len(results) - failed} passed, {failed} failed")
    return int(bool(failed))


if __name__ == "__main__":
    sys.exit(main())
