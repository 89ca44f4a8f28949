"""RESP2 by its definition, a byte at a time: the requests of a stream, a reply at its front, a session's replies."""

import re

import scripts
from cluster import Cluster
from hash_slots import even_split

MOST_WORDS, MOST_BYTES, MOST_ELEMENTS, MOST_TEXT, MOST_DEPTH, HEADER = 1024, 1048576, 2097152, 1024, 8, 21
NUMBER = re.compile(rb"0|-?[1-9][0-9]*")


class Unfinished(Exception):
    """The bytes end before what they begin."""


class WireFault(Exception):
    """The number and name of the fault."""


def header(bytes_, at, fault):
    """The number of a header line after its mark, and where the line ends."""
    end = bytes_.find(b"\r", at, at + HEADER)
    if end < 0:
        raise WireFault(fault) if len(bytes_) - at >= HEADER else Unfinished
    if end + 1 == len(bytes_):
        raise Unfinished
    if bytes_[end + 1] != ord("\n"):
        raise WireFault("6 MissingCrLf")
    if not NUMBER.fullmatch(bytes_[at:end]):
        raise WireFault(fault)
    return int(bytes_[at:end]), end + 2


def bulk(bytes_, at, length):
    """The bytes of a bulk string, and where it ends. Its CR LF is read byte by byte."""
    for place, byte in enumerate(b"\r\n", at + length):
        if place >= len(bytes_):
            raise Unfinished
        if bytes_[place] != byte:
            raise WireFault("6 MissingCrLf")
    return bytes_[at:at + length], at + length + 2


def marked(bytes_, at, mark, fault):
    if at == len(bytes_):
        raise Unfinished
    if bytes_[at] != ord(mark):
        raise WireFault(fault)
    return at + 1


def request(bytes_, at):
    """The words of the request at this place, and where it ends."""
    count, at = header(bytes_, marked(bytes_, at, "*", "1 NotArray"), "2 BadCount")
    if count > MOST_WORDS:
        raise WireFault("5 TooLarge")
    words = []
    for _ in range(count):
        length, at = header(bytes_, marked(bytes_, at, "$", "3 NotBulk"), "4 BadLength")
        if not 0 <= length <= MOST_BYTES:
            raise WireFault("4 BadLength" if length < 0 else "5 TooLarge")
        word, at = bulk(bytes_, at, length)
        words.append(word)
    return words, at


def requests(bytes_):
    """The requests that are whole and not empty, and then the fault, or what the stream's end is: Cut or Closed."""
    found, at = [], 0
    try:
        while at < len(bytes_):
            words, at = request(bytes_, at)
            found += [words] if words else []
    except WireFault as fault:
        return found, fault
    except Unfinished:
        return found, "Cut"
    return found, "Closed"


def requests_answer(bytes_):
    found, end = requests(bytes_)
    given = ["".join(f",{word.hex()}" for word in words) for words in found]
    return "".join(f"{words} " for words in given) + (str(end) if isinstance(end, WireFault) else "")


def text_end(bytes_, at):
    for place in range(at, len(bytes_)):
        if bytes_[place] == ord("\r"):
            if place + 1 == len(bytes_):
                raise Unfinished
            if bytes_[place + 1] != ord("\n"):
                raise WireFault("6 MissingCrLf")
            return place + 2
        if bytes_[place] == ord("\n"):
            raise WireFault("6 MissingCrLf")
        if place - at == MOST_TEXT:
            raise WireFault("5 TooLarge")
    raise Unfinished


def reply_end(bytes_, at, depth):
    """Where the reply at this place ends, inside so many arrays."""
    if at == len(bytes_):
        raise Unfinished
    mark, at = bytes_[at:at + 1], at + 1
    if mark in b"+-":
        return text_end(bytes_, at)
    if mark == b":":
        number, at = header(bytes_, at, "2 BadCount")
        if not -2**63 <= number < 2**63:
            raise WireFault("2 BadCount")
        return at
    if mark == b"$":
        length, at = header(bytes_, at, "4 BadLength")
        if length < -1 or length > MOST_BYTES:
            raise WireFault("4 BadLength" if length < 0 else "5 TooLarge")
        return at if length < 0 else bulk(bytes_, at, length)[1]
    if mark != b"*":
        raise WireFault("8 BadMark")
    if depth == MOST_DEPTH:
        raise WireFault("5 TooLarge")
    count, at = header(bytes_, at, "2 BadCount")
    if count < -1 or count > MOST_ELEMENTS:
        raise WireFault("2 BadCount" if count < 0 else "5 TooLarge")
    for _ in range(count):
        at = reply_end(bytes_, at, depth + 1)
    return at


def reply_answer(bytes_):
    try:
        end = reply_end(bytes_, 0, 0)
        return f"{end} bytes {bytes_[:end].hex()}"
    except WireFault as fault:
        return str(fault)
    except Unfinished:
        return "unfinished"


def encoded(reply):
    mark, carried = reply
    if mark == "*":
        return b"*%d\r\n" % len(carried) + b"".join(map(encoded, carried))
    if mark == "$":
        return b"$-1\r\n" if carried is None else b"$%d\r\n%s\r\n" % (len(carried), carried)
    return b"%s%s\r\n" % (mark.encode(), b"%d" % carried if mark == ":" else carried)


def session_answer(bytes_):
    """How a session at a cluster of one node ends, how many bytes it wrote, and these."""
    found, end = requests(bytes_)
    rehearsal, asking, written = scripts.Rehearsal(Cluster(1, even_split(1))), False, b""
    for words in found:
        is_asking = words[0].lower() == b"asking"
        if is_asking:
            reply = scripts.store.OK if len(words) == 1 else scripts.wrong_count(b"asking")
        else:
            reply = rehearsal.answer(0, asking, words)
        asking = is_asking and len(words) == 1
        written += encoded(reply)
    if isinstance(end, WireFault):
        written += b"-ERR Protocol error: %s\r\n" % str(end).encode()
        end = f"Protocol({str(end)[2:]})"
    return f"{end} {len(written)} {written.hex()}"
