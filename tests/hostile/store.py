"""The 33 commands on a store, a dict from key to value: bytes for a text, a dict for a hash, a list, and a Members for
a set, whose order is that of insertion. A reply is its mark and what it carries; None for a missing bulk."""

import re

OK = ("+", b"OK")
NULL = ("$", None)
WRONG_TYPE = ("-", b"WRONGTYPE Operation against a key holding the wrong kind of value")
NOT_INTEGER = ("-", b"ERR value is not an integer or out of range")
OVERFLOW = ("-", b"ERR increment or decrement would overflow")
NO_KEY = ("-", b"ERR no such key")
TEXT_LIMIT = ("-", b"ERR string exceeds the limit of 1048576 bytes")
LEAST, MOST, LIMIT = -2**63, 2**63 - 1, 1048576


class Refusal(Exception):
    """An error that answers a command, which then changes nothing."""


class Members(dict):
    """A set: its members are the keys, in order of insertion."""


def number(text):
    if not re.fullmatch(rb"0|-?[1-9][0-9]*", text) or not LEAST <= int(text) <= MOST:
        raise Refusal(NOT_INTEGER)
    return int(text)


def found(store, key, kind):
    """The value at the key, an empty one of the kind where it is missing, or a refusal where it is of another kind."""
    value = store.get(key, kind())
    if type(value) is not kind:
        raise Refusal(WRONG_TYPE)
    return value


def put(store, key, value):
    """The value stands at the key; an empty collection goes with its key."""
    if value or isinstance(value, bytes):
        store[key] = value
    else:
        store.pop(key, None)


def bulks(texts):
    return "*", [("$", text) for text in texts]


def added(store, key, more):
    text = found(store, key, bytes) if key in store else b"0"
    total = number(text) + more
    if not LEAST <= total <= MOST:
        raise Refusal(OVERFLOW)
    store[key] = b"%d" % total
    return ":", total


def decrby(store, key, text):
    less = number(text)
    if less == LEAST:
        raise Refusal(OVERFLOW)
    return added(store, key, -less)


def mget(store, *keys):
    return bulks(value if isinstance(value := store.get(key), bytes) else None for key in keys)


def mset(store, *words):
    store.update(zip(words[::2], words[1::2]))
    return OK


def append(store, key, more):
    text = found(store, key, bytes) + more
    if len(text) > LIMIT:
        raise Refusal(TEXT_LIMIT)
    store[key] = text
    return ":", len(text)


def set_text(store, key, text):
    store[key] = text
    return OK


def setnx(store, key, text):
    is_new = key not in store
    store.setdefault(key, text)
    return ":", int(is_new)


def get(store, key):
    return "$", found(store, key, bytes) if key in store else None


def delete(store, *keys):
    return ":", sum(store.pop(key, None) is not None for key in keys)


def kind(store, key):
    names = {bytes: b"string", dict: b"hash", list: b"list", Members: b"set", type(None): b"none"}
    return "+", names[type(store.get(key))]


def rename(store, key, other):
    if key not in store:
        raise Refusal(NO_KEY)
    store[other] = store.pop(key)
    return OK


def hset(store, key, *words):
    fields = dict(found(store, key, dict))
    before = len(fields)
    fields.update(zip(words[::2], words[1::2]))
    put(store, key, fields)
    return ":", len(fields) - before


def removed(store, key, kind, names):
    value = found(store, key, kind)
    kept = kind({name: value[name] for name in value if name not in names})
    put(store, key, kept)
    return ":", len(value) - len(kept)


def push(store, key, elements, at_front):
    items = found(store, key, list)
    items = elements[::-1] + items if at_front else items + elements
    put(store, key, items)
    return ":", len(items)


def pop(store, key, place):
    items = list(found(store, key, list))
    if not items:
        return NULL
    element = items.pop(place)
    put(store, key, items)
    return "$", element


def lrange(store, key, start, stop):
    start, stop = number(start), number(stop)
    items = found(store, key, list)
    start = max(0, start + len(items) if start < 0 else start)
    stop = stop + len(items) if stop < 0 else stop
    return bulks(items[start:max(0, stop + 1)])


def sadd(store, key, *members):
    value = Members(found(store, key, Members))
    before = len(value)
    value.update(dict.fromkeys(members))
    put(store, key, value)
    return ":", len(value) - before


def smove(store, key, other, member):
    if key not in store:
        return ":", 0
    source, target = found(store, key, Members), found(store, other, Members)
    if member not in source:
        return ":", 0
    if key != other:
        put(store, other, Members({**target, member: None}))
        put(store, key, Members({it: None for it in source if it != member}))
    return ":", 1


def flat(pairs):
    return [word for pair in pairs for word in pair]


FIRST, ALL, EVERY_OTHER, FIRST_TWO = (lambda words: words[:1], lambda words: words, lambda words: words[::2],
                                      lambda words: words[:2])
# name: least and most words after it, the words that are keys, what it does
TABLE = {
    b"get": (1, 1, FIRST, get),
    b"set": (2, 2, FIRST, set_text),
    b"setnx": (2, 2, FIRST, setnx),
    b"mget": (1, None, ALL, mget),
    b"mset": (2, None, EVERY_OTHER, mset),
    b"append": (2, 2, FIRST, append),
    b"strlen": (1, 1, FIRST, lambda store, key: (":", len(found(store, key, bytes)))),
    b"incr": (1, 1, FIRST, lambda store, key: added(store, key, 1)),
    b"decr": (1, 1, FIRST, lambda store, key: added(store, key, -1)),
    b"incrby": (2, 2, FIRST, lambda store, key, more: added(store, key, number(more))),
    b"decrby": (2, 2, FIRST, decrby),
    b"del": (1, None, ALL, delete),
    b"exists": (1, None, ALL, lambda store, *keys: (":", sum(key in store for key in keys))),
    b"type": (1, 1, FIRST, kind),
    b"rename": (2, 2, FIRST_TWO, rename),
    b"hset": (3, None, FIRST, hset),
    b"hget": (2, 2, FIRST, lambda store, key, name: ("$", found(store, key, dict).get(name))),
    b"hdel": (2, None, FIRST, lambda store, key, *names: removed(store, key, dict, names)),
    b"hlen": (1, 1, FIRST, lambda store, key: (":", len(found(store, key, dict)))),
    b"hexists": (2, 2, FIRST, lambda store, key, name: (":", int(name in found(store, key, dict)))),
    b"hgetall": (1, 1, FIRST, lambda store, key: bulks(flat(found(store, key, dict).items()))),
    b"lpush": (2, None, FIRST, lambda store, key, *elements: push(store, key, list(elements), True)),
    b"rpush": (2, None, FIRST, lambda store, key, *elements: push(store, key, list(elements), False)),
    b"lpop": (1, 1, FIRST, lambda store, key: pop(store, key, 0)),
    b"rpop": (1, 1, FIRST, lambda store, key: pop(store, key, -1)),
    b"llen": (1, 1, FIRST, lambda store, key: (":", len(found(store, key, list)))),
    b"lrange": (3, 3, FIRST, lrange),
    b"sadd": (2, None, FIRST, sadd),
    b"srem": (2, None, FIRST, lambda store, key, *members: removed(store, key, Members, members)),
    b"sismember": (2, 2, FIRST, lambda store, key, member: (":", int(member in found(store, key, Members)))),
    b"scard": (1, 1, FIRST, lambda store, key: (":", len(found(store, key, Members)))),
    b"smembers": (1, 1, FIRST, lambda store, key: bulks(found(store, key, Members))),
    b"smove": (3, 3, FIRST_TWO, smove),
}


def is_counted(name, words):
    """Whether the command may have so many words after its name."""
    least, most, _, _ = TABLE[name]
    is_paired = (name != b"mset" or len(words) % 2 == 0) and (name != b"hset" or len(words) % 2 == 1)
    return least <= len(words) and (most is None or len(words) <= most) and is_paired


def keys_of(name, words):
    return list(TABLE[name][2](words))


def apply(store, name, words):
    """The reply, with the store changed; a refusal changes nothing."""
    try:
        return TABLE[name][3](store, *words)
    except Refusal as refusal:
        return refusal.args[0]
