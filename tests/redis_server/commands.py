"""Commands by chance, and their replies without an order that is a server's own."""

import random

LEAST, MOST = b"-9223372036854775808", b"9223372036854775807"
FIELDS = [b"field:%d" % number for number in range(6)] + [b"", b"\xff"]
TEXTS = [b"", b"0", b"1", b"-1", b"10", b"01", b"+1", b" 1", b"1 ", b"-0", b"text", b"\r\n", b"\x00", LEAST, MOST]
NUMBERS = [b"0", b"1", b"-1", b"2", b"-5", b"100", b"-100", b"", b"x", b"1.5", b"007", b"9223372036854775808"]
NUMBERS += [LEAST, MOST]

# Each command with its words: k is a key, t a text, f a field or member, n a number, and (..) stands for one to three.
FORMS = """GET k|SET k t|SETNX k t|MGET (k)|MSET (kt)|APPEND k t|STRLEN k|INCR k|DECR k|INCRBY k n|DECRBY k n|DEL (k)
EXISTS (k)|TYPE k|RENAME k k|HSET k (ft)|HGET k f|HDEL k (f)|HLEN k|HEXISTS k f|HGETALL k|LPUSH k (t)|RPUSH k (t)|LPOP k
RPOP k|LLEN k|LRANGE k n n|SADD k (f)|SREM k (f)|SISMEMBER k f|SCARD k|SMEMBERS k|SMOVE k k f|PING|PING t
CLUSTER KEYSLOT k""".replace("\n", "|").split("|")
# A word more is an option of Redis's own, and MSET's keys are looked at by Redis before its words are counted.
AS_THEY_ARE = (b"SET", b"LPOP", b"RPOP", b"MSET")


class Commands:
    """Commands whose keys are most often of the first list, and as often miscounted as is said."""

    def __init__(self, seed, keys, other_keys, miscounted):
        self.random, self.keys, self.other_keys, self.miscounted = random.Random(seed), keys, other_keys, miscounted
        self.draws = {"k": self.key, "t": self.text, "f": lambda: self.of(FIELDS), "n": lambda: self.of(NUMBERS)}

    def of(self, words):
        return self.random.choice(words)

    def key(self):
        return self.of(self.other_keys if self.random.random() < 0.1 else self.keys)

    def text(self):
        return self.of(TEXTS) if self.random.random() < 0.7 else b"%d" % self.random.randint(-50, 50)

    def words(self):
        words = []
        for form in self.of(FORMS).split():
            if form[0] == "(":
                words += [self.draws[kind]() for _ in range(self.random.randint(1, 3)) for kind in form[1:-1]]
            else:
                words.append(self.draws[form]() if form in self.draws else form.encode())
        return words

    def next(self):
        words, chance = self.words(), self.random.random()
        if chance < 0.02:
            words = [words[0].lower(), *words[1:]]
        elif chance < 0.02 + self.miscounted and words[0] not in AS_THEY_ARE:
            is_short = chance < 0.02 + self.miscounted / 2 and len(words) > 1
            words = words[:-1] if is_short else [*words, self.text()]
        return self.next() if words[0].upper() == b"DECRBY" and LEAST in words else words


def in_no_order(name, parts):
    """The parts of what a set, a hash or a slot lists, in an order of their own."""
    if name in (b"SMEMBERS", b"GETKEYSINSLOT"):
        return sorted(parts)
    if name == b"HGETALL":
        return sorted(zip(parts[::2], parts[1::2]))
    return parts
