"""What clients of a cluster ask beside commands on keys: each question with what is compared of its answer."""

from answers import command_rows, documents, exact, hello, node_lines, shape, shards, state

LONG = b"x" * 300


def each(form, texts):
    """Questions of one form. A word `""` is the empty one, and `_` within a word a space."""
    return [(form, [unspaced(word) for word in text.split(" ")]) for text in texts.strip().split("\n")]


def unspaced(word):
    return b"" if word == '""' else word.replace("_", " ").encode()


CONNECTION = """ECHO text
ECHO ""
ECHO
ECHO a b
echo Text
SELECT 0
SELECT 1
SELECT -1
SELECT x
SELECT
SELECT 0 0
SELECT ""
READONLY
READONLY x
READWRITE
READWRITE x
AUTH secret
AUTH default secret
AUTH somebody secret
AUTH
AUTH a b c"""

CLIENT = """CLIENT GETNAME
CLIENT SETNAME name
CLIENT GETNAME
CLIENT SETNAME two_words
CLIENT SETNAME ""
CLIENT GETNAME
CLIENT SETNAME
CLIENT SETNAME a b
CLIENT GETNAME x
CLIENT ID x
CLIENT SETINFO lib-name redis-py
client setinfo LIB-VER 5.0
CLIENT FOO
CLIENT foo bar
CLIENT ""
CLIENT"""

CLUSTER = """CLUSTER COUNTKEYSINSLOT 0
CLUSTER COUNTKEYSINSLOT 1500
CLUSTER COUNTKEYSINSLOT 3
cluster countkeysinslot 16383
CLUSTER COUNTKEYSINSLOT 16384
CLUSTER COUNTKEYSINSLOT -1
CLUSTER COUNTKEYSINSLOT x
CLUSTER COUNTKEYSINSLOT
CLUSTER COUNTKEYSINSLOT 1 2
CLUSTER MYID
CLUSTER MYID x
CLUSTER NODES x
CLUSTER SHARDS x
CLUSTER INFO x
CLUSTER FOO
CLUSTER foo bar
CLUSTER ""
CLUSTER"""

CONFIG = """CONFIG GET save
CONFIG GET appendonly
CONFIG GET SAVE
CONFIG GET no-such-parameter
CONFIG GET
CONFIG FOO
CONFIG foo bar
CONFIG"""

COMMAND = """COMMAND FOO
COMMAND foo bar
COMMAND COUNT x
COMMAND INFO no-such-command"""

COMMAND_ROWS = """COMMAND INFO get set del mget mset exists rename smove lpush hset incrby
COMMAND INFO GET no-such-command ping
COMMAND INFO append decr decrby hdel hexists hget hgetall hlen incr llen lpop lrange rpop rpush sadd scard
COMMAND INFO setnx sismember smembers srem strlen type
COMMAND INFO hello info command cluster client config select echo readonly readwrite auth asking"""

HELLO = """HELLO
HELLO 2
hello 2
HELLO 2 SETNAME somebody
CLIENT GETNAME
HELLO 2 SETNAME two_words
HELLO 2 AUTH default secret
HELLO 2 AUTH somebody secret
HELLO 2 AUTH default
HELLO 2 FOO
HELLO 2 SETNAME
HELLO 1
HELLO 4
HELLO x
HELLO """ + '""'

QUESTIONS = [
    *each(exact, CONNECTION), *each(exact, CLIENT), *each(exact, CLUSTER), *each(exact, CONFIG), *each(exact, COMMAND),
    *each(command_rows, COMMAND_ROWS), *each(hello, HELLO),
    *((exact, [name, LONG]) for name in (b"CLIENT", b"CLUSTER", b"CONFIG", b"COMMAND", b"HELLO")),
    *each(node_lines, "CLUSTER NODES\ncluster nodes"), *each(shards, "CLUSTER SHARDS"), *each(state, "CLUSTER INFO"),
    *each(shape, "CLIENT ID\nCOMMAND COUNT"), *each(documents, "COMMAND DOCS get\nCOMMAND DOCS GET mset ping"),
    *each(exact, "COMMAND DOCS no-such-command"),
]
# They end the connection.
LAST_QUESTIONS = each(exact, "QUIT\nquit\nQUIT x")
# Whose fields are compared where the program has them.
FIELDS = [[b"INFO"], [b"INFO", b"server"], [b"INFO", b"Cluster"], [b"INFO", b"replication", b"persistence"]]
