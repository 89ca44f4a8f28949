"""Counts with redis-py's RedisCluster (Debian's package python3-redis).

usage: python3 redis_py.py PORT SECONDS

A line `ready` is printed, and the cluster asked at PORT until it answers. Then 1 is added to each of 200 keys, round
after round, for so many seconds, and each reply is compared with the round. The last line tells how many rounds there
were, how many replies were wrong, and what the keys hold at the end, all together."""

import sys
import time

from redis.cluster import RedisCluster
from redis.exceptions import RedisClusterException, RedisError

KEYS = [f"count:{number}" for number in range(100)] + [f"{{counts}}:{number}" for number in range(100)]


def cluster(port):
    while True:
        try:
            return RedisCluster(host="127.0.0.1", port=port)
        except (RedisError, RedisClusterException):
            time.sleep(0.002)


def count(client, seconds):
    rounds = wrong = 0
    end = time.monotonic() + seconds
    while time.monotonic() < end:
        rounds += 1
        wrong += sum(client.incr(key) != rounds for key in KEYS)
    return rounds, wrong, sum(int(client.get(key)) for key in KEYS)


print("ready", flush=True)
rounds, wrong, held = count(cluster(int(sys.argv[1])), float(sys.argv[2]))
print(f"{rounds} rounds, {wrong} wrong, {held} held")
