"""Hash slots, hash tags and the even split (Redis Cluster specification, "Key distribution model", "Hash tags")."""

import functools

SLOTS = 16384


def crc16(text):
    """CRC16 in its XMODEM form, a bit at a time."""
    crc = 0
    for byte in text:
        crc ^= byte << 8
        for _ in range(8):
            crc = (crc << 1 ^ 0x1021 if crc & 0x8000 else crc << 1) & 0xFFFF
    return crc


def tag_of(key):
    """What stands between the first `{` and the first `}` after it, or the key where that is nothing."""
    _, opened, rest = key.partition(b"{")
    tag, closed, _ = rest.partition(b"}")
    return tag if opened and closed and tag else key


@functools.cache
def slot_of(key):
    return crc16(tag_of(key)) % SLOTS


@functools.cache
def even_split(nodes):
    """The owner of each slot, where so many nodes share the slots evenly."""
    starts = [(SLOTS * node + nodes // 2) // nodes for node in range(nodes + 1)]
    return [node for node in range(nodes) for _ in range(starts[node], starts[node + 1])]


def runs(slots):
    """The first slot and the last of each run of adjacent ones, of slots in ascending order."""
    found = []
    for slot in slots:
        if found and found[-1][1] == slot - 1:
            found[-1][1] = slot
        else:
            found.append([slot, slot])
    return found
