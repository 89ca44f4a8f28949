"""The entries of a transfer frame in hexadecimal, by the frame's definition, or its first fault from the left."""

MOST = 1048576


class FrameFault(Exception):
    pass


class Bytes:
    """What is left to read."""

    def __init__(self, left):
        self.left = left

    def take(self, count):
        if len(self.left) < count:
            raise FrameFault("1 Truncated")
        taken, self.left = self.left[:count], self.left[count:]
        return taken

    def number(self, width, least, most):
        number = int.from_bytes(self.take(width), "big")
        if not least <= number <= most:
            raise FrameFault("3 BadLength")
        return number

    def piece(self):
        return self.take(self.number(4, 0, MOST))

    def new_piece(self, seen):
        piece = self.piece()
        if piece in seen:
            raise FrameFault("4 RepeatedKey")
        seen.add(piece)
        return piece


def pair(given, seen):
    return f"{given.new_piece(seen).hex()}={given.piece().hex()}"


# The three kinds that have parts, each with how a part is read.
PARTS = {
    1: ("hash", pair),
    2: ("list", lambda given, _: given.piece().hex()),
    3: ("set", lambda given, seen: given.new_piece(seen).hex()),
}


def body(given):
    kind = given.take(1)[0]
    if kind == 0:
        return f" text {given.piece().hex()}"
    if kind not in PARTS:
        raise FrameFault("2 BadKind")
    (name, part), seen = PARTS[kind], set()
    count = given.number(4, 1, MOST)
    return f" {name} " + "".join(f"{part(given, seen)}," for _ in range(count))


def answer(frame):
    given, keys = Bytes(frame), set()
    try:
        count = given.number(2, 1, 1000)
        entries = [f"{given.new_piece(keys).hex()}{body(given)};" for _ in range(count)]
    except FrameFault as fault:
        return str(fault)
    return "5 Trailing" if given.left else "".join(entries)
