"""The script that fills a collection to its limit, adds one element, and asks for the number of elements."""

LIMIT = 1_048_576
WORDS_A_LINE = 512


def script(push, count, element, more):
    """The lines: by `add`, then `count`, from the words of element i and of one element more."""
    step = WORDS_A_LINE // len(more.split())
    yield "cluster 1"
    for first in range(0, LIMIT, step):
        yield " ".join([f"at n0 {push} b", *map(element, range(first, first + step))])
    yield f"at n0 {push} b {more}"
    yield f"at n0 {count} b"
