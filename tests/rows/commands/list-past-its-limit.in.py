# A list of 1,048,576 elements, and one element more than it may have.
from past_its_limit import script

print(*script("RPUSH", "LLEN", lambda i: f"e{i}", "more"), sep="\n")
