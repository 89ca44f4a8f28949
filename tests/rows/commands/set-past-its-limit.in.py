# A set of 1,048,576 members, and one member more than it may have.
from past_its_limit import script

print(*script("SADD", "SCARD", lambda i: f"e{i}", "more"), sep="\n")
