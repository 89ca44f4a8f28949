# A hash of 1,048,576 fields, and one field more than it may have.
from past_its_limit import script

print(*script("HSET", "HLEN", lambda i: f"f{i} v", "more v"), sep="\n")
