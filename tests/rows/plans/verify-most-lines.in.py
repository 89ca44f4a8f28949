# As many lines as a plan may have.
from every_slot import plan

print(plan(200_000))
