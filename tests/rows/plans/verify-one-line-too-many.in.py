# One line more than a plan may have.
from every_slot import plan

print(plan(200_001))
