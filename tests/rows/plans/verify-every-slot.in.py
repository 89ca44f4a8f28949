# A whole move of every slot, one command a line.
from every_slot import plan

print(plan(180_224))
