"""A disk of a row-diagonal array (p 5) dies and is rebuilt, then two; then its plan, under another layout, is turned away.

    pip install ./python
    python3 examples/python/rebuild.py
"""
import os

from navorzim import Code, Refused

L = 512
code = Code.row_diagonal(5)
data = os.urandom(code.data_symbols * L)
stripe = code.encode(L, data)
whole = bytes(stripe)

code.strip(0, L, stripe)[:] = bytes(code.rows * L)  # disk 0 is gone
plan = code.plan(0)
code.rebuild(0, plan, L, stripe)
assert stripe == whole
print(f"disk 0 is back, from {plan.reads} symbols")

for disk in (0, 3):
    code.strip(disk, L, stripe)[:] = bytes(code.rows * L)
both = code.plan_disks([0, 3])
code.rebuild([0, 3], both, L, stripe)
assert stripe == whole
print(f"disks 0 and 3 are back, from {both.reads} symbols")

# the same shape, with the rows of P and Q on each other's disks
rows = code.sheet[6:]
other = Code(code.sheet[:6] + rows[:-64] + rows[-32:] + rows[-64:-32])
try:
    other.rebuild(0, plan, L, stripe)
    raise SystemExit("wrong: another layout takes the plan")
except Refused as refused:
    assert refused.number == 21 and stripe == whole
    print(f"under another layout: {refused}")
