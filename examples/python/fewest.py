"""A disk of the square code dies. Planning's plan reads 4 symbols; one with the fewest reads 3, and brings the disk back too. Of a large array
the fewest isn't looked for.

    pip install ./python
    python3 examples/python/fewest.py
"""
from navorzim import Code, Refused

# the data disks a b and c d, then a + c and b + d, then a + d and b + c, where + is XOR
rows = (1, 2, 4, 8, 5, 10, 9, 6)
code = Code(bytes([4, 1, 4, 2, 4, 8]) + b"".join(row.to_bytes(8, "little") for row in rows))
plan = code.plan_disks([0])
print(f"disk 0 of the square code: planning's plan reads {plan.reads} symbols")

fewest = code.plan_fewest([0])
assert fewest.reads == 3 < plan.reads
sources = {step.source for step in fewest.steps if step.kind != 0 and step.source >= code.rows}
print(f"no plan reads fewer than {fewest.reads}, and this one reads", *sorted(sources))

# it is a plan like any other
stripe = code.encode(1, b"\x11\x22\x44\x88")
whole = bytes(stripe)
stripe[: code.rows] = b"??"
code.rebuild([0], fewest, 1, stripe)
assert stripe == whole

# 56 symbols survive: refused, and planning for these disks is left
large = Code.liberation(7, 7)
try:
    large.plan_fewest([0])
    raise SystemExit("wrong: a large array is taken")
except Refused as refused:
    assert (refused.number, refused.place) == (41, 56)
    print("Liberation, w 7, k 7:", refused)
assert large.plan_disks([0]).reads > 0
