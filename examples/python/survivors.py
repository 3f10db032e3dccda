"""A disk of a Liberation array (w 5, k 5) dies. Before it is rebuilt, the survivors are tested: a damaged byte is found, and its column named.

    pip install ./python
    python3 examples/python/survivors.py
"""
import os

from navorzim import Code, Unsound

L, LOST, DAMAGED, COLUMN = 512, 2, 17, 300
code = Code.liberation(5, 5)
stripe = code.encode(L, os.urandom(code.data_symbols * L))
whole = bytes(stripe)

# the disk is gone: what its strip holds doesn't matter
code.strip(LOST, L, stripe)[:] = bytes(code.rows * L)
code.test_survivors(LOST, L, stripe)
print(f"disk {LOST} is lost, and the survivors are sound")

# a byte of a survivor rots
stripe[DAMAGED * L + COLUMN] ^= 0x10
try:
    code.test_survivors(LOST, L, stripe)
    raise SystemExit("wrong: a damaged byte isn't found")
except Unsound as why:
    assert why.column == COLUMN
    print(f"a survivor is damaged in byte {why.column} of its symbol: no rebuild from these")
equations = code.equations(LOST)
print(f"{len(equations)} equations; symbol {DAMAGED} stands in")
for equation in equations:
    if DAMAGED in equation:
        print("  0 = the XOR of symbols", *equation)

# whole again, and rebuilt
stripe[DAMAGED * L + COLUMN] ^= 0x10
code.test_survivors(LOST, L, stripe)
code.rebuild(LOST, code.plan(LOST), L, stripe)
assert stripe == whole
print(f"sound again, and disk {LOST} is back")
