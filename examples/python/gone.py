"""Three disks of an EVENODD array (p 5) die, one more than it stands. How much is gone, and what would bring all of it back?

    pip install ./python
    python3 examples/python/gone.py
"""
from navorzim import Code, NoPlan

code = Code.evenodd(5)
lost = [0, 1, 2]
try:
    code.plan_disks(lost)
    raise SystemExit("wrong: three disks have a plan")
except NoPlan as why:
    print(f"of {len(lost) * code.rows} lost symbols {len(why.patterns)} are gone")
    for pattern, data_symbols in zip(why.patterns, why.data_symbols):
        print("  could be others together: data symbols", *data_symbols)
        # what survives doesn't show it
        assert all(symbol // code.rows in lost for symbol in code.shows_on(pattern))
    assert len(why.patterns) == 4

# row 0 of them alone: two of three symbols, since row parity has their XOR
row = [disk * code.rows for disk in lost]
gone = code.lost_patterns(lost, row)
assert len(gone) == 2
print(f"of the {len(row)} in row 0, {len(gone)} are gone")

# a copy of disk 0, as many symbols as are gone, would bring all of it back
plan = code.plan_disks([1, 2])
print(f"with disk 0 found again there is a plan for the others, from {plan.reads} symbols")
