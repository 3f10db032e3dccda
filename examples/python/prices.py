"""A disk of a Liberation array (w 5, k 5) dies. With all others idle at the same price its plan costs 19; then P, disk 5, is busy, and another
plan leaves it alone; then P is away, and that plan brings the disk back without it.

    pip install ./python
    python3 examples/python/prices.py
"""
import os

from navorzim import Away, Busy, Code, Idle, PricedPlan, Refused

L, P = 16, 5
code = Code.liberation(5, 5)
ordinary = code.plan_disks([0])
print(f"disk 0 is lost, and planning's plan reads {ordinary.reads} symbols")
states = [Idle(1) for _ in range(code.disks)]


def planned(how: str) -> PricedPlan:
    plan = code.plan_priced([0], states)
    of_p = {step.source for step in plan.steps if step.kind != 0 and step.source // code.rows == P}
    print(f"{how}: the plan reads {plan.reads} symbols, {len(of_p)} of them on disk {P}, for {plan.sum:g}")
    assert plan.settled and (not of_p) == (states[P] != Idle(1))
    return plan


idle = planned("all disks idle at 1")
assert idle.sum <= ordinary.reads
states[P] = Busy(1, 10)
assert planned("disk 5 busy at factor 10").sum >= idle.sum
states[P] = Away()
plan = planned("disk 5 away")

# the plan is for disks 0 and 5, and wants disk 0 alone: what there is of P stays
assert plan.disks == (0, P) and plan.wanted == tuple(range(code.rows))
stripe = code.encode(L, os.urandom(code.data_symbols * L))
code.strip(P, L, stripe)[:] = bytes(code.rows * L)
whole = bytes(stripe)
code.strip(0, L, stripe)[:] = bytes(code.rows * L)
code.rebuild(plan.disks, plan, L, stripe)
assert stripe == whole
print(f"disk 0 is back, without disk {P}")

# what is no price is refused, and the disk is named
states[P] = Idle(-1)
try:
    code.plan_priced([0], states)
    raise SystemExit("wrong: a price below 0 is taken")
except Refused as refused:
    assert (refused.number, refused.place) == (42, P)
    print(refused)
