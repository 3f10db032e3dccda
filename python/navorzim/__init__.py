"""Plans, checks and rebuilds for small disk arrays that are coded with XOR, by a library that is proved.

A disk of an array is lost, and comes back:

>>> from navorzim import Code
>>> code = Code.liberation(5, 5)
>>> code
Code(7 disks of 5 rows, 25 data symbols)
>>> stripe = code.encode(2, b"A key that was revoked at noon is revoked at four.")
>>> bytes(code.strip(0, 2, stripe))
b'A key that'
>>> stripe[:10] = b"??????????"
>>> plan = code.plan(0)
>>> plan
Plan(disk 0, 25 steps, reads 25 symbols)
>>> code.rebuild(0, plan, 2, stripe)
>>> bytes(code.strip(0, 2, stripe))
b'A key that'

A code has n disks of r symbols and K data symbols; a symbol is `size` bytes. Bytes are lent to the library where they lie: a stripe is
never copied. A call that refuses its input raises `Refused`, with the number and the place that the rules have for it, and has changed no
byte. What is of another type, or can't be written where that is needed, is a TypeError. Calls on different bytes may run in threads at once.
"""
from .code import Code
from .library import Readable, Writable
from .plans import Plan, Step
from .prices import Away, Busy, Idle, PricedPlan, State
from .refusals import NoPlan, Refused, Unsound

__version__ = "0.2.3"
__all__ = ["Away", "Busy", "Code", "Idle", "NoPlan", "Plan", "PricedPlan", "Readable", "Refused", "State", "Step", "Unsound", "Writable"]
