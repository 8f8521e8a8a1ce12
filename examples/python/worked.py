# A worked run in cells, as a notebook has them. It prints examples/python/worked.out.
#
#     python3 examples/python/worked.py examples/builtin.toml

# %% Open a board from a setup.
import sys

import nms

with open(sys.argv[1], "rb") as file:
    board = nms.Board(file.read())


def dollars(price: int) -> str:
    """A price of 1/10,000 dollars as dollars."""
    return f"{price // 10_000}.{price % 10_000:04}"


# %% A morning of one symbol: each change, and the best bid and offer after it.
CHANGES = [
    "Q,N,ABC,A,9.99,200,10.00,300",
    "Q,P,ABC,A,9.98,700,10.00,500",
    "Q,Y,ABC,M,10.00,100,10.01,200",
    "S,N,ABC,H",
    "Q,Z,ABC,A,9.99,400,9.99,100",
    "S,N,ABC,A",
]
for change in CHANGES:
    board.apply_text(change)
    best = board.best("ABC")
    sides = [f"{it.part} {dollars(it.price)} x {it.size}" if it else "none" for it in (best.bid, best.offer)]
    print(f"{best.version} {change:34} {best.market.name:10} bid {sides[0]:18} offer {sides[1]}")

# %% What does it cost to buy more and more?
print("\nshares filled  cost in dollars   legs")
for shares in (100, 400, 900, 1200):
    plan = board.plan(nms.Order(nms.OrderSide.BUY, "ABC", shares, 100_100))
    legs = ", ".join(f"{it.shares} {it.part} {dollars(it.price)}" for it in plan.legs)
    print(f"{shares:6} {plan.filled:6} {plan.cost // 10**9:7}.{plan.cost % 10**9:09}  {legs}")
    assert board.confirm(plan) is None

# %% The same order under self-help against P, and with manual quotations.
for what, order in {
    "not to P": nms.Order(nms.OrderSide.BUY, "ABC", 600, 100_100, self_help=("P",)),
    "manual too": nms.Order(nms.OrderSide.BUY, "ABC", 600, 100_100, manual=True),
}.items():
    print(f"\n{what}")
    print(board.text(board.plan(order)), end="")

# %% A plan goes as text to the one who checks it. One that was altered, or that is of an older version, is doubted.
plan = board.plan(nms.Order(nms.OrderSide.BUY, "ABC", 600, 100_100))
text = board.text(plan)
print("\nread back:", board.confirm(board.read(text)))
leg = f"{plan.legs[0].part},{dollars(plan.legs[0].price)}"
print("fewer shares:", board.confirm(board.read(text.replace(f"LEG,{leg},{plan.legs[0].shares}", f"LEG,{leg},0"))) is not None)
board.apply_text("Q,Z,ABC,A,9.98,400,,")
print("after one more change:", board.confirm(plan) is not None)

# %% Every mistake is an NmsError with its code, and alters nothing.
before = board.applied()
for what, call in {
    "no such symbol": lambda: board.best("XYZ"),
    "half a side": lambda: board.apply_text("Q,N,ABC,A,9.99,,10.00,300"),
    "no shares": lambda: board.plan(nms.Order(nms.OrderSide.BUY, "ABC", 0, 100_100)),
    "no plan": lambda: board.read("PLAN\n"),
    "no setup": lambda: nms.Board(b"tape_limit = 1"),
}.items():
    try:
        call()
    except nms.NmsError as error:
        print(f"{what}: code {error.code}")
print("applied:", board.applied() - before, "more")
board.close()

# %% A setup that is refused: where it is wrong.
with open(sys.argv[1], "rb") as file:
    setup = file.read()
print("\nthe setup:", nms.setup_place(setup))
for wrong in (setup.replace(b'name = "PNY"', b'name = "ABC"'), setup.replace(b"queue", b"que")):
    print(nms.setup_place(wrong))
wrong = b"tape_limit = 1\nname = N\n"
place = nms.setup_place(wrong)
print(f"{place.table}: code {place.code}, line", wrong[:place.start].count(b"\n") + 1)
