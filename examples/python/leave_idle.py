"""With stock to spare, leave the dear units in the box. It prints what leave_idle.txt holds."""

import placer

costs, lots, calls = [[3, 5], [1, 2]], [3, 4], [3, 2]  # lot 0 is the dear one
for idle in (False, True):
    placing = placer.place(costs, lots, calls, idle=idle)
    left = [has - sum(row) for has, row in zip(lots, placing.flow)]
    print("with an idle call:" if idle else "plainly:", placing.verdict.name.lower(), placing.units, placing.cost, "left", *left)

try:  # this book has an order, and with an idle call it has none: place it plainly, or by a flow solver
    placer.place([[None, 1], [0, 0], [1, None]], [1, 1, 1], [1, 1], idle=True)
except placer.Refused as refused:
    print(refused)
