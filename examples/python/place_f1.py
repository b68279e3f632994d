"""Place F1 of document 01. It prints what place_f1.txt holds."""

import placer

costs = [[1, 2], [3, 5]]  # costs[lot][call], None where not eligible
order = placer.find_order(placer.book_bytes(costs))
print("order:", *(f"{lot}{call}" for lot, call in placer.order_pairs(order)))

placing = placer.place(costs, lots=[5, 4], calls=[3, 6])
print(placing.verdict.name, placing.units, placing.cost)
for lot, row in enumerate(placing.flow):
    for call, units in enumerate(row):
        if units:
            print(lot, call, units)
