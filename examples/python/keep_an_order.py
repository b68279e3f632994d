"""Find an order once, place by it daily, and see a wrong one refused. It prints what keep_an_order.txt holds."""

import placer

book = placer.book_bytes([[1, 2], [3, 5]])
order = placer.find_order(book)  # the file to agree on and keep; good for all amounts
for day, (lots, calls) in enumerate([([5, 4], [3, 6]), ([1, 8], [9, 0]), ([2, 2], [1, 1]), ([1, 1], [2, 2])]):
    placing = placer.run_order(book, order, placer.amounts_bytes(lots, calls))
    print("day", day, placing.verdict.name.lower(), placing.units, placing.cost)

try:  # F2: pairs sorted by cost are no good order
    placer.check_order(book, placer.order_bytes([(0, 0), (0, 1), (1, 0), (1, 1)]))
except placer.Refused as refused:
    print(refused)
    print(refused.number, refused.cause.name, refused.values, refused.file)
