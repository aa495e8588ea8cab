"""Writes a table of orders as CSV: `table_orders.py ROWS FILE`.

Row i, from 0, is id i + 1, cust i mod 4 + 1, the day i mod 100 days after 2024-01-01, and amount i mod 10 + 1.5.
"""

import datetime
import sys

rows, path = int(sys.argv[1]), sys.argv[2]
first = datetime.date(2024, 1, 1)
days = [(first + datetime.timedelta(days=place)).isoformat() for place in range(100)]
# What stands behind the id comes again every 100 rows.
rests = [f"{row % 4 + 1},{days[row]},{row % 10 + 1}.5\n" for row in range(100)]

with open(path, "w", encoding="ascii", newline="\n") as file:
    file.write("id:int,cust:int,day:date,amount:dec\n")
    for start in range(0, rows, 100):
        file.write("".join(f"{row + 1},{rests[row % 100]}" for row in range(start, min(start + 100, rows))))
