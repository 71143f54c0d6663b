#!/usr/bin/env python3
"""usage: records.py N: about N sales, sorted by region and salesman, one record of 80 columns a line."""
import random
import sys

REGIONS = "ABCDEFGHIJKLMNOPQRSTUVWXYZ"
NEGATIVE = "}JKLMNOPQR"

draw = random.Random(7)
each = max(1, int(sys.argv[1]) // (len(REGIONS) * 10))
for region in REGIONS:
    for salesman in range(10):
        for _ in range(each):
            quantity = str(draw.randrange(1, 999)).rjust(4, "0")
            price = draw.randrange(1, 99999)
            if draw.random() < 0.05:  # goods that came back
                quantity = quantity[:3] + NEGATIVE[int(quantity[3])]
            item = f"ITEM {draw.randrange(10**6):06d}"
            print(f"{region}{region}{salesman:03d}{quantity}{price:07d}{item:<20}".ljust(80))
