#!/usr/bin/env python3
"""Works out a certificate again, from the readings and the formulas alone. Reads what the program certificate reads
with no arguments, and prints the same figures and the true total and mean beside them."""
import sys

lines = [line.strip() for line in sys.stdin]
kind, span, n = lines[0].split()
span, n = int(span), int(n)
lines = [line for line in lines[1:] if line]
if not any(c.isdigit() for c in lines[0]):
    lines = lines[1:]
zero = 4000 if kind == "climate" else 0
readings = [int(line.split(",")[-1]) for line in lines]
levels = [max(0, r + zero) for r in readings]

def count(x):
    return sum(level <= x for level in levels)

# equal spacing: the ends, and the arguments that cut the span into n + 1 parts
points = [(x, count(x)) for x in [0] + [j * span // (n + 1) for j in range(1, n + 1)] + [span]]
values = sum(v for _, v in points)
low = values + sum((b - a - 1) * u for (a, u), (b, w) in zip(points, points[1:]))
high = values + sum((b - a - 1) * w for (a, u), (b, w) in zip(points, points[1:]))
first, last = count(0), count(span)
everywhere = last * (span + 1)
total = (everywhere - high, everywhere - low)
q, r = divmod(span, n + 1)
least = (last - first) // span * (r * (q + 1) * q + (n + 1 - r) * q * (q - 1))
counted = [level for level in levels if level <= span]

print("readings counted:", last)
print("readings out of range:", len(readings) - last)
print("readings below the lowest:", sum(r + zero < 0 for r in readings))
print("total of levels:", *total)
if last:
    print("mean in the smallest unit:", total[0] // last - zero, -(-total[1] // last) - zero)
    print("true mean in the smallest unit:", sum(counted) / last - zero)
print("width, least:", high - low, least)
print("true total of levels:", sum(counted))
assert last == len(counted) and total[0] <= sum(counted) <= total[1]
