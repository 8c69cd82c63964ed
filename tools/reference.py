#!/usr/bin/env python3
"""Reference values for the trials of every kind of logger, worked out on their own.

This script shares nothing with the library: loggers are plain Python functions, the limits are summed
table by table, and a plan is applied to the points one question at a time. Run it with no arguments;
it prints one line for each trial: the name, the number asked, low and high for equal spacing and for
the widest rectangle, and further figures that the tests and the program `sizes` compare with.
It is not part of `rt ci`.
"""


def level(temperature):
    return max(temperature + 4000, 0)


def counter(levels):
    return lambda x: sum(1 for v in levels if v <= x)


def strip(words):
    return lambda x: sum(words[j // 64] >> (j % 64) & 1 for j in range(x))


def turned(t, n):
    return lambda x: t(n) - t(n - x)


def window(t, a):
    return lambda x: t(a + x)


def limits(points):
    low = high = points[-1][1]
    for (a, u), (b, w) in zip(points, points[1:]):
        low += u + (b - a - 1) * u
        high += u + (b - a - 1) * w
    return low, high


def lowest_unknown(points):
    known = {x for x, _ in points}
    return next((x for x in range(1, points[-1][0]) if x not in known), None)


def spacing(n):
    def plan(points):
        span, known = points[-1][0], {x for x, _ in points}
        for j in range(1, n + 1):
            x = j * span // (n + 1)
            if 0 < x < span and x not in known:
                return x
        return lowest_unknown(points)

    return plan


def widest(points):
    gaps = list(zip(points, points[1:]))
    best = max(gaps, key=lambda g: ((g[1][0] - g[0][0] - 1) * (g[1][1] - g[0][1]), -g[0][0]))
    (a, u), (b, w) = best
    if (b - a - 1) * (w - u) == 0:
        return lowest_unknown(points)
    return a + (b - a) // 2


def run(t, span, plan, budget):
    points, asked = [(0, t(0)), (span, t(span))], []
    while len(asked) < budget:
        x = plan(points)
        if x is None:
            break
        asked.append(x)
        points = sorted(points + [(x, t(x))])
    return asked, *limits(points), points


def show(name, t, span, budget):
    """Both runs, the sum that the limits must hold, and the limits of the total of levels."""
    for kind, plan in (("spacing", spacing(budget)), ("widest", widest)):
        asked, low, high, points = run(t, span, plan, budget)
        every = points[-1][1] * (span + 1)
        shown = asked if len(asked) <= 12 else f"{len(asked)} questions"
        print(f"{name}, {kind}: asked {shown}, low {low}, high {high}, levels {every - high} to {every - low}")
    if span <= 1000:
        values = [t(x) for x in range(span + 1)]
        print(f"{name}: sum {sum(values)}, last {values[-1]}, values {values if span <= 12 else values[:6]}")


def quick(values):
    """A table kept as a list, for the largest sizes."""
    return lambda x: values[x]


def largest():
    n = 1_000_000
    words = [0x9E3779B97F4A7C15 * (i + 1) % 2**64 for i in range(n // 64)]
    ones = [0]
    for j in range(n):
        ones.append(ones[-1] + (words[j // 64] >> (j % 64) & 1))
    show("strip of 1,000,000 bits", quick(ones), n, 254)
    counts = [0] * (n + 1)
    for i in range(n):
        counts[i * 7919 % 65536] += 1
    for x in range(1, n + 1):
        counts[x] += counts[x - 1]
    show("counter of 1,000,000 readings", quick(counts), n, 254)
    show("table of 1,000,001 values", lambda x: x // 3, n, 254)


def main():
    row = [2, 3, 3, 7, 11, 11, 12, 20, 31]
    show("table", quick(row), 8, 3)
    show("diagonal", lambda x: 3 * x, 12, 4)
    climate = counter([level(t) for t in (-4001, -4000, -3998, -3995, -3995, -3991, -3989)])
    show("climate", climate, 11, 3)
    supply = counter([3, 0, 3, 10, 7, 9, 14])
    show("supply", supply, 10, 3)
    door = strip([11])
    show("door", door, 4, 2)
    long = strip([0xF0F0, 0x8000000000000001, 7])
    show("long door", long, 130, 5)
    show("turned table", turned(quick(row), 8), 8, 3)
    show("window of table from 2 to 7", window(quick(row), 2), 5, 3)
    show("turned window of long door from 60 to 130", turned(window(long, 60), 70), 70, 4)
    show("window of turned climate from 1 to 9", window(turned(climate, 11), 1), 8, 3)
    print("levels", [level(t) for t in (-32768, -4001, -4000, 32767)])
    print("long door at 0, 63, 64, 65, 130:", [long(x) for x in (0, 63, 64, 65, 130)])
    show("climate, every inner argument", climate, 11, 10)
    show("no readings", counter([]), 10, 4)
    largest()


if __name__ == "__main__":
    main()
