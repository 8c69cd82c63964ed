"""An independent reference for the job sheet: reads a sheet from standard input and writes what it prints.

With the path of the program as an argument, it compares the two on many sheets made at random instead:

    python3 tools/sheet.py crates/jobsheet/out/jobsheet
"""
import random
import re
import subprocess
import sys

NUMBER = re.compile(rb"0|[1-9][0-9]{0,9}")


def numbers(words):
    if all(NUMBER.fullmatch(w) for w in words) and all(int(w) <= 4294967295 for w in words):
        return [int(w) for w in words]
    return None


def limits(points):
    gaps = list(zip(points, points[1:]))
    total = sum(v for _, v in points)
    low = total + sum((b - a - 1) * u for (a, u), (b, _) in gaps)
    high = total + sum((b - a - 1) * w for (a, _), (b, w) in gaps)
    return low, high


def lowest(points):
    for (a, _), (b, _) in zip(points, points[1:]):
        if b - a > 1:
            return a + 1


def spacing(points, n):
    span, known = points[-1][0], {a for a, _ in points}
    for j in range(1, n + 1):
        p = j * span // (n + 1)
        if 0 < p < span and p not in known:
            return p
    return lowest(points)


def widest(points, n):
    best, at = 0, None
    for (a, u), (b, w) in zip(points, points[1:]):
        if (b - a - 1) * (w - u) > best:
            best, at = (b - a - 1) * (w - u), a + (b - a) // 2
    return lowest(points) if at is None else at


def run(table, span, plan, n):
    points, asked = [(0, table(0)), (span, table(span))], 0
    for _ in range(n):
        x = plan(points, n)
        if x is None:
            break
        points = sorted(points + [(x, table(x))])
        asked += 1
    return (asked,) + limits(points)


def line_of(line, held):
    """The logger that is set after a line, and what the line prints after its number, or the denial."""
    words = line.split(b" ")
    ns = numbers(words[1:])
    if words[0] not in (b"d", b"t", b"e", b"w") or ns is None:
        return held, 13, None
    letter = words[0].decode()
    if letter == "d":
        if len(ns) != 2:
            return held, 13, None
        n, c = ns
        if not 1 <= n <= 1000000:
            return held, 1, None
        if c == 0 or c * n > 4294967295:
            return held, 12, None
        return ((lambda x: c * x), n), None, None
    if letter == "t":
        if not 1 <= len(ns) <= 64:
            return held, 13, None
        if len(ns) == 1:
            return held, 1, None
        if any(b < a for a, b in zip(ns, ns[1:])):
            return held, 14, None
        return (ns.__getitem__, len(ns) - 1), None, None
    if len(ns) != 1 or held is None:
        return held, 13, None
    table, span = held
    if ns[0] > 254 or ns[0] > span - 1:
        return held, 3, None
    asked, low, high = run(table, span, spacing if letter == "e" else widest, ns[0])
    return held, None, f"{letter} {span} {asked} {low} {high} {high - low}\n"


def sheet(data):
    if len(data) > 2048:
        return b""
    lines = data.split(b"\n")
    if lines[-1] == b"":
        lines.pop()
    held, out = None, []
    for i, line in enumerate(lines, 1):
        held, denial, text = line_of(line, held)
        if denial is not None:
            out.append(f"? {i} {denial}\n")
        elif text:
            out.append(text)
    return "".join(out).encode()


def some_number(rng):
    return rng.choice([rng.randrange(12), rng.randrange(300), rng.randrange(2000000), rng.randrange(5000000000), 254, 255, 1000000, 4294967295, 4294967296])


def some_line(rng):
    kind = rng.randrange(10)
    if kind < 2:
        span = rng.choice([rng.randrange(1, 40), rng.randrange(1, 1000001), some_number(rng)])
        return f"d {span} {rng.choice([rng.randrange(1, 5), 4294967295 // max(span, 1), some_number(rng)])}".encode()
    if kind < 5:
        vs = [rng.randrange(rng.choice([3, 50, 5000000000])) for _ in range(rng.choice([1, 2, 3, 5, 20, 64, 65]))]
        if rng.random() < 0.8:
            vs.sort()
        return b"t " + b" ".join(str(v).encode() for v in vs)
    if kind < 9:
        return f"{rng.choice('ew')} {rng.choice([rng.randrange(10), rng.randrange(64), some_number(rng)])}".encode()
    line = some_line(rng)
    at = rng.randrange(len(line) + 1)
    return line[:at] + rng.choice([b" ", b"\t", b"\r", b"0", b"x", b"", b"+", b"-", b"\n"]) + line[at + rng.randrange(2):]


def compare(program):
    rng = random.Random(1)
    for turn in range(3000):
        data = b"\n".join(some_line(rng) for _ in range(rng.randrange(1, 12)))[:2047] + rng.choice([b"", b"\n"])
        ours = sheet(data)
        theirs = subprocess.run([program], input=data, capture_output=True).stdout
        if ours != theirs:
            sys.exit(f"sheet {turn} differs: {data!r}\nreference {ours!r}\nprogram   {theirs!r}")
    print("3000 sheets print the same")


if len(sys.argv) > 1:
    compare(sys.argv[1])
else:
    sys.stdout.buffer.write(sheet(sys.stdin.buffer.read()))
