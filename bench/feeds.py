#!/usr/bin/env python3
"""Writes a feed near the limits to standard output: few-large, many-small, distinct; appends-N, of N appends of 100 rows; or
upkeep-N-S, of 1,900 appends of 100 rows, a since after each hundredth, with a compact after each Nth (0: none), and S snapshots at the
end."""
import sys


def numbers(seed):
    while True:
        seed = (seed * 6364136223846793005 + 1442695040888963407) % 2**64
        yield seed >> 33


def append(out, number, rows, data, draw):
    out.append(f"append {10 * number} {10 * number + 10}")
    for row in range(rows):
        value = next(draw)
        datum = row if data == 0 else value // 10 % data
        out.append(f"{10 * number + value % 10} {-1 if value % 7 == 0 else 1} k{datum}")
    out.append(".")


def feed(kind):
    out, draw = [], numbers(1)
    if kind == "few-large":
        for number in range(20):
            append(out, number, 40_000, 10_000, draw)
        out.append("snapshot 199")
    elif kind == "many-small":
        for number in range(1_900):
            append(out, number, 100, 1_000, draw)
            if number % 100 == 99:
                out.append(f"snapshot {10 * number + 9}")
    elif kind == "distinct":
        for number in range(10):
            append(out, number, 60_000, 0, draw)
        out.append("snapshot 99")
    elif kind.startswith("appends-"):
        for number in range(int(kind.removeprefix("appends-"))):
            append(out, number, 100, 1_000, draw)
    elif kind.startswith("upkeep-"):
        every, snapshots = map(int, kind.removeprefix("upkeep-").split("-"))
        for number in range(1_900):
            append(out, number, 100, 1_000, draw)
            if number % 100 == 99:
                out.append(f"since {10 * number + 9}")
            if every and number % every == every - 1:
                out.append("compact")
        out += ["snapshot 18999"] * snapshots
    else:
        sys.exit(f"no such feed: {kind}")
    return "\n".join(out) + "\n"


if __name__ == "__main__":
    sys.stdout.write(feed(sys.argv[1]))
