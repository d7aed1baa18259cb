#!/usr/bin/env bash
# Times the first hundred appends of 100 rows, and the last hundred of 1,900, in one run; prints the ratio.
# An append writes the shard's whole state, so the last ones write more bytes; nothing else is to grow. The last hundred are the
# difference of 1,900 and 1,800 appends. The four feeds are run in turn, seven times over, and the medians count.
set -eu
here=$(cd "$(dirname "$0")" && pwd)
top=$(dirname "$here")
"$top/persist" --build
python3 - "$top/crates/persist_main/out/persist_main" "$here/feeds.py" <<'PYTHON'
import statistics, subprocess, sys, time

proved, feeds = sys.argv[1:]
counts = [0, 100, 1800, 1900]
texts = {n: subprocess.run([sys.executable, feeds, f"appends-{n}"], capture_output=True, check=True).stdout if n else b"" for n in counts}
times = {n: [] for n in counts}
for _ in range(7):
    for n in counts:
        start = time.perf_counter()
        done = subprocess.run([proved, "run"], input=texts[n], capture_output=True, check=True)
        times[n].append(time.perf_counter() - start)
        assert done.stdout == b"ok\n" * n, f"{n} appends: other replies"


def between(fewer, more):
    return statistics.median(b - a for a, b in zip(times[fewer], times[more]))


first, last = between(0, 100), between(1800, 1900)
print(f"first hundred {first * 1000:.0f} ms, last hundred of 1,900 {last * 1000:.0f} ms, ratio {last / first:.1f}")
print(f"all 1,900: {statistics.median(times[1900]) * 1000:.0f} ms")
PYTHON
