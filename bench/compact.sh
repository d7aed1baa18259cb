#!/usr/bin/env bash
# Times 1,900 appends of 100 rows, with the since raised after each hundredth, and a compact too beside the same without; and then what
# a snapshot costs after each. The four feeds are run in turn, five times over, and the medians count; the replies must be the same but for the compacts'.
set -eu
here=$(cd "$(dirname "$0")" && pwd)
top=$(dirname "$here")
"$top/persist" --build
python3 - "$top/crates/persist_main/out/persist_main" "$here/feeds.py" <<'PYTHON'
import statistics, subprocess, sys, time

proved, feeds = sys.argv[1:]
SNAPSHOTS = 60
kinds = {(every, count): f"upkeep-{every}-{count}" for every in (0, 100) for count in (1, 1 + SNAPSHOTS)}
texts = {key: subprocess.run([sys.executable, feeds, kind], capture_output=True, check=True).stdout for key, kind in kinds.items()}
times = {key: [] for key in kinds}
rows = set()
for _ in range(5):
    for key, text in texts.items():
        start = time.perf_counter()
        done = subprocess.run([proved, "run"], input=text, capture_output=True, check=True)
        times[key].append(time.perf_counter() - start)
        oks = b"ok\n" * (1_900 + 19 + (19 if key[0] else 0))
        assert done.stdout.startswith(oks), f"{kinds[key]}: other replies"
        rows.add(done.stdout[len(oks) :][: len(done.stdout[len(oks) :]) // key[1]])
assert len(rows) == 1, "the snapshots differ"


def all_of(every):
    return statistics.median(times[every, 1])


def snapshot(every):
    return statistics.median(b - a for a, b in zip(times[every, 1], times[every, 1 + SNAPSHOTS])) / SNAPSHOTS


print(f"1,900 appends and a snapshot: {all_of(0) * 1000:.0f} ms, with a compact after each hundredth {all_of(100) * 1000:.0f} ms, "
      f"ratio {all_of(100) / all_of(0):.2f}")
print(f"a further snapshot: {snapshot(0) * 1000:.1f} ms, after compacts {snapshot(100) * 1000:.1f} ms, ratio {snapshot(100) / snapshot(0):.2f}")
PYTHON
