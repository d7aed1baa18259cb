#!/usr/bin/env bash
# Times Set calls at one store, in one run: by one, two and four threads that share it, as ratios to a direct port.
# Each is run five times in turn, and the least time counts.
set -eu
top=$(dirname "$(cd "$(dirname "$0")" && pwd)")
count=${1:-400000}
(cd "$top/crates/shared_store_bench" && rt run -- one 4) >/dev/null 2>&1
python3 - "$top/crates/shared_store_bench/out/shared_store_bench" "$count" <<'PYTHON'
import subprocess, sys, time

program, count = sys.argv[1:]
best = {}
for _ in range(5):
    for who in ["direct", "one", "two", "four"]:
        start = time.perf_counter()
        out = subprocess.run([program, who, count], capture_output=True, check=True).stdout
        assert int(out) == int(count), f"{who}: {out!r}"
        best[who] = min(best.get(who, 9e9), time.perf_counter() - start)
for who, took in best.items():
    print(f"{who}: {took * 1000:.0f} ms for {count} calls, ratio {took / best['direct']:.2f}")
PYTHON
