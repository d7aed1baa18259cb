#!/usr/bin/env bash
# Times the encoding and the decoding of full parts beside a copy of the same bytes, in one run, in MB/s.
# Each is run five times in turn, and the least time counts.
set -eu
top=$(dirname "$(cd "$(dirname "$0")" && pwd)")
count=${1:-2000}
(cd "$top/crates/part_codec_bench" && rt run -- copy 1) >/dev/null 2>&1
python3 - "$top/crates/part_codec_bench/out/part_codec_bench" "$count" <<'PYTHON'
import subprocess, sys, time

program, count = sys.argv[1], int(sys.argv[2])
best, size = {}, 0
for _ in range(5):
    for what in ["encode", "decode", "copy"]:
        start = time.perf_counter()
        out = subprocess.run([program, what, str(count)], capture_output=True, check=True).stdout
        best[what] = min(best.get(what, 9e9), time.perf_counter() - start)
        size = int(out)
for what, took in best.items():
    print(f"{what}: {size * count / took / 1e6:.0f} MB/s, {took / best['copy']:.1f} times the copy")
PYTHON
