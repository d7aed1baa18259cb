#!/usr/bin/env bash
# Times the proved program beside the plain one, on the same feeds, in one run; prints the ratios.
# Each is run five times in turn, and the least time counts.
set -eu
here=$(cd "$(dirname "$0")" && pwd)
top=$(dirname "$here")
work=$(mktemp -d)
trap 'rm -rf "$work"' EXIT
proved=$top/crates/persist_main/out/persist_main
"$top/persist" --build
rustc --edition 2021 -O -o "$work/plain" "$here/plain.rs"
python3 - "$proved" "$work/plain" "$here/feeds.py" <<'PYTHON'
import subprocess, sys, time

proved, plain, feeds = sys.argv[1:]


def timed(program, text):
    start = time.perf_counter()
    done = subprocess.run([program, "run"], input=text, capture_output=True, check=True)
    return time.perf_counter() - start, done.stdout


for kind in ["few-large", "many-small", "distinct"]:
    text = subprocess.run([sys.executable, feeds, kind], capture_output=True, check=True).stdout
    best = {}
    for _ in range(5):
        for name, program in [("proved", proved), ("plain", plain)]:
            took, out = timed(program, text)
            best[name] = min(best.get(name, (9e9, b"")), (took, out))
    assert best["proved"][1] == best["plain"][1], f"{kind}: the replies differ"
    p, q = best["proved"][0], best["plain"][0]
    print(f"{kind}: {len(text)} bytes, proved {p * 1000:.0f} ms, plain {q * 1000:.0f} ms, ratio {p / q:.2f}")
PYTHON
