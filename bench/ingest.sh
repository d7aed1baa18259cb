#!/usr/bin/env bash
# Times `ingest` of 1,900 appends of 100 rows by 1, 2 and 4 writers, and by 2 writers beside 2 compactors, each beside `run` of the same
# appends, in one run; prints the ratios. Each is run five times in turn, and the medians count. The snapshot at the end must be the same.
set -eu
here=$(cd "$(dirname "$0")" && pwd)
top=$(dirname "$here")
"$top/persist" --build
python3 - "$top/crates/persist_main/out/persist_main" "$here/feeds.py" <<'PYTHON'
import statistics, subprocess, sys, time

program, feeds = sys.argv[1:]
APPENDS = 1_900
text = subprocess.run([sys.executable, feeds, f"appends-{APPENDS}"], capture_output=True, check=True).stdout
text += f"snapshot {10 * APPENDS - 1}\n".encode()


def ingest(writers, compactors):
    return ["ingest", "--writers", str(writers), "--compactors", str(compactors), "--collectors", "0"]


crews = [(1, 0), (2, 0), (4, 0), (2, 2)]
kinds = {None: ["run"]} | {crew: ingest(*crew) for crew in crews}
times = {kind: [] for kind in kinds}
contents = set()
for _ in range(5):
    for kind, words in kinds.items():
        start = time.perf_counter()
        done = subprocess.run([program, *words], input=text, capture_output=True, check=True)
        times[kind].append(time.perf_counter() - start)
        contents.add(done.stdout.removeprefix(b"ok\n" * (0 if kind else APPENDS)))
assert len(contents) == 1, "the snapshots differ"
alone = statistics.median(times[None])
print(f"run: {alone * 1000:.0f} ms")
for crew in crews:
    took = statistics.median(times[crew])
    print(f"ingest, {crew[0]} writers, {crew[1]} compactors: {took * 1000:.0f} ms, ratio {took / alone:.2f}")
PYTHON
