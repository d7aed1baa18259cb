#!/usr/bin/env bash
# Times 1,900 appends of 100 rows over a real file, beside the same in memory, and beside sqlite3 (one table, one transaction an
# append, synchronous=FULL), in one run; prints the ratios. Each is run three times in turn, and the medians count.
# usage: bench/file.sh [PROGRAM-ON-A-FILE PROGRAM-IN-MEMORY]
set -eu
here=$(cd "$(dirname "$0")" && pwd)
top=$(dirname "$here")
on_file=${1:-}
in_memory=${2:-}
if [ -z "$on_file" ] || [ -z "$in_memory" ]; then
    "$top/persist" --build
    on_file=$top/crates/persist_file/out/persist_file
    in_memory=$top/crates/persist_main/out/persist_main
fi
python3 - "$on_file" "$in_memory" "$here/feeds.py" <<'PYTHON'
import os, sqlite3, statistics, subprocess, sys, tempfile, time

on_file, in_memory, feeds = sys.argv[1:]
appends = 1900
text = subprocess.run([sys.executable, feeds, f"appends-{appends}"], capture_output=True, check=True).stdout
blocks = [block.split(b"\n")[1:] for block in text.split(b"\n.\n") if block.strip()]
rows = [[tuple(row.split(b" ", 2)) for row in block] for block in blocks]
folder = tempfile.mkdtemp()


def run(words):
    done = subprocess.run(words, input=text, capture_output=True, check=True)
    assert done.stdout == b"ok\n" * appends


def with_sqlite():
    base = sqlite3.connect(tempfile.mktemp(dir=folder), isolation_level=None)
    base.execute("pragma synchronous=FULL")
    base.execute("create table updates (time integer, diff integer, datum blob)")
    for block in rows:
        base.execute("begin")
        base.executemany("insert into updates values (?, ?, ?)", ((int(t), int(d), x) for t, d, x in block))
        base.execute("commit")
    base.close()


ways = {
    "on a file": lambda: run([on_file, tempfile.mktemp(dir=folder), "run"]),
    "in memory": lambda: run([in_memory, "run"]),
    "sqlite3": with_sqlite,
}
times = {name: [] for name in ways}
for _ in range(3):
    for name, way in ways.items():
        start = time.perf_counter()
        way()
        times[name].append(time.perf_counter() - start)
medians = {name: statistics.median(taken) for name, taken in times.items()}
for name, taken in medians.items():
    print(f"{name}: {taken * 1000:.0f} ms, on a file takes {medians['on a file'] / taken:.1f} times that")
PYTHON
