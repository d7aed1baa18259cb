#!/usr/bin/env bash
# Kills persist_file with SIGKILL at random moments of a run on a real file, opens the file again, and compares the rows of
# every append that was answered ok: none may be missing, and at most the one in progress may be there besides.
# usage: bench/kill.sh [TIMES [PROGRAM]]
set -eu
top=$(dirname "$(cd "$(dirname "$0")" && pwd)")
times=${1:-200}
program=${2:-}
if [ -z "$program" ]; then
    "$top/persist" --build
    program=$top/crates/persist_file/out/persist_file
fi
python3 - "$program" "$times" <<'PYTHON'
import concurrent.futures, os, random, subprocess, sys, tempfile, time

program, times = sys.argv[1], int(sys.argv[2])
appends = 300
feed = "".join(f"append {i} {i + 1}\n{i} 1 row{i}\n.\n" for i in range(appends)).encode()
random.seed(1)
moments = [random.random() for _ in range(times)]
folder = tempfile.mkdtemp()


def run_whole():
    start = time.perf_counter()
    subprocess.run([program, tempfile.mktemp(dir=folder), "run"], input=feed, stdout=subprocess.DEVNULL, check=True)
    return time.perf_counter() - start


def killed(number):
    path = os.path.join(folder, f"{number}.store")
    text = os.path.join(folder, f"{number}.feed")
    with open(text, "wb") as out:
        out.write(feed)
    with open(text, "rb") as source:
        child = subprocess.Popen([program, path, "run"], stdin=source, stdout=subprocess.PIPE)
        time.sleep(moments[number] * whole)
        child.kill()
        said = child.stdout.read()
        child.wait()
    answered = said.count(b"ok\n")
    if not os.path.exists(path) or answered == 0:
        return answered, False, None
    again = f"snapshot {answered - 1}\nlisten {answered - 1}\n".encode()
    done = subprocess.run([program, path, "run"], input=again, stdout=subprocess.PIPE)
    rows = b"".join(sorted(b"1 row%d\n" % i for i in range(answered))) + b".\n"
    rest = done.stdout[len(rows):]
    taken = rest == b"%d 1 row%d\nupto %d\n" % (answered, answered, answered + 1)
    fine = done.returncode == 0 and done.stdout.startswith(rows) and (taken or rest == b"quiet %d\n" % answered)
    return answered, taken, None if fine else f"kill {number}: {answered} answered, then {done.stdout[-200:]!r}, status {done.returncode}"


workers = 4
with concurrent.futures.ThreadPoolExecutor(workers) as pool:
    whole = min(pool.map(lambda _: run_whole(), range(workers)))
    results = list(pool.map(killed, range(times)))
wrong = [fault for _, _, fault in results if fault]
print(*wrong, sep="\n", end="\n" if wrong else "")
print(f"{times} kills, {sum(a for a, _, _ in results)} answered appends, {sum(t for _, t, _ in results)} in progress that were there; lost: {len(wrong)}")
sys.exit(1 if wrong else 0)
PYTHON
