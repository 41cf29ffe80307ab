#!/usr/bin/env bash
# Times asks that stand behind one another, by how many askers answer them, in `subzero play` as LLVM builds it, on an image of 512 a side
# (or of the side that is given): 32 asks of one cell whose step is traced, 32 of one cell of a region that is a quarter of the image, by a
# store, and 32 of 500 cells, by a store. Only asks among the bytes of one read, 65,536 at most, are answered beside one another, so a
# longer line, such as one that names a quarter of the cells, waits for none.
#
# The time of the asks is that of a session with them less that of one without, each a whole process, the best of five. It is no test, but
# what is said has to be the same for every number of askers. It builds the program in this checkout and needs python3. Run it from anywhere.
set -euo pipefail
root=$(cd "$(dirname "$0")/.." && pwd)
work=$(mktemp -d)
trap 'rm -rf "$work"' EXIT
(cd "$root/crates/subzero" && rt run -- play </dev/null >"$work/log" 2>&1) || { cat "$work/log"; exit 1; }
python3 - "$root/crates/subzero/out/subzero" "$work" "$@" <<'PY'
import json, os, random, subprocess, sys, time
program, work = sys.argv[1:3]
side = int(sys.argv[3]) if len(sys.argv) > 3 else 512
random.seed(side)
half = side // 2
image = [[500 if r < half and c < half else random.randrange(100) for c in range(side)] for r in range(side)]
kernel = [[1, 2, 1], [2, 4, 2], [1, 2, 1]]
convolve = {"op": "convolve", "kernel": kernel, "from": [{"i": 0}]}
regions = {"op": "regions", "t": 500, "from": [{"i": 0}]}
some = lambda count: [[random.randrange(side), random.randrange(side)] for _ in range(count)]
kinds = {
    "one cell, traced": (convolve, "blackbox", lambda: some(1)),
    "a region that is a quarter": (regions, "pay_many", lambda: [[random.randrange(half), random.randrange(half)]]),
    "500 cells, by a store": (convolve, "full_many_b", lambda: some(500)),
}


def line(value):
    return json.dumps(value, separators=(",", ":")) + "\n"


# The least time of a session, in milliseconds, and what it said.
def best(lines, askers):
    with open(work + "/session", "w") as out:
        out.writelines(lines)
    times = []
    for _ in range(5):
        with open(work + "/session") as source, open(work + "/said", "w") as said:
            start = time.perf_counter()
            subprocess.run([program, "play", "--askers", str(askers)], stdin=source, stdout=said, check=True)
            times.append(time.perf_counter() - start)
    with open(work + "/said") as said:
        return min(times) * 1000, said.read()


print(f"32 asks at {side} a side, milliseconds by 1, 2 and 4 askers, {os.cpu_count()} processors, load {os.getloadavg()[0]:.1f}")
for name, (node, strategy, cells) in kinds.items():
    before = [line({"array": "img", "cells": image}), line({"flow": "f", "inputs": 1, "nodes": [node]}),
              line({"strategy": "f", "node": 0, "list": [strategy]}), line({"start": "f", "base": [["img", 1]]}), line({"await": 1})]
    asks = [line({"ask": 1, "dir": "back", "path": [[0, 0]], "cells": cells()}) for _ in range(32)]
    empty = best(before, 1)[0]
    told = [best(before + asks, askers) for askers in (1, 2, 4)]
    assert len({said for _, said in told}) == 1, "askers say other replies"
    print(f"{name:28}" + " ".join(f"{took - empty:9.1f}" for took, _ in told))
PY
