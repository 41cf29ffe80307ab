#!/usr/bin/env bash
# Times `subzero play`, as LLVM builds it, with each strategy that an operator supports, on an image of 512 a side (or of the side that is
# given), and prints a table: for clean, convolve (a plus), regions and lookup, each a flow of one node, what the start adds, the bytes of
# memory a cell that its stores take, and what an ask adds, of one cell and of a quarter of the cells, in each direction.
#
# The memory is the peak of a session with eight starts less that of one with four, a start and a cell, less the same by blackbox: so the
# values are not in it, nor the reading of the lines. What a line adds is the difference of two sessions, each a whole process, the best of three. Of a start the time is told, of asks the
# time that the processor was at work, the reading of the line taken off. It is no test, but every answer is compared with that by
# blackbox. It builds the program in this checkout and needs python3. Run it from anywhere.
set -euo pipefail
root=$(cd "$(dirname "$0")/.." && pwd)
work=$(mktemp -d)
trap 'rm -rf "$work"' EXIT
(cd "$root/crates/subzero" && rt run -- play </dev/null >"$work/log" 2>&1) || { cat "$work/log"; exit 1; }
python3 - "$root/crates/subzero/out/subzero" "$work" "$@" <<'PY'
import json, os, random, subprocess, sys, time
program, work = sys.argv[1:3]
side = int(sys.argv[3]) if len(sys.argv) > 3 else 512
full = ["full_one_b", "full_one_f", "full_many_b", "full_many_f"]
pay = ["pay_one", "pay_many", "comp_one", "comp_many"]
one_input = [{"i": 0}]
nodes = {
    "clean": ({"op": "clean", "t": 999, "from": one_input}, ["blackbox", *full, *pay]),
    "convolve": ({"op": "convolve", "kernel": [[0, 1, 0], [1, 1, 1], [0, 1, 0]], "from": one_input}, ["blackbox", "map", *full]),
    "regions": ({"op": "regions", "t": 500, "from": one_input}, ["blackbox", *full, *pay]),
    "lookup": ({"op": "lookup", "from": [{"i": 0}, {"i": 1}]}, ["blackbox", *full, *pay]),
}
random.seed(side)
image = [[random.randrange(1000) for _ in range(side)] for _ in range(side)]
table = [[random.randrange(100) for _ in range(500)]]
some = {"one": [[side // 2, side // 2]], "quarter": [[r, c] for r in range(side // 2) for c in range(side // 2)]}
asks = {"one": 1000, "quarter": 1}

def line(value):
    return json.dumps(value, separators=(",", ":")) + "\n"

def ask(direction, cells, version=1):
    return line({"ask": version, "dir": direction, "path": [[0, 0]], "cells": cells})

arrays = [line({"array": "img", "cells": image}), line({"array": "tab", "cells": table})]

def session(node, strategy):
    inputs = len(node["from"])
    return arrays + [
        line({"flow": "f", "inputs": inputs, "nodes": [node]}),
        line({"strategy": "f", "node": 0, "list": [strategy]}),
        line({"start": "f", "base": [["img", 1], ["tab", 1]][:inputs]}),
        line({"await": 1}),
    ]

# The least time of a session, the least work of the processor, in microseconds, the peak of memory in megabytes, and what it said.
def best(lines):
    with open(work + "/session", "w") as out:
        out.writelines(lines)
    times, works, peak = [], [], 0
    for _ in range(3):
        with open(work + "/session") as source, open(work + "/said", "w") as said:
            start = time.perf_counter()
            playing = subprocess.Popen([program, "play"], stdin=source, stdout=said)
            _, status, usage = os.wait4(playing.pid, 0)
            times.append(time.perf_counter() - start)
            playing.returncode = status
        assert status == 0
        works.append(usage.ru_utime + usage.ru_stime)
        peak = max(peak, usage.ru_maxrss * 1024 / 1e6)
    with open(work + "/said") as said:
        return min(times) * 1e6, min(works) * 1e6, peak, said.read()

# The peak of memory that each start of a session adds, in bytes a cell.
def kept(node, strategy):
    lines = session(node, strategy)[:-1]
    return (best(lines + lines[-1:] * 7)[2] - best(lines + lines[-1:] * 3)[2]) * 1e6 / 4 / side / side

print(f"{side} a side; of an ask: one cell back, forward us; a quarter back, forward us")
for name, (node, strategies) in nodes.items():
    answers, bare = {}, None
    for strategy in strategies:
        lines = session(node, strategy)
        took, memory = best(lines)[0], kept(node, strategy)
        bare = bare or (best(arrays)[0], memory)
        shown = []
        for size in some:
            for direction in ("back", "forward"):
                number = 3 if size == "one" and strategy == "blackbox" else asks[size]
                _, asked, _, said = best(lines + [ask(direction, some[size])] * number)
                _, refused, _, _ = best(lines + [ask(direction, some[size], 2)] * number)
                shown.append((asked - refused) / number)
                said = said.split("\n")[6].split(" ", 1)[1]
                assert answers.setdefault((size, direction), said) == said, (name, strategy, size, direction)
        print(f"{name:9s} {strategy:12s} start {took - bare[0]:9.0f} us, memory {memory - bare[1]:5.0f} bytes a cell, asks"
            + "".join(f" {each:10.1f}" for each in shown), flush=True)
PY
