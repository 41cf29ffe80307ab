#!/usr/bin/env bash
# Times `subzero play`, as LLVM builds it, on images of 128, 256, 512 and 1,024 a side (or of the sides that are given; of the
# last one 1,008 rows, since with more of them the outputs would pass the limit of held cells), and prints three tables.
#
# The first is of a flow of clean, convolve, regions and block, each on the one before: how long the image's line takes, what the start
# adds, per cell, and what an ask adds, of one cell and of a quarter of the cells, in each direction along the whole flow; beside these the
# peak of memory when the line is read, when the flow was run, and of all asks (where it is above that of Python, some 15 MB), and the
# memory of the values held, at 16 bytes each.
#
# The second is of a flow of convolve and block alone, whose steps are answered by the mapping of cells: what an ask adds, of one cell and
# of a quarter of the cells, and how much of the latter is the reading of its line, which is that of a line refused for its version.
#
# The third is of the flow of the first with a stored strategy on every node: what the start adds beside that of the first table, since it
# builds the stores, the peak of memory, and what an ask adds, of one cell and of a quarter of the cells, in each direction along the whole
# flow, and how much of the former is the reading of its line.
#
# What a line adds is the difference of two sessions, each a whole process, the best of five. Of a line and of a start the time is told,
# of asks the time that the processor was at work. It is no test: nothing is compared. It builds the program in this checkout and needs
# python3. Run it from anywhere.
set -euo pipefail
root=$(cd "$(dirname "$0")/.." && pwd)
work=$(mktemp -d)
trap 'rm -rf "$work"' EXIT
(cd "$root/crates/subzero" && rt run -- play </dev/null >"$work/log" 2>&1) || { cat "$work/log"; exit 1; }
python3 - "$root/crates/subzero/out/subzero" "$work" "$@" <<'PY'
import json, os, random, subprocess, sys, time
program, work = sys.argv[1:3]
sides = [int(x) for x in sys.argv[3:]] or [128, 256, 512, 1024]
directions = ("back", "forward")
plus = {"op": "convolve", "kernel": [[0, 1, 0], [1, 1, 1], [0, 1, 0]]}
folded = {"op": "block", "fold": "max", "h": 4, "w": 4}
whole = [
    {"op": "clean", "t": 900, "from": [{"i": 0}]},
    {**plus, "from": [{"n": 0}]},
    {"op": "regions", "t": 2500, "from": [{"n": 1}]},
    {**folded, "from": [{"n": 2}]},
]
stored = [["comp_one"], ["full_many_b", "full_one_f"], ["pay_many", "full_many_f"], ["full_one_b", "full_one_f"]]
mapped = [{**plus, "from": [{"i": 0}]}, {**folded, "from": [{"n": 0}]}]

def rows_of(side):
    return min(side, int(4194304 / (side * (4 + 1 / 16))) // 4 * 4)

def line(value):
    return json.dumps(value, separators=(",", ":")) + "\n"

def begin(nodes, lists=()):
    kept = [line({"strategy": "f", "node": node, "list": strategies}) for node, strategies in enumerate(lists)]
    return [line({"flow": "f", "inputs": 1, "nodes": nodes}), *kept, line({"start": "f", "base": [["img", 1]]}), line({"await": 1})]

# The line that asks for cells along all nodes of a flow.
def ask(nodes, direction, cells, version=1):
    path = [[node, 0] for node in range(len(nodes))]
    return line({"ask": version, "dir": direction, "path": path[::-1] if direction == "back" else path, "cells": cells})

# Writes the sessions of a side, each a file. A process of its own does this, since what a process holds counts as the peak of those
# that it starts.
def write_sessions(side):
    random.seed(side)
    rows = rows_of(side)
    cells = [[random.randrange(1000) for _ in range(side)] for _ in range(rows)]
    array = [line({"array": "img", "cells": cells})]
    one = {"back": [[rows // 8, side // 8]], "forward": [[rows // 2, side // 2]]}
    quarter = {"back": [[r, c] for r in range(rows // 8) for c in range(side // 8)],
               "forward": [[r, c] for r in range(rows // 2) for c in range(side // 2)]}
    sessions = {"read": array, "whole": array + begin(whole), "mapped": array + begin(mapped),
                "stored": array + begin(whole, stored)}
    for d in directions:
        sessions["whole one " + d] = sessions["whole"] + [ask(whole, d, one[d])] * 10
        sessions["whole quarter " + d] = sessions["whole"] + [ask(whole, d, quarter[d])]
        sessions["stored one " + d] = sessions["stored"] + [ask(whole, d, one[d])] * 2000
        sessions["stored one refused " + d] = sessions["stored"] + [ask(whole, d, one[d], 2)] * 2000
        sessions["stored quarter " + d] = sessions["stored"] + [ask(whole, d, quarter[d])]
        sessions["mapped one " + d] = sessions["mapped"] + [ask(mapped, d, one[d])] * 2000
        sessions["mapped quarter " + d] = sessions["mapped"] + [ask(mapped, d, quarter[d])]
        sessions["mapped refused " + d] = sessions["mapped"] + [ask(mapped, d, quarter[d], 2)]
    for name, lines in sessions.items():
        with open(f"{work}/{name}", "w") as out:
            out.writelines(lines)

def is_refused(path):
    return subprocess.run(["grep", "-q", " refused ", path]).returncode == 0

# The least time that a session takes and the least that the processor is at work, in microseconds, and the peak of memory in megabytes.
def best(name):
    times, works, peak = [], [], 0
    for _ in range(5):
        with open(f"{work}/{name}") as source, open(work + "/said", "w") as said:
            start = time.perf_counter()
            playing = subprocess.Popen([program, "play"], stdin=source, stdout=said)
            _, status, usage = os.wait4(playing.pid, 0)
            times.append(time.perf_counter() - start)
            playing.returncode = status
        assert status == 0 and is_refused(work + "/said") == ("refused" in name), name
        works.append(usage.ru_utime + usage.ru_stime)
        peak = max(peak, usage.ru_maxrss * 1024 / 1e6)
    return min(times) * 1e6, min(works) * 1e6, peak

# What an ask adds to the work of the session before it, in each direction.
def added(kind, asks, before):
    return [(best(f"{kind} {d}")[1] - before) / asks for d in directions]

first, second, third = [], [], []
for side in sides:
    child = os.fork()
    if child == 0:
        write_sessions(side)
        os._exit(0)
    assert os.waitpid(child, 0)[1] == 0
    size = rows_of(side) * side
    (read, _, read_peak), (run, run_work, run_peak) = best("read"), best("whole")
    few, many = added("whole one", 10, run_work), added("whole quarter", 1, run_work)
    asked_peak = max(best(f"whole {kind} {d}")[2] for kind in ("one", "quarter") for d in directions)
    first.append(f"{side:5d} {read:12.0f} {run - read:10.0f} ({(run - read) * 1e3 / size:6.1f}) {few[0]:14.0f} {few[1]:8.0f}"
        f" {many[0]:18.0f} {many[1]:10.0f} {many[0] * 1e3 / size:12.1f} {many[1] * 1e3 / size:6.1f}"
        f" {read_peak:15.0f} {run_peak:6.0f} {asked_peak:6.0f} {size * (4 + 1 / 16) * 16 / 1e6:10.0f}")
    mapped_run = best("mapped")[1]
    few, many = added("mapped one", 2000, mapped_run), added("mapped quarter", 1, mapped_run)
    lines = added("mapped refused", 1, mapped_run)
    second.append(f"{side:5d} {few[0]:14.1f} {few[1]:8.1f} {many[0]:18.0f} {many[1]:10.0f} {lines[0]:22.0f} {lines[1]:10.0f}"
        f" {(many[0] - lines[0]) * 1e3 / size:20.1f} {(many[1] - lines[1]) * 1e3 / size:6.1f}")
    (kept, kept_work, kept_peak) = best("stored")
    few, many = added("stored one", 2000, kept_work), added("stored quarter", 1, kept_work)
    lines = added("stored one refused", 2000, kept_work)
    third.append(f"{side:5d} {kept - read:10.0f} ({(kept - read) / (run - read):4.1f}) {kept_peak:8.0f} {few[0]:18.1f} {few[1]:8.1f}"
        f" {lines[0]:22.1f} {lines[1]:8.1f} {many[0]:22.0f} {many[1]:10.0f}")
print("side  array line us  start us (ns a cell)   ask of one: back, forward us   of a quarter: back, forward us   (ns a cell)"
      "   peak MB: read, run, asked   values MB")
print("\n".join(first))
print("\nby map alone")
print("side  ask of one: back, forward us   of a quarter: back, forward us   of it reading: back, forward us   the rest, ns a cell")
print("\n".join(second))
print("\nby stores alone: " + ", ".join(" ".join(kept) for kept in stored))
print("side   start us (to that above)  peak MB   ask of one: back, forward us   of it reading: back, forward us   of a quarter: back, forward us")
print("\n".join(third))
PY
