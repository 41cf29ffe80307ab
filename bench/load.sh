#!/usr/bin/env bash
# Times `subzero load`, as LLVM builds it, on the generated sessions of 64, 256 and 512 a side (or of the sides that are given), and
# prints four tables.
#
# The first is of the parts of a load, in milliseconds of time and, in parentheses, of work of the processor: to make the text; to read
# its arrays and its flow; the values of the flow's nodes; their stores; the 33 asks; and the digest of the replies. The text and the
# digest are measured in a program of their own, the others as what the lines of that part add to `subzero play` of the lines before
# them, and the rest is what the whole has beside them: the start of the process, and what the parts took more or less by themselves.
#
# The second is of the whole by workers and askers: its time, the work of the processor, the peak of memory, and the peak for each byte
# of the values held, at 16 bytes a cell. A star stands behind what is past the aim at a side of 512: 0.6 s by four workers, on four
# processors, and 15 bytes for each byte of the values.
#
# The third says what each side takes for each of its held cells, by 1 worker and 1 asker, and how that is to the side before it: 1 where
# a load is linear.
#
# The fourth is of one line of 1,048,576 cells, as csv and as array: the time, the work of the processor and the peak of memory of a
# session that has it alone, less those of one with no line, a cell; and the bytes of the line.
#
# Each time is of a whole process, the best of five (of as many as LOAD_TURNS says), and so is the least work; of memory the greatest
# peak is told. A peak below that of Python, some 15 MB, cannot be seen. It is no test, but the digest of each load is compared with
# that of what `subzero play` says to the same text. It builds the program in this checkout and the making of texts in a folder of its
# own, and needs python3. Run it from anywhere.
set -euo pipefail
root=$(cd "$(dirname "$0")/.." && pwd)
work=$(mktemp -d)
trap 'rm -rf "$work"' EXIT
mkdir -p "$work/crates/texts/src"
(cd "$root/crates" && tar cf - --exclude=must-fail sz_gen) | tar xf - -C "$work/crates"
grep -E '^sz_gen:' "$root/crates.txt" >"$work/crates.txt"
echo 'texts: sz_gen anyhow' >>"$work/crates.txt"
cat >"$work/crates/texts/src/main.rt" <<'RT'
//! `texts text SIDE` writes the session of seed 1, and `texts times SIDE` says how many microseconds it takes to make it and to
//! sum up the replies that come on standard input, the least of nine.
#![tactic(auto)]

ghost use Rattle.std.specs.Prelude.{◌≤◌};

use std::env;
use std::env::Args;
use std::io::{Read, Write};
use std::time::Instant;
use sz_gen::{session_text, summary_text};

const TURNS: u32 = 9;

/// The word that was asked for, and a side.
fn asked(mut words: Args) -> Option<(String, u32)> {
    words.next()?;
    let what = words.next()?;
    let side = words.next()?.parse::<u32>().ok()?;
    Some((what, side))
}

fn say_text(rt: &HostRuntime, side: u32) -> anyhow::Result<()>
    requires some { 1 ≤ side }
    requires limit { side ≤ 512 }
{
    if let Ok(text) = session_text(rt.alloc(), 1, side) {
        rt.stdout().write_all(&text)?;
    }
    Ok(())
}

fn say_times(rt: &HostRuntime, side: u32) -> anyhow::Result<()>
    requires some { 1 ≤ side }
    requires limit { side ≤ 512 }
{
    let mut replies = Vec::new(rt.alloc());
    rt.stdin().read_to_end(&mut replies)?;
    let mut making = u128::MAX;
    let mut summing = u128::MAX;
    let mut bytes = 0;
    for _ in 0..TURNS {
        let start = Instant::now(rt)?;
        if let Ok(text) = session_text(rt.alloc(), 1, side) {
            making = making.min(start.elapsed(rt)?.as_micros());
            bytes = text.len();
        }
        let start = Instant::now(rt)?;
        if let Ok(line) = summary_text(rt.alloc(), 1, side, 42, &replies) {
            summing = summing.min(start.elapsed(rt)?.as_micros());
            bytes = bytes.max(line.len());
        }
    }
    println!(rt; "{making} {summing} {bytes}")?;
    Ok(())
}

fn main(rt: HostRuntime) -> anyhow::Result<()> {
    let Some((what, side)) = asked(env::args(&rt)?) else {
        return Ok(());
    };
    if side < 1 || side > 512 {
        return Ok(());
    }
    if what.as_str() == "text" {
        say_text(&rt, side)
    } else {
        say_times(&rt, side)
    }
}
RT
(cd "$root/crates/subzero" && rt run -- play </dev/null >"$work/log" 2>&1) || { cat "$work/log"; exit 1; }
(cd "$work/crates/texts" && rt run -- text 2 >"$work/log" 2>&1) || [ -x "$work/crates/texts/out/texts" ] || { cat "$work/log"; exit 1; }
python3 - "$root/crates/subzero/out/subzero" "$work/crates/texts/out/texts" "$work" "$@" <<'PY'
import hashlib, json, os, random, subprocess, sys, time
program, texts, work = sys.argv[1:4]
sides = [int(word) for word in sys.argv[4:]] or [64, 256, 512]
turns = int(os.environ.get("LOAD_TURNS", "5"))
counts = [(workers, askers) for workers in (1, 2, 4) for askers in (1, 4)]

# Does something in a process of its own, since what a process holds counts as the peak of those that it starts.
def apart(act, *words):
    child = os.fork()
    if child == 0:
        act(*words)
        os._exit(0)
    assert os.waitpid(child, 0)[1] == 0

# The least time that a process of these words takes and the least work of the processor, in milliseconds, and the peak of memory in bytes.
def best(words, session="/dev/null"):
    times, works, peak = [], [], 0
    for _ in range(turns):
        with open(session) as source, open(work + "/said", "w") as said:
            start = time.perf_counter()
            running = subprocess.Popen([program, *words], stdin=source, stdout=said)
            _, status, usage = os.wait4(running.pid, 0)
            times.append(time.perf_counter() - start)
            running.returncode = status
        assert status == 0, words
        works.append(usage.ru_utime + usage.ru_stime)
        peak = max(peak, usage.ru_maxrss * 1024)
    return min(times) * 1e3, min(works) * 1e3, peak

def held(side):
    half = (side + 1) // 2
    return 6 * side * side + half * half + 16

# Writes the sessions of a side: those of the first lines, and the whole.
def write_sessions(side):
    text = subprocess.run([texts, "text", str(side)], stdout=subprocess.PIPE, check=True).stdout
    lines = text.splitlines(keepends=True)
    assert len(lines) == 42
    for name, some in {"read": lines[:3], "values": lines[:3] + lines[7:8], "stores": lines[:8], "asks": lines}.items():
        with open(f"{work}/{name}", "wb") as out:
            out.writelines(some)

def digest_said():
    with open(work + "/said", "rb") as said:
        return hashlib.sha256(said.read()).hexdigest()

def table(lines):
    widths = [max(len(line[at]) for line in lines) for at in range(len(lines[0]))]
    for line in lines:
        print("  ".join(word.rjust(width) for word, width in zip(line, widths)).rstrip())
    print(flush=True)

def both(part):
    return f"{part[0]:.1f} ({part[1]:.1f})"

def less(more, fewer):
    return [a - b for a, b in zip(more, fewer)]

parts = [["side", "text", "reading", "values", "stores", "33 asks", "digest", "the rest", "whole"]]
wholes = [["side", "workers", "askers", "time ms", "work ms", "peak MB", "values MB", "bytes for a byte of values"]]
linear = [["side", "held cells", "ns a cell", "to that before", "ns of work a cell", "to that before", "bytes a cell", "to that before"]]
per_cell = None
for side in sides:
    apart(write_sessions, side)
    empty = best(["play"])
    steps = {name: best(["play"], f"{work}/{name}") for name in ("read", "values", "stores", "asks")}
    digest = digest_said()
    with open(work + "/said") as source:
        said = subprocess.run([texts, "times", str(side)], stdin=source, stdout=subprocess.PIPE, check=True).stdout.split()
    making, summing = ([int(word) / 1e3] * 2 for word in said[:2])
    words = ["load", "--seed", "1", "--side", str(side)]
    first = None
    for workers, askers in counts:
        whole = best([*words, "--workers", str(workers), "--askers", str(askers)])
        with open(work + "/said") as line:
            assert line.read() == f"load seed 1 side {side} lines 42 sha256 {digest}\n", (side, workers, askers)
        first = first or whole
        values = held(side) * 16
        wholes.append([str(side), str(workers), str(askers), f"{whole[0]:.1f}" + "*" * (side == 512 and workers == 4 and whole[0] > 600),
                       f"{whole[1]:.1f}", f"{whole[2] / 1e6:.1f}", f"{values / 1e6:.1f}",
                       f"{whole[2] / values:.1f}" + "*" * (side == 512 and whole[2] > 15 * values)])
    each = [making, less(steps["read"], empty), less(steps["values"], steps["read"]), less(steps["stores"], steps["values"]),
            less(steps["asks"], steps["stores"]), summing]
    rest = [first[at] - sum(part[at] for part in each) for at in (0, 1)]
    parts.append([str(side), *map(both, each), both(rest), both(first)])
    here = [each / held(side) for each in (first[0] * 1e6, first[1] * 1e6, first[2])]
    ratios = [f"{now / then:.2f}" for now, then in zip(here, per_cell)] if per_cell else [""] * len(here)
    linear.append([str(side), str(held(side)), *(word for now, ratio in zip(here, ratios) for word in (f"{now:.0f}", ratio))])
    per_cell = here

print("the parts of a load, by 1 worker and 1 asker: ms of time (ms of work)")
table(parts)
print("the whole, by workers and askers; * past the aim")
table(wholes)
print("what a held cell takes")
table(linear)

# Writes the same cells as a line of csv and as one of array.
def write_lines(side):
    random.seed(1)
    rows = [[random.randint(-999, 999) for _ in range(side)] for _ in range(side)]
    text = "".join(",".join(map(str, row)) + "\n" for row in rows)
    for name, value in {"array": {"array": "a", "cells": rows}, "csv": {"csv": "a", "text": text}}.items():
        with open(f"{work}/{name}", "w") as out:
            out.write(json.dumps(value, separators=(",", ":")) + "\n")

side = 1024
apart(write_lines, side)
size = side * side
empty = best(["play"])
rows = [["a line of 1,048,576 cells", "bytes", "time ms", "ns a cell", "work ms", "ns a cell", "peak MB", "bytes a cell"]]
for name in ("array", "csv"):
    taken = best(["play"], f"{work}/{name}")
    with open(work + "/said") as said:
        assert said.read() == "1 array a 1\n", name
    took, worked, peak = less(taken, empty)
    rows.append([name, str(os.path.getsize(f"{work}/{name}")), f"{taken[0]:.1f}", f"{took * 1e6 / size:.0f}", f"{taken[1]:.1f}",
                 f"{worked * 1e6 / size:.0f}", f"{taken[2] / 1e6:.1f}", f"{peak / size:.0f}"])
table(rows)
PY
