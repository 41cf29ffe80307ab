#!/usr/bin/env bash
# Times plans of strategies, as LLVM builds them: 32 nodes that clean arrays of 64 to 1,048,576 cells, which have nine strategies to choose
# from, the most that an operator has, within 65,536, 16,384 and 4,096 units; 8 nodes within 65,536; and one node with no unit. Each plan is
# made in a process of its own. Told are the time of the plan alone and the time that the processor was at work in the whole process, the
# least of five, in milliseconds, the peak of memory in megabytes (where it is above that of Python, some 15 MB), and the plan's cost and
# units. It is no test: nothing is compared. It needs python3. Run it from anywhere; it works in a folder of its own.
set -euo pipefail
root=$(cd "$(dirname "$0")/.." && pwd)
work=$(mktemp -d)
trap 'rm -rf "$work"' EXIT
mkdir -p "$work/crates/plans/src" "$work/crates/plans/specs"
. "$root/bench/apart.sh"
take_crates sz_cells sz_spec sz_planner
echo 'plans: sz_cells sz_spec sz_planner anyhow' >>"$work/crates.txt"
touch "$work/crates/plans/specs/Lib.antt"
cat >"$work/crates/plans/src/main.rt" <<'RT'
#![tactic(auto)]

use std::env;
use std::time::Instant;

use sz_cells::Shape;
use sz_planner::plan;
use sz_spec::{Op, OpAt, arity, has_right_parameters};

/// A number that is given as an argument.
fn number(text: Option<String>) -> u32 {
    text.and_then(|text| text.as_str().parse().ok()).unwrap_or(0)
}

fn main(rt: HostRuntime) -> anyhow::Result<()> {
    let mut words = env::args(&rt)?;
    let _program = words.next();
    let count = number(words.next()).min(32);
    let units = number(words.next()).min(65536);
    let mut nodes = Vec::new(rt.alloc());
    for node in 0..count {
        let op = Op::Clean { t: 10 };
        let side = 8u32 << (node % 8);
        let Some(shape) = Shape::make(side, side) else {
            continue;
        };
        if arity(&op) == 1 && has_right_parameters(&op) {
            if let Ok(at) = OpAt::of(op, vec![in rt.alloc(); shape]?) {
                nodes.push(at)?;
            }
        }
    }
    let start = Instant::now(&rt)?;
    if nodes.len() > 32 {
        return Ok(());
    }
    let Ok(planned) = plan(rt.alloc(), &nodes, units, 1000, 10) else {
        println!(rt; "no memory")?;
        return Ok(());
    };
    let took = start.elapsed(&rt)?;
    println!(rt; "{} {} {} {}", took.as_micros(), nodes.len(), planned.cost, planned.units)?;
    Ok(())
}
RT
cd "$work/crates/plans"
rt run >"$work/log" 2>&1 || { cat "$work/log"; exit 1; }
python3 - ./out/plans <<'PY'
import os, subprocess, sys

# The least time of a plan and the least that the processor was at work in a process, in milliseconds, the peak of memory in megabytes, and
# what the plan said.
def best(count, units):
    times, works, peak, said = [], [], 0, ""
    for _ in range(5):
        playing = subprocess.Popen([sys.argv[1], str(count), str(units)], stdout=subprocess.PIPE, text=True)
        said = playing.stdout.read()
        _, status, usage = os.wait4(playing.pid, 0)
        assert status == 0 and len(said.split()) == 4, said
        times.append(int(said.split()[0]) / 1000)
        works.append((usage.ru_utime + usage.ru_stime) * 1000)
        peak = max(peak, usage.ru_maxrss * 1024 / 1e6)
    return min(times), min(works), peak, said.split()

print(f"nodes    units   plan ms  process ms  peak MB   cost, units taken  ({os.cpu_count()} processors, load {os.getloadavg()[0]:.1f})")
for count, units in ((32, 65536), (32, 16384), (32, 4096), (8, 65536), (1, 0)):
    time, work, peak, said = best(count, units)
    print(f"{said[1]:>5} {units:>8} {time:9.1f} {work:11.1f} {peak:8.1f}   {said[2]}, {said[3]}")
PY
