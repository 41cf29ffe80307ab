#!/usr/bin/env bash
# Times refreshes, as LLVM builds them, on arrays of 256, 512 and 1,024 a side (or of the sides that are given), after one cell of a base
# array was changed, a row, a quarter of its cells, and all: of `clean, convolve, block, clip`, each on the one before, of the same with
# `regions` behind `convolve`, of operators alone, and of `lookup`, where keys are changed and where the table is. Each is measured in a
# process of its own, in which the flow is also started on the same arrays and the outputs are copied; each time is the best of seven, in
# microseconds. Behind a refresh stand how many cells it computed, its ratios to the copy and to the start, and what it takes beyond the
# copy for each cell that it computed, in nanoseconds. It is no test: nothing is compared. It needs python3. Run it from anywhere; it works
# in a folder of its own.
set -euo pipefail
root=$(cd "$(dirname "$0")/.." && pwd)
work=$(mktemp -d)
trap 'rm -rf "$work"' EXIT
here="$work/crates/refreshes"
mkdir -p "$here/src" "$here/specs"
. "$root/bench/apart.sh"
take_crates sz_cells sz_spec sz_flow sz_refresh
echo 'refreshes: sz_cells sz_spec sz_flow sz_refresh anyhow' >>"$work/crates.txt"
# what a refresh asks for is tested as the tests of refreshes test it
(cd "$root/crates/trials_refresh" && tar cf - specs proofs src/agreed.rt src/asked.rt) | tar xf - -C "$here"
rm -rf "$here/proofs/refreshed"
grep -rl trials_refresh "$here" | xargs sed -i 's/trials_refresh/refreshes/g'
sed -i -e 's/use sz_refresh::{Refreshed, refresh};/use crate::times::{Refreshed, refresh};/' -e 's/Threads + Sync>/Threads + Clock + Sync>/' \
    -e 's/^use std::thread::Threads;$/&\nuse std::time::Clock;/' "$here/src/asked.rt"
cat >"$here/src/times.rt" <<'RT'
//! Times of refreshes.

ghost use Rattle.std.specs.Prelude.{◌≡◌, ◌+◌, ◌*◌, ◌<◌, ◌^◌, length, map, true, List};
ghost use Rattle.std.specs.Arc.{arc_value};
ghost use Rattle.sz_spec.specs.Values.{Grid, extents_of, extent_at};
ghost use Rattle.sz_spec.specs.Flows.{is_well_formed};
ghost use Rattle.sz_flow.specs.Executions.{execution_of, FlowFits};
ghost use Rattle.sz_refresh.specs.Before.{IsBefore};

use std::alloc::Global;
use std::sync::Arc;
use std::thread::Threads;
use std::time::{Clock, Instant};
use sz_cells::{CellSet, NoMemory};
use sz_flow::NodeRun;
use sz_spec::{Array, Flow, Tally};

pub const TURNS: u32 = 7;

/// What the best of some refreshes took, and how many cells it computed.
#[derive(Clone, Copy, Drop)]
pub struct Refreshed {
    pub nanos: u64,
    pub cells: u64,
}

/// Nanoseconds since a moment, or as many as there are where the clock fails.
pub fn since<R: Clock>(rt: &R, start: Option<Instant>) -> u64 {
    match start {
        Some(start) => match start.elapsed(rt) {
            Ok(time) => u64::try_from(time.as_nanos()).unwrap_or(u64::MAX),
            Err(_) => u64::MAX,
        },
        None => u64::MAX,
    }
}

/// This moment.
pub fn now<R: Clock>(rt: &R) -> Option<Instant> {
    Instant::now(rt).ok()
}

/// The best of some refreshes.
pub fn refresh<R: Threads + Clock + Sync>(
    rt: &R,
    alloc: Global,
    flow: &Flow,
    old: &[NodeRun],
    base: &[Arc<Array>],
    input: u32,
    changed: &CellSet,
    _tally: &mut Tally,
) -> Result<Refreshed, NoMemory>
    requires well_formed { is_well_formed flow.now ≡ true }
    requires count { length base.now ≡ flow.now.inputs }
    requires fits { FlowFits flow.now (map (λ a. arc_value a) base.now) }
    requires shape { changed.now.extent
        ≡ extent_at (extents_of (map (λ a. arc_value a) base.now)) input }
    requires before { (before : List Grid) × IsBefore flow.now (map execution_of old.now)
        (map (λ a. arc_value a) base.now) input changed.now before }
{
    let mut best = Refreshed {
        nanos: u64::MAX,
        cells: 0,
    };
    for _ in 0..TURNS {
        let mut tally = Tally::new();
        let start = now(rt);
        let made = sz_refresh::refresh(rt, alloc, flow, old, base, input, changed, &mut tally)?;
        let nanos = since(rt, start);
        drop(made);
        best.nanos = best.nanos.min(nanos);
        best.cells = tally.count();
    }
    Ok(best)
}
RT
cat >"$here/src/flows.rt" <<'RT'
//! The flows, the arrays and the changed cells.

use std::alloc::Global;
use std::sync::Arc;
use sz_cells::{CellBits, CellSet, Run, Shape};
use sz_spec::{Array, Flow, Fold, Kernel, Node, Op, SourceList, SourceRef};

/// The number that is drawn after another one.
fn drawn_after(x: u64) -> u64 {
    x.wrapping_mul(6_364_136_223_846_793_005)
        .wrapping_add(1_442_695_040_888_963_407)
}

/// An array of numbers below 1000, drawn.
pub fn drawn(alloc: Global, shape: Shape) -> Option<Arc<Array>> {
    let mut cells = Vec::new(alloc);
    let mut x = 1u64;
    for _ in 0..shape.size() {
        x = drawn_after(x);
        cells.push(Some(((x >> 33) % 1000) as i64)).ok()?;
    }
    let array = Array::make(shape, cells)?;
    Arc::new(alloc, array).ok()
}

/// An array that differs from another in the cells of a set, where it holds 999 less what was there.
pub fn turned(alloc: Global, array: &Array, set: &CellSet) -> Option<Arc<Array>> {
    let shape = array.shape();
    let mut cells = Vec::new(alloc);
    for index in 0..shape.size() {
        let cell = shape.cell_at(index);
        let value = if set.has(cell) { Some(999) } else { Some(0) };
        cells.push(difference(value, array.at(cell))).ok()?;
    }
    let array = Array::make(shape, cells)?;
    Arc::new(alloc, array).ok()
}

/// A value less another one, or the other one where that is 0.
fn difference(from: Option<i64>, value: Option<i64>) -> Option<i64> {
    match from {
        Some(0) => value,
        Some(number) => Some(number.wrapping_sub(value?)),
        None => None,
    }
}

/// Adds a run of indexes, where the shape has them.
fn add(bits: &mut CellBits, first: u32, last: u32) {
    let size = bits.shape().size();
    if first <= last && last < size {
        bits.add_run(Run { first, last });
    }
}

/// The changed cells of a shape, by a number: one in its middle, its middle row, half of its rows by
/// half of its columns, or all.
pub fn part_of(alloc: Global, shape: Shape, part: u32) -> Option<CellSet> {
    let mut bits = CellBits::new(alloc, shape).ok()?;
    let size = shape.size();
    let cols = shape.cols;
    let middle = (shape.rows / 2).wrapping_mul(cols);
    match part {
        0 => add(&mut bits, middle.wrapping_add(cols / 2), middle.wrapping_add(cols / 2)),
        1 => add(&mut bits, middle, middle.wrapping_add(cols).wrapping_sub(1)),
        2 => {
            for row in 0..shape.rows / 2 {
                let first = row.wrapping_mul(cols);
                add(&mut bits, first, first.wrapping_add(cols / 2).wrapping_sub(1));
            }
        }
        _ => add(&mut bits, 0, size - 1),
    }
    bits.to_set(alloc).ok()
}

/// A node over the first so many, or over the first input where there is none.
fn after(alloc: Global, op: Op, nodes: u32) -> Option<Node> {
    let source = match nodes.checked_sub(1) {
        Some(last) => SourceRef::Node(last),
        None => SourceRef::Input(0),
    };
    let from = SourceList::of(vec![in alloc; source].ok()?);
    Some(Node { op, from })
}

fn clean() -> Op {
    Op::Clean { t: 900 }
}

fn clip() -> Op {
    Op::Clip { lo: 100, hi: 4500 }
}

fn plus(alloc: Global) -> Option<Op> {
    let weights = vec![in alloc; 0, 1, 0, 1, 1, 1, 0, 1, 0].ok()?;
    let kernel = Kernel::make(3, 3, weights);
    Some(Op::Convolve { kernel })
}

fn block() -> Op {
    Op::Block {
        fold: Fold::Max,
        h: 4,
        w: 4,
    }
}

fn plain(alloc: Global) -> Option<Flow> {
    let first = after(alloc, clean(), 0)?;
    let second = after(alloc, plus(alloc)?, 1)?;
    let third = after(alloc, block(), 2)?;
    let fourth = after(alloc, clip(), 3)?;
    Some(Flow::make(1, vec![in alloc; first, second, third, fourth].ok()?))
}

fn labelled(alloc: Global) -> Option<Flow> {
    let first = after(alloc, clean(), 0)?;
    let second = after(alloc, plus(alloc)?, 1)?;
    let third = after(alloc, Op::Regions { t: 2500 }, 2)?;
    let fourth = after(alloc, block(), 3)?;
    let fifth = after(alloc, clip(), 4)?;
    Some(Flow::make(1, vec![in alloc; first, second, third, fourth, fifth].ok()?))
}

fn alone(alloc: Global, op: Op) -> Option<Flow> {
    let node = after(alloc, op, 0)?;
    Some(Flow::make(1, vec![in alloc; node].ok()?))
}

/// The flow of a number.
pub fn flow_of(alloc: Global, number: u32) -> Option<Flow> {
    match number {
        0 => plain(alloc),
        1 => labelled(alloc),
        2 => alone(alloc, clean()),
        3 => alone(alloc, plus(alloc)?),
        4 => alone(alloc, block()),
        5 => alone(alloc, Op::Regions { t: 500 }),
        _ => alone(alloc, Op::FoldLayers { fold: Fold::Sum }),
    }
}

/// The shape of the array that it takes.
pub fn shape_of(number: u32, side: u32) -> Option<Shape> {
    if number == 6 {
        Shape::make_layers(4, side / 4, side)
    } else {
        Shape::make(side, side)
    }
}

/// The flow of a lookup.
pub fn lookup(alloc: Global) -> Option<Flow> {
    let from = vec![in alloc; SourceRef::Input(0), SourceRef::Input(1)].ok()?;
    let from = SourceList::of(from);
    let op = Op::Lookup;
    Some(Flow::make(2, vec![in alloc; Node { op, from }].ok()?))
}
RT
cat >"$here/src/measure.rt" <<'RT'
//! What is measured of a flow over base arrays.

ghost use Rattle.std.specs.Prelude.{◌≡◌, length, map, true};
ghost use Rattle.std.specs.Arc.{arc_value};
ghost use Rattle.sz_spec.specs.Flows.{is_well_formed};
ghost use Rattle.sz_flow.specs.Executions.{FlowFits};

use crate::asked::{fits, refresh_after};
use crate::flows::{drawn, flow_of, lookup, part_of, shape_of, turned};
use crate::times::{TURNS, now, since};
use std::alloc::Global;
use std::sync::Arc;
use std::thread::Threads;
use std::time::Clock;
use sz_cells::{CellSet, Shape};
use sz_flow::{NodeRun, run_all};
use sz_spec::{Array, Flow, Tally};

/// The best times of copying the outputs, of a start and of a refresh, and the cells that it
/// computed.
#[derive(Clone, Copy)]
pub struct Measure {
    pub copy: u64,
    pub start: u64,
    pub refresh: u64,
    pub cells: u64,
}

/// How long one start takes.
fn start_once<R: Threads + Clock + Sync>(
    rt: &R,
    alloc: Global,
    flow: &Flow,
    base: &[Arc<Array>],
) -> Option<u64>
    requires well_formed { is_well_formed flow.now ≡ true }
    requires count { length base.now ≡ flow.now.inputs }
    requires fits { FlowFits flow.now (map (λ a. arc_value a) base.now) }
{
    let start = now(rt);
    let runs = run_all(rt, alloc, flow, base).ok()?;
    let time = since(rt, start);
    drop(runs);
    Some(time)
}

/// The best of some starts.
fn starts<R: Threads + Clock + Sync>(
    rt: &R,
    alloc: Global,
    flow: &Flow,
    base: &[Arc<Array>],
) -> Option<u64>
    requires well_formed { is_well_formed flow.now ≡ true }
    requires count { length base.now ≡ flow.now.inputs }
    requires fits { FlowFits flow.now (map (λ a. arc_value a) base.now) }
{
    let mut best = u64::MAX;
    for _ in 0..TURNS {
        best = best.min(start_once(rt, alloc, flow, base)?);
    }
    Some(best)
}

/// How long one copy of the outputs takes.
fn copy_once<R: Clock>(rt: &R, alloc: Global, runs: &[NodeRun]) -> Option<u64> {
    let mut copies = Vec::new(alloc);
    let start = now(rt);
    for run in runs {
        copies.push(run.out.cells().to_vec(alloc).ok()?).ok()?;
    }
    let time = since(rt, start);
    drop(copies);
    Some(time)
}

/// The best of some copies of the outputs.
fn copies<R: Clock>(rt: &R, alloc: Global, runs: &[NodeRun]) -> Option<u64> {
    let mut best = u64::MAX;
    for _ in 0..TURNS {
        best = best.min(copy_once(rt, alloc, runs)?);
    }
    Some(best)
}

/// The times of a flow over base arrays of which some cells of one are changed.
fn measured<R: Threads + Clock + Sync>(
    rt: &R,
    alloc: Global,
    flow: &Flow,
    before: &[Arc<Array>],
    base: &[Arc<Array>],
    input: u32,
    changed: &CellSet,
) -> Option<Measure> {
    if !fits(alloc, flow, before).ok()? || !fits(alloc, flow, base).ok()? {
        return None;
    }
    let start = starts(rt, alloc, flow, base)?;
    let old = run_all(rt, alloc, flow, before).ok()?;
    let copy = copies(rt, alloc, &old)?;
    let mut tally = Tally::new();
    let made = refresh_after(
        rt, alloc, flow, before, &old, base, input, changed, &mut tally,
    );
    let best = made.ok()??;
    let (refresh, cells) = (best.nanos, best.cells);
    Some(Measure {
        copy,
        start,
        refresh,
        cells,
    })
}

/// The times of the flow of a number, on arrays of a side, of which a part is changed.
pub fn times_of<R: Threads + Clock + Sync>(
    rt: &R,
    alloc: Global,
    number: u32,
    part: u32,
    side: u32,
) -> Option<Measure> {
    let shape = shape_of(number, side)?;
    let first = drawn(alloc, shape)?;
    match number {
        7 => keys_changed(rt, alloc, first, drawn(alloc, Shape::make(1, 1000)?)?, part),
        8 => table_changed(rt, alloc, first, drawn(alloc, Shape::make(1, 1000)?)?, part),
        _ => array_changed(rt, alloc, number, first, part),
    }
}

fn array_changed<R: Threads + Clock + Sync>(
    rt: &R,
    alloc: Global,
    number: u32,
    first: Arc<Array>,
    part: u32,
) -> Option<Measure> {
    let flow = flow_of(alloc, number)?;
    let changed = part_of(alloc, first.shape(), part)?;
    let second = turned(alloc, &first, &changed)?;
    measured(rt, alloc, &flow, &[first], &[second], 0, &changed)
}

fn keys_changed<R: Threads + Clock + Sync>(
    rt: &R,
    alloc: Global,
    keys: Arc<Array>,
    table: Arc<Array>,
    part: u32,
) -> Option<Measure> {
    let flow = lookup(alloc)?;
    let changed = part_of(alloc, keys.shape(), part)?;
    let second = turned(alloc, &keys, &changed)?;
    let same = Arc::try_clone(&table).ok()?;
    measured(rt, alloc, &flow, &[keys, table], &[second, same], 0, &changed)
}

fn table_changed<R: Threads + Clock + Sync>(
    rt: &R,
    alloc: Global,
    keys: Arc<Array>,
    table: Arc<Array>,
    part: u32,
) -> Option<Measure> {
    let flow = lookup(alloc)?;
    let changed = part_of(alloc, table.shape(), part)?;
    let second = turned(alloc, &table, &changed)?;
    let same = Arc::try_clone(&keys).ok()?;
    measured(rt, alloc, &flow, &[keys, table], &[same, second], 1, &changed)
}
RT
cat >"$here/src/main.rt" <<'RT'
#![tactic(auto)]

mod agreed;
mod asked;
mod flows;
mod measure;
mod times;

use crate::measure::times_of;
use std::env;

/// A number that is given as an argument.
fn number(text: Option<String>) -> u32 {
    text.and_then(|text| text.as_str().parse().ok()).unwrap_or(0)
}

fn main(rt: HostRuntime) -> anyhow::Result<()> {
    let mut words = env::args(&rt)?;
    let _program = words.next();
    let flow = number(words.next());
    let part = number(words.next());
    let side = number(words.next());
    let Some(made) = times_of(&rt, rt.alloc(), flow, part, side) else {
        println!(rt; "no memory")?;
        return Ok(());
    };
    println!(rt; "{} {} {} {}", made.copy, made.start, made.refresh, made.cells)?;
    Ok(())
}
RT
cd "$here"
rt run -- 0 0 16 >"$work/log" 2>&1 || { cat "$work/log"; exit 1; }
python3 - ./out/refreshes "$@" <<'PY'
import os, subprocess, sys

flows = ["clean, convolve, block, clip", "the same with regions", "clean", "convolve", "block", "regions", "fold_layers",
         "lookup, keys", "lookup, table"]
parts = ["one", "row", "quarter", "all"]
print(f"({os.cpu_count()} processors, load {os.getloadavg()[0]:.1f})")
print(f"{'flow':30} {'side':>5} {'changed':8} {'copy us':>9} {'start us':>9} {'refresh us':>10} {'cells':>9} {'to copy':>8} {'to start':>8}"
      f" {'beyond the copy, ns a cell':>27}")
for number, flow in enumerate(flows):
    for side in [int(x) for x in sys.argv[2:]] or [256, 512, 1024]:
        for place, part in enumerate(parts):
            words = [sys.argv[1], str(number), str(place), str(side)]
            said = subprocess.run(words, stdout=subprocess.PIPE, text=True, check=True).stdout.split()
            assert len(said) == 4, said
            copy, start, refresh, cells = (int(x) for x in said)
            print(f"{flow:30} {side:5} {part:8} {copy / 1e3:9.0f} {start / 1e3:9.0f} {refresh / 1e3:10.0f} {cells:9} {refresh / copy:8.2f}"
                  f" {refresh / start:8.2f} {max(refresh - copy, 0) / max(cells, 1):27.1f}", flush=True)
PY
