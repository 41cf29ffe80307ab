#!/usr/bin/env bash
# Times each operator, as LLVM builds it, on an array of SIDE by SIDE (1024 where no side is given): a run; a trace backward of one cell
# and of all cells; the lineage of all pieces, for a full strategy; and where the operator has a mapping, the mapped image backward of one
# cell and of all cells, else the lineage of all pieces for a payload and for a composite strategy. Each time is the best of five, in
# microseconds, and behind it stands its ratio to a plain copy of the array's values in the same run. `regions` is also run
# on a chessboard, on pairs of cells, on one block and on one winding line, and preparing it for its values, preparing it for its lineage, and
# a run by what was prepared for values, are timed by themselves. It is no test: nothing is compared. It works in a folder of its own.
set -euo pipefail
side=${1:-1024}
root=$(cd "$(dirname "$0")/.." && pwd)
work=$(mktemp -d)
trap 'rm -rf "$work"' EXIT
mkdir -p "$work/crates/times/src" "$work/crates/times/specs" "$work/crates/times/proofs"
. "$root/bench/apart.sh"
take_crates sz_cells sz_spec sz_ops
echo 'times: sz_cells sz_spec sz_ops anyhow' >>"$work/crates.txt"
touch "$work/crates/times/specs/Lib.antt"
echo 'pub mod Sites' >"$work/crates/times/proofs/Lib.antt"
write_sites "$work/crates/times/proofs/Sites.antt"
sed "s/SIDE_HERE/$side/" >"$work/crates/times/src/main.rt" <<'RT'
#![tactic(auto)]

ghost use Rattle.std.specs.Prelude.{◌≡◌, length, map, true, All, IfSome};
ghost use Rattle.std.specs.Arc.{arc_value};
ghost use Rattle.sz_spec.specs.Values.{extents_of};
ghost use Rattle.sz_spec.specs.Shapes.{arity, has_right_parameters};
ghost use Rattle.sz_spec.specs.Modes.{has_mapping, supports};
ghost use Rattle.sz_ops.specs.Aids.{aid_of};

use std::alloc::Global;
use std::sync::Arc;
use std::time::Instant;
use sz_cells::{CellBits, Run, Shape};
use sz_ops::{Aid, image_by_map, piece, prepare, prepare_lineage, run, run_prepared, trace};
use sz_spec::{Array, Dir, Fold, Kernel, Op, OpAt, Strategy, Tally, pieces_of, supports};

const SIDE: u32 = SIDE_HERE;
const TURNS: u32 = 5;

/// A picture of the side: what each cell holds is told by its row and its column.
#[derive(Clone, Copy)]
enum Picture {
    /// Numbers below 1000, drawn.
    Drawn,
    /// Numbers below 1000 in one row, as a table's columns.
    Table,
    /// 9 at every second cell, as on a chessboard, and else 0.
    Chessboard,
    /// 9 at two cells of three in every second row, and else 0.
    Pairs,
    /// 9 everywhere.
    Block,
    /// One line of 9 that winds through all rows: full rows, joined at one end and then the other.
    Winding,
}

fn value_of(picture: Picture, row: u32, col: u32, drawn: u64) -> i64 {
    let nine = match picture {
        Picture::Drawn | Picture::Table => return (drawn % 1000) as i64,
        Picture::Chessboard => (row % 2) == (col % 2),
        Picture::Pairs => row % 2 == 0 && col % 3 < 2,
        Picture::Block => true,
        Picture::Winding => {
            row % 2 == 0 || (row % 4 == 1 && col == SIDE - 1) || (row % 4 == 3 && col == 0)
        }
    };
    if nine { 9 } else { 0 }
}

/// An array of a picture.
fn drawn(alloc: Global, shape: Shape, picture: Picture) -> Option<Arc<Array>>
    ensures { IfSome result (λ a. (arc_value a).extent ≡ shape) }
{
    let mut cells = Vec::new(alloc);
    let mut x = 1u64;
    for index in 0..shape.size() {
        x = x
            .wrapping_mul(6_364_136_223_846_793_005)
            .wrapping_add(1_442_695_040_888_963_407);
        let cell = shape.cell_at(index);
        cells
            .push(Some(value_of(picture, cell.row, cell.col, x >> 33)))
            .ok()?;
    }
    let array = Array::make(shape, cells)?;
    Arc::new(alloc, array).ok()
}

/// One more owner of an array.
fn owner(array: &Arc<Array>) -> Option<Arc<Array>>
    ensures { IfSome result (λ a. arc_value a ≡ arc_value array.now) }
{
    Arc::try_clone(array).ok()
}

/// Microseconds since a moment.
fn since(rt: &HostRuntime, start: Instant) -> Option<u64> {
    let time = start.elapsed(rt).ok()?;
    u64::try_from(time.as_nanos() / 1000).ok()
}

/// The best of some copies of an array's values.
fn copies(rt: &HostRuntime, input: &Array) -> Option<u64> {
    let mut best = u64::MAX;
    for _ in 0..TURNS {
        let start = Instant::now(rt).ok()?;
        let copy = input.cells().to_vec(rt.alloc()).ok()?;
        best = best.min(since(rt, start)?);
        drop(copy);
    }
    Some(best)
}

/// The best of some runs.
fn runs(rt: &HostRuntime, at: &OpAt, inputs: &[Arc<Array>]) -> Option<u64>
    requires inputs { extents_of (map (λ a. arc_value a) inputs.now) ≡ at.now.ins }
{
    let mut best = u64::MAX;
    for _ in 0..TURNS {
        let start = Instant::now(rt).ok()?;
        let made = run(rt.alloc(), at, inputs).ok()?;
        best = best.min(since(rt, start)?);
        drop(made);
    }
    Some(best)
}

/// The best of some times of preparing.
fn prepares(rt: &HostRuntime, at: &OpAt, inputs: &[Arc<Array>]) -> Option<u64>
    requires inputs { extents_of (map (λ a. arc_value a) inputs.now) ≡ at.now.ins }
{
    let mut best = u64::MAX;
    for _ in 0..TURNS {
        let start = Instant::now(rt).ok()?;
        let aid = prepare(rt.alloc(), at, inputs).ok()?;
        best = best.min(since(rt, start)?);
        drop(aid);
    }
    Some(best)
}

/// The best of some times of preparing for lineage.
fn lineage_prepares(rt: &HostRuntime, at: &OpAt, inputs: &[Arc<Array>]) -> Option<u64>
    requires inputs { extents_of (map (λ a. arc_value a) inputs.now) ≡ at.now.ins }
{
    let mut best = u64::MAX;
    for _ in 0..TURNS {
        let start = Instant::now(rt).ok()?;
        let aid = prepare_lineage(rt.alloc(), at, inputs).ok()?;
        best = best.min(since(rt, start)?);
        drop(aid);
    }
    Some(best)
}

/// The best of some runs by what was prepared.
fn prepared_runs(rt: &HostRuntime, at: &OpAt, inputs: &[Arc<Array>], aid: &Aid) -> Option<u64>
    requires inputs { extents_of (map (λ a. arc_value a) inputs.now) ≡ at.now.ins }
    requires aid { aid.now ≡ aid_of at.now.op (map (λ a. arc_value a) inputs.now) }
{
    let mut best = u64::MAX;
    for _ in 0..TURNS {
        let start = Instant::now(rt).ok()?;
        let made = run_prepared(rt.alloc(), at, inputs, aid).ok()?;
        best = best.min(since(rt, start)?);
        drop(made);
    }
    Some(best)
}

/// The set of one cell, or of all cells, of a shape.
fn asked(alloc: Global, shape: Shape, all: bool) -> Option<CellBits>
    ensures { IfSome result (λ b. b.extent ≡ shape) }
{
    let mut bits = CellBits::new(alloc, shape).ok()?;
    if all {
        bits.add_run(Run {
            first: 0,
            last: shape.size() - 1,
        });
    } else {
        bits.set(shape.cell_at(shape.size() / 2));
    }
    Some(bits)
}

/// The best of some traces backward of one cell or of all.
fn traces(rt: &HostRuntime, at: &OpAt, inputs: &[Arc<Array>], all: bool) -> Option<u64>
    requires inputs { extents_of (map (λ a. arc_value a) inputs.now) ≡ at.now.ins }
{
    let from = asked(rt.alloc(), at.out(), all)?;
    at.out().size();
    let shape = *at.ins().first()?;
    let mut best = u64::MAX;
    for _ in 0..TURNS {
        let mut to = CellBits::new(rt.alloc(), shape).ok()?;
        let mut tally = Tally::new();
        let start = Instant::now(rt).ok()?;
        trace(
            rt.alloc(),
            at,
            inputs,
            Dir::Back,
            0,
            &from,
            &mut to,
            &mut tally,
        )
        .ok()?;
        best = best.min(since(rt, start)?);
    }
    Some(best)
}

/// The best of some times of the lineage of all pieces, each dropped once it is made.
fn pieces(rt: &HostRuntime, at: &OpAt, inputs: &[Arc<Array>], list: &[Strategy]) -> Option<u64>
    requires inputs { extents_of (map (λ a. arc_value a) inputs.now) ≡ at.now.ins }
    requires supported { All (λ s. supports at.now.op s ≡ true) list.now }
{
    let aid = prepare_lineage(rt.alloc(), at, inputs).ok()?;
    pieces_by(rt, at, inputs, &aid, list)
}

/// The same, by what was prepared.
fn pieces_by(
    rt: &HostRuntime,
    at: &OpAt,
    inputs: &[Arc<Array>],
    aid: &Aid,
    list: &[Strategy],
) -> Option<u64>
    requires inputs { extents_of (map (λ a. arc_value a) inputs.now) ≡ at.now.ins }
    requires supported { All (λ s. supports at.now.op s ≡ true) list.now }
    requires aid { aid.now ≡ aid_of at.now.op (map (λ a. arc_value a) inputs.now) }
{
    let mut best = u64::MAX;
    for _ in 0..TURNS {
        let start = Instant::now(rt).ok()?;
        for k in 0..pieces_of(at.out()) {
            let mut tally = Tally::new();
            let made = piece(rt.alloc(), at, inputs, aid, k, list, &mut tally).ok()?;
            drop(made);
        }
        best = best.min(since(rt, start)?);
    }
    Some(best)
}

/// The best of some mapped images backward.
fn images(rt: &HostRuntime, at: &OpAt, all: bool) -> Option<u64>
    requires { has_mapping at.now.op ≡ true }
{
    let from = asked(rt.alloc(), at.out(), all)?;
    let shape = *at.ins().first()?;
    let mut best = u64::MAX;
    for _ in 0..TURNS {
        let mut to = CellBits::new(rt.alloc(), shape).ok()?;
        let start = Instant::now(rt).ok()?;
        image_by_map(at, Dir::Back, 0, &from, &mut to);
        best = best.min(since(rt, start)?);
    }
    Some(best)
}

/// A time, and its ratio to another one, in hundredths.
fn show(rt: &HostRuntime, what: &str, time: u64, copy: u64) -> Option<()> {
    let ratio = time.saturating_mul(100) / copy.max(1);
    print!(rt; "  {what} {time} us ({}.{:02})", ratio / 100, ratio % 100).ok()
}

/// The times of an operator over these inputs.
fn times(rt: &HostRuntime, name: &str, at: &OpAt, inputs: &[Arc<Array>], copy: u64) -> Option<()>
    requires inputs { extents_of (map (λ a. arc_value a) inputs.now) ≡ at.now.ins }
{
    print!(rt; "{name}:").ok()?;
    show(rt, "run", runs(rt, at, inputs)?, copy)?;
    show(rt, "trace of one", traces(rt, at, inputs, false)?, copy)?;
    show(rt, "trace of all", traces(rt, at, inputs, true)?, copy)?;
    if supports(at.op(), Strategy::FullOneB) {
        show(rt, "full pieces", pieces(rt, at, inputs, &[Strategy::FullOneB])?, copy)?;
    }
    if supports(at.op(), Strategy::PayOne) {
        show(rt, "pay pieces", pieces(rt, at, inputs, &[Strategy::PayOne])?, copy)?;
    }
    if supports(at.op(), Strategy::CompOne) {
        show(rt, "comp pieces", pieces(rt, at, inputs, &[Strategy::CompOne])?, copy)?;
    }
    if supports(at.op(), Strategy::Map) {
        show(rt, "image of one", images(rt, at, false)?, copy)?;
        show(rt, "image of all", images(rt, at, true)?, copy)?;
    }
    println!(rt; "").ok()
}

/// An operator between inputs of these shapes, where its shape rule holds.
#[tactic(auto, using(crate::proofs::Sites::given_ins))]
fn placed(op: Op, ins: Vec<Shape>) -> Option<OpAt>
    requires arity { length ins.items ≡ arity op }
    requires right { has_right_parameters op ≡ true }
    ensures { IfSome result (λ a. a.ins ≡ ins.items) }
{
    match OpAt::of(op, ins) {
        Ok(at) => Some(at),
        Err(_) => None,
    }
}

fn one(rt: &HostRuntime, name: &str, op: Op, input: &Arc<Array>, copy: u64) -> Option<()>
    requires one { arity op ≡ 1 }
    requires right { has_right_parameters op ≡ true }
{
    let inputs = [owner(input)?];
    let at = placed(op, vec![in rt.alloc(); input.shape()].ok()?)?;
    times(rt, name, &at, &inputs, copy)
}

fn two(
    rt: &HostRuntime,
    name: &str,
    op: Op,
    input: &Arc<Array>,
    other: &Arc<Array>,
    copy: u64,
) -> Option<()>
    requires two { arity op ≡ 2 }
    requires right { has_right_parameters op ≡ true }
{
    let inputs = [owner(input)?, owner(other)?];
    let ins = vec![in rt.alloc(); input.shape(), other.shape()].ok()?;
    let at = placed(op, ins)?;
    times(rt, name, &at, &inputs, copy)
}

fn weights(alloc: Global) -> Option<Vec<i64>> {
    let mut weights = Vec::new(alloc);
    for place in 0..81i64 {
        weights.push(place % 2).ok()?;
    }
    Some(weights)
}

fn elementwise(rt: &HostRuntime, input: &Arc<Array>, copy: u64) -> Option<()> {
    one(rt, "neg", Op::Neg, input, copy)?;
    one(rt, "abs", Op::Abs, input, copy)?;
    one(rt, "add_k", Op::AddK { k: 7 }, input, copy)?;
    one(rt, "mul_k", Op::MulK { k: 7 }, input, copy)?;
    one(rt, "clip", Op::Clip { lo: 100, hi: 900 }, input, copy)?;
    two(rt, "add", Op::Add, input, input, copy)?;
    two(rt, "sub", Op::Sub, input, input, copy)?;
    two(rt, "mul", Op::Mul, input, input, copy)?;
    two(rt, "min", Op::Min, input, input, copy)?;
    two(rt, "max", Op::Max, input, input, copy)
}

fn others(rt: &HostRuntime, input: &Arc<Array>, table: &Arc<Array>, copy: u64) -> Option<()> {
    let alloc = rt.alloc();
    one(rt, "transpose", Op::Transpose, input, copy)?;
    let (r0, c0, h, w) = (1, 1, SIDE - 2, SIDE - 2);
    one(rt, "slice", Op::Slice { r0, c0, h, w }, input, copy)?;
    two(rt, "lookup", Op::Lookup, input, table, copy)?;
    let fold = Fold::Sum;
    one(rt, "fold_layers", Op::FoldLayers { fold }, input, copy)?;
    let fold = Fold::Sum;
    one(rt, "block 4 4", Op::Block { fold, h: 4, w: 4 }, input, copy)?;
    let plus = vec![in alloc; 0, 1, 0, 1, 1, 1, 0, 1, 0].ok()?;
    convolve(rt, "convolve 3 by 3", 3, plus, input, copy)?;
    convolve(rt, "convolve 9 by 9", 9, weights(alloc)?, input, copy)?;
    one(rt, "clean", Op::Clean { t: 900 }, input, copy)
}

fn convolve(
    rt: &HostRuntime,
    name: &str,
    side: u32,
    weights: Vec<i64>,
    input: &Arc<Array>,
    copy: u64,
) -> Option<()> {
    let inputs = [owner(input)?];
    let kernel = Kernel::make(side, side, weights);
    let op = Op::Convolve { kernel };
    if !sz_spec::has_right_parameters(&op) {
        return None;
    }
    let at = placed(op, vec![in rt.alloc(); input.shape()].ok()?)?;
    times(rt, name, &at, &inputs, copy)
}

/// The times of regions of at least `t`, and of preparing them.
fn regions_of(rt: &HostRuntime, name: &str, t: i64, input: &Arc<Array>, copy: u64) -> Option<()> {
    let inputs = [owner(input)?];
    let at = placed(Op::Regions { t }, vec![in rt.alloc(); input.shape()].ok()?)?;
    print!(rt; "{name}:").ok()?;
    show(rt, "prepare", prepares(rt, &at, &inputs)?, copy)?;
    show(rt, "prepare for lineage", lineage_prepares(rt, &at, &inputs)?, copy)?;
    let aid = prepare(rt.alloc(), &at, &inputs).ok()?;
    show(rt, "run prepared", prepared_runs(rt, &at, &inputs, &aid)?, copy)?;
    println!(rt; "").ok()?;
    times(rt, name, &at, &inputs, copy)
}

fn regions(rt: &HostRuntime, name: &str, shape: Shape, picture: Picture, copy: u64) -> Option<()> {
    let input = drawn(rt.alloc(), shape, picture)?;
    regions_of(rt, name, 5, &input, copy)
}

fn all(rt: &HostRuntime) -> Option<()> {
    let alloc = rt.alloc();
    let shape = Shape::make(SIDE, SIDE)?;
    let input = drawn(alloc, shape, Picture::Drawn)?;
    let table = drawn(alloc, Shape::make(1, 1000)?, Picture::Table)?;
    let copy = copies(rt, &input)?;
    println!(rt; "copy of the values: {copy} us").ok()?;
    elementwise(rt, &input, copy)?;
    others(rt, &input, &table, copy)?;
    regions_of(rt, "regions, drawn", 500, &input, copy)?;
    regions(rt, "regions, chessboard", shape, Picture::Chessboard, copy)?;
    regions(rt, "regions, pairs", shape, Picture::Pairs, copy)?;
    regions(rt, "regions, one block", shape, Picture::Block, copy)?;
    regions(rt, "regions, winding line", shape, Picture::Winding, copy)
}

fn main(rt: HostRuntime) -> anyhow::Result<()> {
    if all(&rt).is_none() {
        println!(rt; "no memory")?;
    }
    Ok(())
}
RT
cd "$work/crates/times"
rt run >"$work/log" 2>&1 || [ -x out/times ] || { cat "$work/log"; exit 1; }
./out/times
