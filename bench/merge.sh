#!/usr/bin/env bash
# Times the merging of the stores of a node, as LLVM builds it, beside the building of the same store, on arrays of 256, 512 and 1,024 a side
# (or of the sides that are given). The stores are of full lineage by sets of output cells (`full_many_b`), of a convolution 3 by 3 (a plus: each
# cell has a lineage of its own), of the connected regions of one block, of drawn numbers from 500 on and of a chessboard, of blocks of 4 by 4,
# and of a transposition.
#
# Each measure is a process of its own: one that makes the arrays alone, one that makes the lineages of all pieces and drops each at once, one
# that also places them, and one that also merges. So `make`, `place` and `merge` are what a process takes more than the one before it, in
# milliseconds of the processor, the best of three, and likewise `built` and `merged` are the bytes of memory, a cell, at the peak of building
# and of merging more than the peak of the arrays alone. Behind these stand what merging takes beside building (making and placing), and its
# peak beside that of building (0 where building does not raise the peak), each with a star where it is past 1.5 and past 3; then the bytes of
# the stores before and after, a cell, and the number of region pairs before and after. It is no test: nothing is compared. It needs python3,
# works in a folder of its own, and takes what was built in this checkout.
#
#     bench/merge.sh [SIDE..]      MERGE_ROWS='plus block' bench/merge.sh 256 for some rows alone
set -euo pipefail
root=$(cd "$(dirname "$0")/.." && pwd)
work=$(mktemp -d)
trap 'rm -rf "$work"' EXIT
here=$work/crates/merges
mkdir -p "$here/src" "$here/specs" "$here/proofs/stores/build"
. "$root/bench/apart.sh"
take_crates sz_cells sz_spec sz_frame sz_region sz_ops sz_store sz_merge
echo 'merges: sz_cells sz_spec sz_frame sz_region sz_ops sz_store sz_merge anyhow' >>"$work/crates.txt"
cat >"$here/specs/Lib.antt" <<'ANTT'
-- Nothing of its own.
ANTT
cat >"$here/proofs/Lib.antt" <<'ANTT'
pub mod Sites
ANTT
write_sites "$here/proofs/Sites.antt"
cat >"$here/proofs/stores/build/Invariants.antt" <<'ANTT'
-- The stores are those of the operator and the list.
use Rattle.std.proofs.Common.{◌≡◌, [], ◌∷◌}
use Rattle.std.specs.Arc.{arc_value}
use Rattle.sz_spec.specs.declared.modes.Strategy.TheVariants as strategy
use Rattle.merges.proofs.stores.build.Given as goal

abbrev pub invariant-loop-k : goal.invariant-loop-k
invariant-loop-k l = record {
  site : l.store.site ≡ arc_value l.at;
  list : l.store.list ≡ strategy.FullManyB ∷ [];
}
ANTT
cat >"$here/src/arrays.rt" <<'RT'
//! Arrays, and operators between their shapes.

ghost use Rattle.std.specs.Prelude.{◌≡◌, length, true, IfSome};
ghost use Rattle.std.specs.Arc.{arc_value};
ghost use Rattle.sz_spec.specs.Shapes.{arity, has_right_parameters};

use std::alloc::Global;
use std::sync::Arc;
use sz_cells::Shape;
use sz_spec::{Array, Op, OpAt};

/// What each cell holds is told by its row and its column.
#[derive(Clone, Copy)]
pub enum Picture {
    /// Numbers below 1000, drawn.
    Drawn,
    /// 999 everywhere.
    Block,
    /// 999 at every second cell, as on a chessboard, and else 0.
    Chessboard,
}

fn value_of(picture: Picture, row: u32, col: u32, drawn: u64) -> i64 {
    match picture {
        Picture::Drawn => (drawn % 1000) as i64,
        Picture::Block => 999,
        Picture::Chessboard => { if row % 2 == col % 2 { 999 } else { 0 } }
    }
}

/// An array of a picture.
pub fn drawn(alloc: Global, shape: Shape, picture: Picture) -> Option<Arc<Array>>
    ensures { IfSome result (λ a. (arc_value a).extent ≡ shape) }
{
    let mut cells = Vec::new(alloc);
    cells.reserve(shape.size() as usize).ok()?;
    let mut x = 1u64;
    for index in 0..shape.size() {
        x = x
            .wrapping_mul(6_364_136_223_846_793_005)
            .wrapping_add(1_442_695_040_888_963_407);
        let cell = shape.cell_at(index);
        cells
            .push(Some(value_of(picture, cell.row, cell.col, x >> 33)))
            .ok()?;
    }
    let array = Array::make(shape, cells)?;
    Arc::new(alloc, array).ok()
}

/// An operator between inputs of these shapes, where its shape rule holds.
#[tactic(auto, using(crate::proofs::Sites::given_ins))]
pub fn placed(op: Op, ins: Vec<Shape>) -> Option<OpAt>
    requires arity { length ins.items ≡ arity op }
    requires right { has_right_parameters op ≡ true }
    ensures { IfSome result (λ a. a.ins ≡ ins.items) }
{
    match OpAt::of(op, ins) {
        Ok(at) => Some(at),
        Err(_) => None,
    }
}
RT
cat >"$here/src/stores.rt" <<'RT'
//! The stores of an operator over some arrays, and what they are merged to.

ghost use Rattle.std.specs.Prelude.{◌≡◌, ◌<◌, [], ◌∷◌, map, true, IfSome};
ghost use Rattle.std.specs.Arc.{arc_value};
ghost use Rattle.sz_spec.specs.Pieces.{pieces_of};
ghost use Rattle.sz_spec.specs.Values.{extents_of};
ghost use Rattle.sz_spec.specs.declared.modes.Strategy.TheVariants as strategy;
ghost use Rattle.sz_ops.specs.Aids.{aid_of};
ghost use Rattle.sz_frame.specs.Fits.{Fits};
ghost use Rattle.sz_frame.specs.Images.{measure_of};

use std::alloc::Global;
use std::sync::Arc;
use sz_merge::merge;
use sz_ops::{Aid, piece};
use sz_region::{PieceLineage, take_regions};
use sz_spec::{Array, OpAt, Strategy, Tally, pieces_of};
use sz_store::NodeStore;

pub const LIST: [Strategy; 1] = [Strategy::FullManyB];

/// The lineage of a piece.
fn lineage(
    alloc: Global,
    at: &OpAt,
    inputs: &[Arc<Array>],
    aid: &Aid,
    k: u32,
) -> Option<PieceLineage>
    requires inputs { extents_of (map (λ a. arc_value a) inputs.now) ≡ at.now.ins }
    requires aid { aid.now ≡ aid_of at.now.op (map (λ a. arc_value a) inputs.now) }
    requires piece { k < pieces_of at.now.out }
    ensures piece { IfSome result (λ p. p.piece ≡ k) }
    ensures fits { IfSome result (λ p. Fits (measure_of at.now (map (λ a. arc_value a) inputs.now))
        (strategy.FullManyB ∷ []) k p) }
{
    at.out().size(); // no more cells than a shape has are counted
    let mut tally = Tally::new();
    piece(alloc, at, inputs, aid, k, &LIST, &mut tally).ok()
}

/// Makes the lineages of all pieces, and drops each at once.
pub fn make(alloc: Global, at: &OpAt, inputs: &[Arc<Array>], aid: &Aid) -> Option<()>
    requires inputs { extents_of (map (λ a. arc_value a) inputs.now) ≡ at.now.ins }
    requires aid { aid.now ≡ aid_of at.now.op (map (λ a. arc_value a) inputs.now) }
{
    for k in 0..pieces_of(at.out()) {
        drop(lineage(alloc, at, inputs, aid, k)?);
    }
    Some(())
}

/// Makes the lineage of a piece, and places it.
fn place(
    alloc: Global,
    at: &OpAt,
    inputs: &[Arc<Array>],
    aid: &Aid,
    k: u32,
    store: &mut NodeStore,
) -> Option<()>
    requires inputs { extents_of (map (λ a. arc_value a) inputs.now) ≡ at.now.ins }
    requires aid { aid.now ≡ aid_of at.now.op (map (λ a. arc_value a) inputs.now) }
    requires piece { k < pieces_of at.now.out }
    requires site { store.old.site ≡ at.now }
    requires list { store.old.list ≡ strategy.FullManyB ∷ [] }
    ensures site { store.new.site ≡ store.old.site }
    ensures list { store.new.list ≡ store.old.list }
{
    let lineage = lineage(alloc, at, inputs, aid, k)?;
    store.place(&lineage).ok()?;
    Some(())
}

/// The stores, of all pieces.
pub fn build(
    alloc: Global,
    at: &Arc<OpAt>,
    inputs: &[Arc<Array>],
    aid: &Aid,
) -> Option<NodeStore>
    requires inputs { extents_of (map (λ a. arc_value a) inputs.now) ≡ (arc_value at.now).ins }
    requires aid { aid.now ≡ aid_of (arc_value at.now).op (map (λ a. arc_value a) inputs.now) }
    ensures site { IfSome result (λ s. s.site ≡ arc_value at.now) }
    ensures list { IfSome result (λ s. s.list ≡ strategy.FullManyB ∷ []) }
{
    let mut store = NodeStore::new(alloc, Arc::try_clone(at).ok()?, &LIST).ok()?;
    for k in 0..pieces_of(at.out()) {
        place(alloc, at, inputs, aid, k, &mut store)?;
    }
    Some(store)
}

/// Merges them: how many kinds there are.
pub fn merged(alloc: Global, at: &Arc<OpAt>, store: &NodeStore) -> Option<(NodeStore, u32)>
    requires site { store.now.site ≡ arc_value at.now }
    requires list { store.now.list ≡ strategy.FullManyB ∷ [] }
{
    if !store.is_whole() {
        return None;
    }
    let merged = merge(alloc, at, &LIST, store).ok()?;
    Some((merged.store, merged.kinds.first().copied().unwrap_or(0)))
}

/// How many bytes and region pairs the stores have.
pub fn size_of(alloc: Global, at: &OpAt, store: &NodeStore) -> Option<(usize, usize)> {
    let mut bytes = Vec::new(alloc);
    store.put_bytes(&mut bytes).ok()?;
    match take_regions(alloc, at.out(), at.ins(), &bytes, 0) {
        Ok((pairs, _)) => Some((bytes.len(), pairs.len())),
        Err(_) => None,
    }
}
RT
cat >"$here/src/main.rt" <<'RT'
//! `merges ROW SIDE STEP` does the steps of a row up to one, and prints the sizes of the stores behind the last.
#![tactic(auto)]

ghost use Rattle.std.specs.Prelude.{◌≡◌, ◌∷◌, [], map};
ghost use Rattle.std.specs.Arc.{arc_value};
ghost use Rattle.sz_spec.specs.Values.{extents_of};

mod arrays;
mod stores;

use crate::arrays::{Picture, drawn, placed};
use crate::stores::{build, make, merged, size_of};
use std::alloc::Global;
use std::env;
use std::sync::Arc;
use sz_cells::Shape;
use sz_ops::prepare_lineage;
use sz_spec::{Array, Fold, Kernel, Op, OpAt};

/// What is measured: a list of bytes and pairs before and after, where it is merged and they are asked for.
fn steps(
    alloc: Global,
    at: OpAt,
    array: Arc<Array>,
    step: u32,
) -> Option<(usize, usize, usize, usize)>
    requires { extents_of (map (λ a. arc_value a) (array ∷ [])) ≡ at.ins }
{
    let at = Arc::new(alloc, at).ok()?;
    let inputs = [array];
    let aid = prepare_lineage(alloc, &at, &inputs).ok()?;
    if step == 0 {
        return Some((0, 0, 0, 0));
    }
    if step == 1 {
        make(alloc, &at, &inputs, &aid)?;
        return Some((0, 0, 0, 0));
    }
    let store = build(alloc, &at, &inputs, &aid)?;
    if step == 2 {
        return Some((0, 0, 0, 0));
    }
    let (after, kinds) = merged(alloc, &at, &store)?;
    if step == 3 {
        return Some((0, 0, 0, kinds as usize));
    }
    let (bytes, pairs) = size_of(alloc, &at, &store)?;
    let (fewer, kinds) = size_of(alloc, &at, &after)?;
    Some((bytes, fewer, pairs, kinds))
}

/// The steps of a row of the table.
fn row(alloc: Global, word: &str, side: u32, step: u32) -> Option<(usize, usize, usize, usize)> {
    let shape = Shape::make(side, side)?;
    let ins = vec![in alloc; shape].ok()?;
    let picture = match word {
        "block" => Picture::Block,
        "board" => Picture::Chessboard,
        _ => Picture::Drawn,
    };
    let array = drawn(alloc, shape, picture)?;
    let at = match word {
        "plus" => {
            let weights = vec![in alloc; 0, 1, 0, 1, 1, 1, 0, 1, 0].ok()?;
            placed(Op::Convolve { kernel: Kernel::make(3, 3, weights) }, ins)?
        }
        "fours" => placed(Op::Block { fold: Fold::Max, h: 4, w: 4 }, ins)?,
        "turn" => placed(Op::Transpose, ins)?,
        _ => placed(Op::Regions { t: 500 }, ins)?,
    };
    steps(alloc, at, array, step)
}

/// A number that is given as an argument.
fn number(text: Option<String>) -> u32 {
    text.and_then(|text| text.as_str().parse().ok()).unwrap_or(0)
}

fn main(rt: HostRuntime) -> anyhow::Result<()> {
    let mut words = env::args(&rt)?;
    let _program = words.next();
    let word = words.next();
    let side = number(words.next());
    let step = number(words.next());
    let made = word.and_then(|word| row(rt.alloc(), word.as_str(), side, step));
    match made {
        Some((bytes, fewer, pairs, kinds)) => println!(rt; "{bytes} {fewer} {pairs} {kinds}")?,
        None => println!(rt; "no memory")?,
    }
    Ok(())
}
RT
cd "$here"
rt run -- plus 8 4 >"$work/log" 2>&1 || [ -x out/merges ] || { cat "$work/log"; exit 1; }
python3 - ./out/merges "$@" <<'PY'
import os, subprocess, sys

ROWS = [("plus", "convolve 3 by 3"), ("block", "regions, one block"), ("drawn", "regions, drawn"), ("board", "regions, chessboard"),
        ("fours", "block 4 by 4"), ("turn", "transpose")]


def measured(row, side, step):
    """Milliseconds of the processor, the peak in bytes, and what was said."""
    child = subprocess.Popen([sys.argv[1], row, str(side), str(step)], stdout=subprocess.PIPE, text=True)
    said = child.stdout.read()
    _, status, use = os.wait4(child.pid, 0)
    child.returncode = os.waitstatus_to_exitcode(status)
    assert child.returncode == 0 and said != "no memory\n", (row, side, step, said)
    return (use.ru_utime + use.ru_stime) * 1e3, use.ru_maxrss * 1024, [int(n) for n in said.split()]


def best(row, side, step):
    runs = [measured(row, side, step) for _ in range(3)]
    return min(run[0] for run in runs), min(run[1] for run in runs)


wanted = os.environ.get("MERGE_ROWS", "").split()
print(f"({os.cpu_count()} processors, load {os.getloadavg()[0]:.1f})")
print(f"{'store':20} {'side':>5} {'make ms':>8} {'place ms':>8} {'merge ms':>8} {'to build':>9} {'built':>8} {'merged':>8} {'to built':>9}"
      f" {'bytes':>8} {'after':>8} {'pairs':>8} {'after':>8}")
for row, name in ROWS:
    for side in [int(x) for x in sys.argv[2:]] or [256, 512, 1024]:
        if wanted and row not in wanted:
            continue
        steps = [best(row, side, step) for step in range(4)]
        cells = side * side
        make, place, merge = (steps[k][0] - steps[k - 1][0] for k in (1, 2, 3))
        built, merged = (max(steps[k][1] - steps[0][1], 1) / cells for k in (2, 3))
        time, room = merge / max(make + place, 0.1), merged / built if built > 1 else 0
        bytes_, fewer, pairs, kinds = measured(row, side, 4)[2]
        print(f"{name:20} {side:5} {make:8.0f} {place:8.0f} {merge:8.0f} {time:8.2f}{'*' if time > 1.5 else ' '} {built:8.0f} {merged:8.0f}"
              f" {room:8.2f}{'*' if room > 3 else ' '} {bytes_ / cells:8.1f} {fewer / cells:8.1f} {pairs:8} {kinds:8}", flush=True)
PY
