#!/usr/bin/env bash
# Times the stores of a node, as LLVM builds them, on arrays of 256 and of 1,024 a side (or of the sides that are given), and prints tables a
# side. The rows of full lineage: a convolution 3 by 3 (a plus) and 9 by 9 (every second weight 0), a transposition, a sum of two arrays, and
# the connected regions of drawn numbers from 500 on, of one block and of a chessboard. Two more rows have region pairs made for the purpose:
# each piece of 64 cells beside one set, which has every second cell of each row, and one region pair of all cells.
#
# The rows of payload and composite lineage: `clean` of drawn numbers, of which every second cell is hot, and one in a thousand; `lookup` in a
# table that every second cell has a column of; and connected regions, drawn and of one block.
#
# First what the operator takes by itself: the lineages of all pieces, each dropped at once, and a trace of one cell and of a quarter of
# the cells, backward and forward. Then for each of the four kinds of store:
#
#   build     to reserve the room of each piece and to add it, without the making of its lineage; and its ratio to that
#   a cell    bytes of memory: the peak of a process that builds the store, less that of one that makes the lineages alone, a cell
#   an entry  the same, an entry: of little meaning where there are few, since some hundred thousand bytes of a process are no store's
#   one, quarter
#             an image of one cell, and of a quarter of the cells, in both directions, over the first input; and its ratio to the trace
#   bytes     how many the store is written in, a cell; the times to write and to read them, and the ratio of reading to building
#
# Behind a number that is past its aim stands a star: building within 6 times the making of the lineages; an image of one cell by the
# indexed side within 100 microseconds, and of a quarter of the cells within 5 times its trace; 900 bytes a cell of full lineage; reading
# within the time of building. All times are in microseconds, the best of a few, each measure a process of its own. An image that has
# another count of cells than its trace is told. It is no test. It needs python3, works in a folder of its own, and takes what was built in
# this checkout.
#
#     bench/stores.sh [SIDE..]      STORES_ROWS='plus nine' STORES_ENTRIES='hot' bench/stores.sh 256 for some rows alone
set -euo pipefail
root=$(cd "$(dirname "$0")/.." && pwd)
work=$(mktemp -d)
trap 'rm -rf "$work"' EXIT
here=$work/crates/stores
mkdir -p "$here/src" "$here/specs" "$here/proofs"
. "$root/bench/apart.sh"
take_crates sz_cells sz_spec sz_frame sz_region sz_ops sz_tables sz_full_one sz_full_many sz_payload sz_store
echo 'stores: sz_cells sz_spec sz_frame sz_region sz_ops sz_tables sz_full_one sz_full_many sz_payload sz_store anyhow' >>"$work/crates.txt"
cat >"$here/specs/Lib.antt" <<'ANTT'
pub mod Keeping
ANTT
cat >"$here/specs/Keeping.antt" <<'ANTT'
-- What a store of one of two kinds is seen as.
use Rattle.sz_frame.specs.Parts.{Pairing}
use Rattle.sz_tables.specs.Stores.{Store}
use Rattle.stores.specs.declared.kept.Kept.{Kept}
use Rattle.stores.specs.declared.kept.Kept.TheVariants.{One, Many}

abbrev pub held : Kept → Store Pairing
held (One s) = s
held (Many s) = s
ANTT
cat >"$here/proofs/Lib.antt" <<'ANTT'
pub mod Pairs
pub mod Sites
pub mod Lists
ANTT
cat >"$here/proofs/Lists.antt" <<'ANTT'
-- A strategy is in the list of it alone.
use Rattle.std.proofs.Common.{◌≡◌, true, [], ◌∷◌, refl}
use Rattle.sz_spec.specs.declared.modes.Strategy.{Strategy}
use Rattle.sz_spec.specs.declared.modes.Strategy.TheVariants as strategy
use Rattle.sz_spec.specs.Modes.{is_listed}

pub listed_alone : (t : Strategy) → is_listed (t ∷ []) t ≡ true
listed_alone strategy.Map = refl
listed_alone strategy.FullOneB = refl
listed_alone strategy.FullOneF = refl
listed_alone strategy.FullManyB = refl
listed_alone strategy.FullManyF = refl
listed_alone strategy.PayOne = refl
listed_alone strategy.PayMany = refl
listed_alone strategy.CompOne = refl
listed_alone strategy.CompMany = refl
listed_alone strategy.BlackBox = refl
ANTT
cat >"$here/proofs/Pairs.antt" <<'ANTT'
-- The region pairs of a lineage that fits have the shapes of the operator.
use Rattle.std.proofs.Common.{◌≡◌, ℕ, List, true}
use Rattle.std.specs.List.{All}
use Rattle.sz_spec.specs.declared.modes.Mode.TheVariants as mode
use Rattle.sz_spec.specs.declared.modes.Strategy.{Strategy}
use Rattle.sz_spec.specs.Values.{Grid}
use Rattle.sz_spec.specs.Shapes.{Site}
use Rattle.sz_frame.specs.Parts.{Pairing, Parts}
use Rattle.sz_frame.specs.Fits.{Fits, IsRegion, needs}
use Rattle.sz_frame.specs.Images.{measure_of}
use Rattle.sz_tables.specs.Stores.{IsPairOf}

pair : (s : Site) (inputs : List Grid) (k : ℕ) (r : Pairing) → IsRegion (measure_of s inputs) k r → IsPairOf s r
pair s inputs k r h = record { out = h.out.shape; ins = h.ins }

pub are_pairs : (s : Site) (inputs : List Grid) (list : List Strategy) (k : ℕ) (p : Parts) → needs list mode.Full ≡ true
    → Fits (measure_of s inputs) list k p → All (IsPairOf s) p.regions
are_pairs s inputs list k p full h = λ n d below. pair s inputs k _ ((h.full full).each n d below)
ANTT
write_sites "$here/proofs/Sites.antt"
for place in 'measures asked row fn.' 'pieces cells_of index'; do
    read -r module function variable whole <<<"$place"
    mkdir -p "$here/proofs/$module/$function"
    cat >"$here/proofs/$module/$function/Invariants.antt" <<ANTT
-- The bitmap keeps its shape.
use Rattle.std.proofs.Common.{◌≡◌}
use Rattle.stores.proofs.$module.$function.Given as goal

abbrev pub invariant-loop-$variable : goal.invariant-loop-$variable
invariant-loop-$variable l = l.bits.extent ≡ l.${whole}shape
ANTT
done
mkdir -p "$here/proofs/nodes/build_entries"
cat >"$here/proofs/nodes/build_entries/Invariants.antt" <<'ANTT'
-- The store is one of the operator, by the strategy alone.
use Rattle.std.proofs.Common.{◌≡◌, [], ◌∷◌}
use Rattle.std.specs.Arc.{arc_value}
use Rattle.stores.proofs.nodes.build_entries.Given as goal

abbrev pub invariant-loop-k : goal.invariant-loop-k
invariant-loop-k l = record {
  site : l.store.site ≡ arc_value l.at;
  list : l.store.list ≡ l.strategy ∷ [];
}
ANTT
mkdir -p "$here/proofs/measures/build"
cat >"$here/proofs/measures/build/Invariants.antt" <<'ANTT'
-- The store is one of the operator, and has been given no more region pairs than were counted.
use Rattle.std.proofs.Common.{◌≡◌, ◌≤◌, length}
use Rattle.std.specs.Arc.{arc_value}
use Rattle.stores.specs.Keeping.{held}
use Rattle.stores.proofs.measures.build.Given as goal

abbrev pub invariant-loop-k : goal.invariant-loop-k
invariant-loop-k l = record {
  site : (held l.kept).site ≡ arc_value l.at;
  given : length (held l.kept).given ≤ l.given;
  few : l.given ≤ 1073741824;
}
ANTT
cat >"$here/src/arrays.rt" <<'RT'
//! Arrays that are drawn, and operators between their shapes.

ghost use Rattle.std.specs.Prelude.{◌≡◌, length, true, IfSome};
ghost use Rattle.std.specs.Arc.{arc_value};
ghost use Rattle.sz_spec.specs.Shapes.{arity, has_right_parameters};

use std::alloc::Global;
use std::sync::Arc;
use sz_cells::Shape;
use sz_spec::{Array, Op, OpAt};

/// What each cell holds is told by its row and its column.
#[derive(Clone, Copy)]
pub enum Picture {
    /// Numbers below 1000, drawn.
    Drawn,
    /// 9 everywhere.
    Block,
    /// 9 at every second cell, as on a chessboard, and else 0.
    Chessboard,
}

fn value_of(picture: Picture, row: u32, col: u32, drawn: u64) -> i64 {
    match picture {
        Picture::Drawn => (drawn % 1000) as i64,
        Picture::Block => 9,
        Picture::Chessboard => { if row % 2 == col % 2 { 9 } else { 0 } }
    }
}

/// An array of a picture.
pub fn drawn(alloc: Global, shape: Shape, picture: Picture) -> Option<Arc<Array>>
    ensures { IfSome result (λ a. (arc_value a).extent ≡ shape) }
{
    let mut cells = Vec::new(alloc);
    cells.reserve(shape.size() as usize).ok()?;
    let mut x = 1u64;
    for index in 0..shape.size() {
        x = x
            .wrapping_mul(6_364_136_223_846_793_005)
            .wrapping_add(1_442_695_040_888_963_407);
        let cell = shape.cell_at(index);
        cells
            .push(Some(value_of(picture, cell.row, cell.col, x >> 33)))
            .ok()?;
    }
    let array = Array::make(shape, cells)?;
    Arc::new(alloc, array).ok()
}

/// One more owner of an array.
pub fn owner(array: &Arc<Array>) -> Option<Arc<Array>>
    ensures { IfSome result (λ a. arc_value a ≡ arc_value array.now) }
{
    Arc::try_clone(array).ok()
}

/// An operator between inputs of these shapes, where its shape rule holds.
#[tactic(auto, using(crate::proofs::Sites::given_ins))]
pub fn placed(op: Op, ins: Vec<Shape>) -> Option<OpAt>
    requires arity { length ins.items ≡ arity op }
    requires right { has_right_parameters op ≡ true }
    ensures { IfSome result (λ a. a.ins ≡ ins.items) }
{
    match OpAt::of(op, ins) {
        Ok(at) => Some(at),
        Err(_) => None,
    }
}
RT
cat >"$here/src/kept.rt" <<'RT'
//! A store of one of two kinds.

ghost use Rattle.std.specs.Prelude.{◌≡◌, ◌<◌, ◌≤◌, ◌+◌, [], length, All, IfSome, OnSome};
ghost use Rattle.std.specs.Arc.{arc_value};
ghost use Rattle.sz_spec.specs.Sides.{near_side, far_side};
ghost use Rattle.sz_tables.specs.Stores.{IsPairOf, most_given};
ghost use Rattle.stores.specs.Keeping.{held};

use std::alloc::Global;
use std::sync::Arc;
use sz_cells::CellBits;
use sz_full_many::FullMany;
use sz_full_one::FullOne;
use sz_region::PieceLineage;
use sz_spec::{Dir, OpAt};

/// A store of one of two kinds.
#[derive(Drop)]
pub enum Kept {
    One(FullOne),
    Many(FullMany),
}

/// A kind of store: what it is indexed by, and for looks of which direction.
#[derive(Clone, Copy)]
pub struct Kind {
    pub many: bool,
    pub dir: Dir,
}

impl Kept {
    /// A store without a region pair.
    pub fn new(alloc: Global, at: Arc<OpAt>, kind: Kind) -> Option<Kept>
        ensures site { IfSome result (λ k. (held k).site ≡ arc_value at) }
        ensures given { IfSome result (λ k. (held k).given ≡ []) }
    {
        if kind.many {
            Some(Kept::Many(FullMany::new(alloc, at, kind.dir).ok()?))
        } else {
            Some(Kept::One(FullOne::new(alloc, at, kind.dir).ok()?))
        }
    }

    /// Makes the room for the region pairs of a lineage, and adds them.
    pub fn keep(&mut self, lineage: &PieceLineage) -> Option<()>
        requires few { length (held self.old).given + length lineage.now.regions ≤ most_given }
        requires pairs { All (IsPairOf (held self.old).site) lineage.now.regions }
        ensures site { (held self.new).site ≡ (held self.old).site }
        ensures given { length (held self.new).given
            ≤ length (held self.old).given + length lineage.now.regions }
    {
        match self {
            Kept::One(store) => {
                store.reserve_piece(lineage).ok()?;
                store.add_piece(lineage);
            }
            Kept::Many(store) => {
                store.reserve_piece(lineage).ok()?;
                store.add_piece(lineage);
            }
        }
        Some(())
    }

    /// Adds the image of a set of cells of, or to, the first input.
    pub fn image(&self, dir: Dir, from: &CellBits, to: &mut CellBits)
        requires input { 0 < length (held self.now).site.ins }
        requires from { from.now.extent ≡ near_side dir (held self.now).site 0 }
        requires to { to.old.extent ≡ far_side dir (held self.now).site 0 }
        ensures { to.new.extent ≡ to.old.extent }
    {
        match self {
            Kept::One(store) => store.image(dir, 0, from, to),
            Kept::Many(store) => store.image(dir, 0, from, to),
        }
    }

    /// Appends the store's bytes.
    pub fn put(&self, to: &mut Vec<u8>) -> Option<()> {
        match self {
            Kept::One(store) => store.put_bytes(to).ok(),
            Kept::Many(store) => store.put_bytes(to).ok(),
        }
    }

    /// The store that these bytes begin with.
    pub fn take(alloc: Global, at: Arc<OpAt>, kind: Kind, bytes: &[u8]) -> Option<Kept> {
        if kind.many {
            let (store, _) = FullMany::take_bytes(alloc, at, kind.dir, bytes, 0).ok()?;
            Some(Kept::Many(store))
        } else {
            let (store, _) = FullOne::take_bytes(alloc, at, kind.dir, bytes, 0).ok()?;
            Some(Kept::One(store))
        }
    }
}
RT
cat >"$here/src/pieces.rt" <<'RT'
//! The lineages of pieces: those of an operator, and those that are made for the purpose.

ghost use Rattle.std.specs.Prelude.{◌≡◌, ◌<◌, ◌≤◌, map, All, IfSome};
ghost use Rattle.std.specs.Arc.{arc_value};
ghost use Rattle.sz_spec.specs.Values.{extents_of};
ghost use Rattle.sz_spec.specs.Pieces.{pieces_of};
ghost use Rattle.sz_ops.specs.Aids.{aid_of};
ghost use Rattle.sz_tables.specs.Stores.{IsPairOf};

use std::alloc::Global;
use std::sync::Arc;
use sz_cells::{CellBits, CellSet, Run, Shape};
use sz_ops::{Aid, piece};
use sz_region::{PieceLineage, Region, SetList};
use sz_spec::{Array, OpAt, Strategy, Tally, pieces_of};

/// Where lineages come from.
#[derive(Drop)]
pub enum Source {
    /// The operator.
    Operator,
    /// For each piece the pair of its cells and this set.
    Beside(Arc<CellSet>),
    /// The pair of all cells and this set.
    Whole(Arc<CellSet>),
}

/// How many lineages there are.
pub fn count_of(at: &OpAt, source: &Source) -> u32
    ensures { result ≤ pieces_of at.now.out }
{
    let count = pieces_of(at.out());
    match source {
        Source::Operator | Source::Beside(_) => count,
        Source::Whole(_) => count.min(1),
    }
}

/// The lineage of a piece.
pub fn lineage_of(
    alloc: Global,
    at: &OpAt,
    inputs: &[Arc<Array>],
    aid: &Aid,
    source: &Source,
    k: u32,
) -> Option<PieceLineage>
    requires inputs { extents_of (map (λ a. arc_value a) inputs.now) ≡ at.now.ins }
    requires aid { aid.now ≡ aid_of at.now.op (map (λ a. arc_value a) inputs.now) }
    requires piece { k < pieces_of at.now.out }
    ensures { IfSome result (λ p. All (IsPairOf at.now) p.regions) }
{
    let size = at.out().size();
    match source {
        Source::Operator => by_operator(alloc, at, inputs, aid, k),
        Source::Beside(set) => {
            let first = k * 64;
            let last = size.min(first + 64) - 1;
            beside(alloc, at, Run { first, last }, set)
        }
        Source::Whole(set) => beside(
            alloc,
            at,
            Run {
                first: 0,
                last: size - 1,
            },
            set,
        ),
    }
}

/// The lineage of a piece of an operator's output, for a store of full lineage.
#[tactic(auto, using(crate::proofs::Pairs::are_pairs))]
fn by_operator(
    alloc: Global,
    at: &OpAt,
    inputs: &[Arc<Array>],
    aid: &Aid,
    k: u32,
) -> Option<PieceLineage>
    requires inputs { extents_of (map (λ a. arc_value a) inputs.now) ≡ at.now.ins }
    requires aid { aid.now ≡ aid_of at.now.op (map (λ a. arc_value a) inputs.now) }
    requires piece { k < pieces_of at.now.out }
    ensures { IfSome result (λ p. All (IsPairOf at.now) p.regions) }
{
    let mut tally = Tally::new();
    let list = [Strategy::FullOneB];
    piece(alloc, at, inputs, aid, k, &list, &mut tally).ok()
}

/// The lineage that has the pair of a run of output cells and a set of the one input.
fn beside(alloc: Global, at: &OpAt, run: Run, set: &Arc<CellSet>) -> Option<PieceLineage>
    ensures { IfSome result (λ p. All (IsPairOf at.now) p.regions) }
{
    let out = run_of(alloc, at.out(), run)?;
    let shape = set.shape();
    match at.ins() {
        [only] if *only == shape => {}
        _ => return None,
    }
    let mut ins = Vec::new(alloc);
    ins.push(Arc::try_clone(set).ok()?).ok()?;
    let mut lineage = PieceLineage::new(alloc, 0);
    lineage
        .lwrite(Region {
            out,
            ins: SetList::of(ins),
        })
        .ok()?;
    Some(lineage)
}

/// The set of the cells of a run.
fn run_of(alloc: Global, shape: Shape, run: Run) -> Option<Arc<CellSet>>
    ensures { IfSome result (λ s. (arc_value s).extent ≡ shape) }
{
    if run.first > run.last || run.last >= shape.size() {
        return None;
    }
    let mut runs = Vec::new(alloc);
    runs.push(run).ok()?;
    Arc::new(alloc, CellSet::from_runs(shape, runs)).ok()
}

/// The set of every second cell of a shape, or of every one.
pub fn cells_of(alloc: Global, shape: Shape, all: bool) -> Option<Arc<CellSet>> {
    let mut bits = CellBits::new(alloc, shape).ok()?;
    for index in 0..shape.size() {
        if all || index % 2 == 0 {
            bits.set(shape.cell_at(index));
        }
    }
    Arc::new(alloc, bits.to_set(alloc).ok()?).ok()
}
RT
cat >"$here/src/measures.rt" <<'RT'
//! What is measured, of one operator over its inputs. All times are in nanoseconds.

ghost use Rattle.std.specs.Prelude.{◌≡◌, ◌<◌, ◌+◌, ◌^◌, length, map, IfSome};
ghost use Rattle.std.specs.Arc.{arc_value};
ghost use Rattle.sz_spec.specs.Values.{extents_of, extent_at};
ghost use Rattle.sz_spec.specs.Sides.{near_side, far_side};
ghost use Rattle.sz_ops.specs.Aids.{aid_of};
ghost use Rattle.stores.specs.Keeping.{held};

use crate::kept::{Kept, Kind};
use crate::pieces::{Source, count_of, lineage_of};
use std::alloc::Global;
use std::sync::Arc;
use std::time::Instant;
use sz_cells::{Cell, CellBits, Run, Shape};
use sz_ops::{Aid, trace};
use sz_spec::{Array, Dir, OpAt, Tally};

pub const TURNS: u32 = 5;

/// No more turns are taken after one that took so long.
pub const LONG: u64 = 300_000_000;

/// The most region pairs that a store is given: 2^30.
const MOST: u32 = 1_073_741_824;

/// Nanoseconds since a moment.
pub fn since(rt: &HostRuntime, start: Instant) -> Option<u64> {
    let time = start.elapsed(rt).ok()?;
    u64::try_from(time.as_nanos()).ok()
}

/// Prints a number under a name.
pub fn say(rt: &HostRuntime, name: &str, number: u64) -> Option<()> {
    println!(rt; "{name} {number}").ok()
}

/// Makes the lineages of all pieces, and drops each at once.
pub fn make(
    rt: &HostRuntime,
    at: &OpAt,
    inputs: &[Arc<Array>],
    aid: &Aid,
    source: &Source,
) -> Option<()>
    requires inputs { extents_of (map (λ a. arc_value a) inputs.now) ≡ at.now.ins }
    requires aid { aid.now ≡ aid_of at.now.op (map (λ a. arc_value a) inputs.now) }
{
    let start = Instant::now(rt).ok()?;
    let mut pairs = 0u64;
    for k in 0..count_of(at, source) {
        let lineage = lineage_of(rt.alloc(), at, inputs, aid, source, k)?;
        pairs = pairs.saturating_add(lineage.regions().len() as u64);
    }
    say(rt, "make", since(rt, start)?)?;
    say(rt, "pairs", pairs)
}

/// Builds a store of the lineages of all pieces.
pub fn build(
    rt: &HostRuntime,
    at: &Arc<OpAt>,
    inputs: &[Arc<Array>],
    aid: &Aid,
    source: &Source,
    kind: Kind,
) -> Option<Kept>
    requires inputs { extents_of (map (λ a. arc_value a) inputs.now) ≡ (arc_value at.now).ins }
    requires aid { aid.now ≡ aid_of (arc_value at.now).op (map (λ a. arc_value a) inputs.now) }
    ensures { IfSome result (λ k. (held k).site ≡ arc_value at.now) }
{
    let alloc = rt.alloc();
    let mut kept = Kept::new(alloc, Arc::try_clone(at).ok()?, kind)?;
    let mut given = 0u32;
    let mut time = 0u64;
    for k in 0..count_of(at, source) {
        let lineage = lineage_of(alloc, at, inputs, aid, source, k)?;
        let count = lineage.regions().len();
        if count > (MOST - given) as usize {
            return None;
        }
        given += count as u32;
        let start = Instant::now(rt).ok()?;
        kept.keep(&lineage)?;
        time = time.saturating_add(since(rt, start)?);
    }
    say(rt, "build", time)?;
    Some(kept)
}

/// The shape from which a look starts.
pub fn near(at: &OpAt, dir: Dir) -> Shape
    requires { 0 < length at.now.ins }
    ensures { result ≡ near_side dir at.now 0 }
{
    match dir {
        Dir::Back => at.out(),
        Dir::Forward => at.ins()[0],
    }
}

/// The shape to which a look leads.
pub fn far(at: &OpAt, dir: Dir) -> Shape
    requires { 0 < length at.now.ins }
    ensures { result ≡ far_side dir at.now 0 }
{
    match dir {
        Dir::Back => at.ins()[0],
        Dir::Forward => at.out(),
    }
}

/// The set of one cell in the middle of a shape, or of the quarter of its cells that is above and
/// left of it.
pub fn asked(alloc: Global, shape: Shape, quarter: bool) -> Option<CellBits>
    ensures { IfSome result (λ b. b.extent ≡ shape) }
{
    let mut bits = CellBits::new(alloc, shape).ok()?;
    if quarter {
        for row in 0..shape.rows / 2 {
            add_half(&mut bits, row);
        }
    } else {
        bits.set(shape.cell_at(shape.size() / 2));
    }
    Some(bits)
}

/// Adds the left half of a row, where the shape has it.
fn add_half(bits: &mut CellBits, row: u32)
    ensures { bits.new.extent ≡ bits.old.extent }
{
    let shape = bits.shape();
    let left = Cell { row, col: 0 };
    let middle = Cell {
        row,
        col: (shape.cols - 1) / 2,
    };
    if shape.holds(left) && shape.holds(middle) {
        let first = shape.index(left);
        let last = shape.index(middle);
        if first <= last {
            bits.add_run(Run { first, last });
        }
    }
}

/// How a look is made.
#[derive(Clone, Copy)]
pub struct Look {
    pub name: &'static str,
    pub dir: Dir,
    pub quarter: bool,
}

pub const LOOKS: [Look; 4] = [
    Look {
        name: "one_back",
        dir: Dir::Back,
        quarter: false,
    },
    Look {
        name: "one_forward",
        dir: Dir::Forward,
        quarter: false,
    },
    Look {
        name: "quarter_back",
        dir: Dir::Back,
        quarter: true,
    },
    Look {
        name: "quarter_forward",
        dir: Dir::Forward,
        quarter: true,
    },
];

/// The best of some times of an image by a store, and how many cells it has.
pub fn ask_all(rt: &HostRuntime, at: &OpAt, kept: &Kept) -> Option<()>
    requires site { (held kept.now).site ≡ at.now }
    requires input { 0 < length at.now.ins }
{
    for look in LOOKS.iter() {
        ask(rt, at, kept, *look)?;
    }
    Some(())
}

fn ask(rt: &HostRuntime, at: &OpAt, kept: &Kept, look: Look) -> Option<()>
    requires site { (held kept.now).site ≡ at.now }
    requires input { 0 < length at.now.ins }
{
    let from = asked(rt.alloc(), near(at, look.dir), look.quarter)?;
    let mut best = u64::MAX;
    let mut cells = 0;
    for _ in 0..TURNS {
        if best < LONG || cells == 0 {
            let mut to = CellBits::new(rt.alloc(), far(at, look.dir)).ok()?;
            let start = Instant::now(rt).ok()?;
            kept.image(look.dir, &from, &mut to);
            best = best.min(since(rt, start)?);
            cells = count_in(rt.alloc(), &to)?;
        }
    }
    say_look(rt, look.name, best, cells)
}

pub fn count_in(alloc: Global, bits: &CellBits) -> Option<u32> {
    let set = bits.to_set(alloc).ok()?;
    Some(set.count())
}

pub fn say_look(rt: &HostRuntime, name: &str, time: u64, cells: u32) -> Option<()> {
    println!(rt; "{name} {time}").ok()?;
    println!(rt; "{name}_cells {cells}").ok()
}

/// The best of some times of a traced image, and how many cells it has.
pub fn trace_all(rt: &HostRuntime, at: &OpAt, inputs: &[Arc<Array>]) -> Option<()>
    requires inputs { extents_of (map (λ a. arc_value a) inputs.now) ≡ at.now.ins }
    requires input { 0 < length at.now.ins }
{
    for look in LOOKS.iter() {
        traced(rt, at, inputs, *look)?;
    }
    Some(())
}

fn traced(rt: &HostRuntime, at: &OpAt, inputs: &[Arc<Array>], look: Look) -> Option<()>
    requires inputs { extents_of (map (λ a. arc_value a) inputs.now) ≡ at.now.ins }
    requires input { 0 < length at.now.ins }
{
    let alloc = rt.alloc();
    let from = asked(alloc, near(at, look.dir), look.quarter)?;
    at.out().size();
    let mut best = u64::MAX;
    let mut cells = 0;
    for _ in 0..TURNS {
        if best < LONG || cells == 0 {
            let mut to = CellBits::new(alloc, far(at, look.dir)).ok()?;
            let mut tally = Tally::new();
            let start = Instant::now(rt).ok()?;
            trace(alloc, at, inputs, look.dir, 0, &from, &mut to, &mut tally).ok()?;
            best = best.min(since(rt, start)?);
            cells = count_in(alloc, &to)?;
        }
    }
    say_look(rt, look.name, best, cells)
}

/// The bytes of a store, written, and read once more into one of the same kind.
pub fn write(rt: &HostRuntime, at: &Arc<OpAt>, kept: &Kept, kind: Kind) -> Option<()> {
    let mut bytes = Vec::new(rt.alloc());
    let start = Instant::now(rt).ok()?;
    kept.put(&mut bytes)?;
    say(rt, "write", since(rt, start)?)?;
    say(rt, "bytes", bytes.len() as u64)?;
    let at = Arc::try_clone(at).ok()?;
    let start = Instant::now(rt).ok()?;
    let read = Kept::take(rt.alloc(), at, kind, &bytes)?;
    say(rt, "read", since(rt, start)?)?;
    drop(read);
    Some(())
}
RT
cat >"$here/src/nodes.rt" <<'RT'
//! What is measured of the stores of payload and of composite lineage, as a node has them. All times
//! are in nanoseconds.

ghost use Rattle.std.specs.Prelude.{◌≡◌, ◌<◌, ◌+◌, ◌^◌, [], ◌∷◌, length, map, true, IfSome};
ghost use Rattle.std.specs.Arc.{arc_value};
ghost use Rattle.sz_spec.specs.Modes.{is_stored, supports};
ghost use Rattle.sz_spec.specs.Pieces.{pieces_of};
ghost use Rattle.sz_spec.specs.Values.{extents_of};
ghost use Rattle.sz_ops.specs.Aids.{aid_of};
ghost use Rattle.sz_frame.specs.Fits.{Fits};
ghost use Rattle.sz_frame.specs.Images.{measure_of};

use crate::measures::{LONG, LOOKS, Look, TURNS, asked, count_in, far, near, say, say_look, since};
use std::sync::Arc;
use std::time::Instant;
use sz_cells::CellBits;
use sz_ops::{Aid, piece};
use sz_region::PieceLineage;
use sz_spec::{Array, OpAt, Strategy, Tally, pieces_of};
use sz_store::NodeStore;

/// The lineage of a piece, for a store of a strategy.
fn lineage_for(
    rt: &HostRuntime,
    at: &OpAt,
    inputs: &[Arc<Array>],
    aid: &Aid,
    strategy: Strategy,
    k: u32,
) -> Option<PieceLineage>
    requires inputs { extents_of (map (λ a. arc_value a) inputs.now) ≡ at.now.ins }
    requires aid { aid.now ≡ aid_of at.now.op (map (λ a. arc_value a) inputs.now) }
    requires piece { k < pieces_of at.now.out }
    requires supported { supports at.now.op strategy ≡ true }
    ensures piece { IfSome result (λ p. p.piece ≡ k) }
    ensures fits { IfSome result
        (λ p. Fits (measure_of at.now (map (λ a. arc_value a) inputs.now)) (strategy ∷ []) k p) }
{
    at.out().size(); // no more cells than a shape has are counted
    let mut tally = Tally::new();
    piece(rt.alloc(), at, inputs, aid, k, &[strategy], &mut tally).ok()
}

/// Makes the lineages of all pieces, and drops each at once.
pub fn make_entries(
    rt: &HostRuntime,
    at: &OpAt,
    inputs: &[Arc<Array>],
    aid: &Aid,
    strategy: Strategy,
) -> Option<()>
    requires inputs { extents_of (map (λ a. arc_value a) inputs.now) ≡ at.now.ins }
    requires aid { aid.now ≡ aid_of at.now.op (map (λ a. arc_value a) inputs.now) }
    requires supported { supports at.now.op strategy ≡ true }
{
    let start = Instant::now(rt).ok()?;
    let mut count = 0u64;
    for k in 0..pieces_of(at.out()) {
        let lineage = lineage_for(rt, at, inputs, aid, strategy, k)?;
        let entries = lineage.pays().len() as u64;
        count = count.saturating_add(entries);
        count = count.saturating_add(lineage.comps().len() as u64);
    }
    say(rt, "make", since(rt, start)?)?;
    say(rt, "pairs", count)
}

/// Builds the store of a strategy from the lineages of all pieces.
pub fn build_entries(
    rt: &HostRuntime,
    at: &Arc<OpAt>,
    inputs: &[Arc<Array>],
    aid: &Aid,
    strategy: Strategy,
) -> Option<NodeStore>
    requires inputs { extents_of (map (λ a. arc_value a) inputs.now) ≡ (arc_value at.now).ins }
    requires aid { aid.now ≡ aid_of (arc_value at.now).op (map (λ a. arc_value a) inputs.now) }
    requires supported { supports (arc_value at.now).op strategy ≡ true }
    ensures site { IfSome result (λ s. s.site ≡ arc_value at.now) }
    ensures list { IfSome result (λ s. s.list ≡ strategy ∷ []) }
{
    let mut store = NodeStore::new(rt.alloc(), Arc::try_clone(at).ok()?, &[strategy]).ok()?;
    let mut time = 0u64;
    for k in 0..pieces_of(at.out()) {
        let spent = place_piece(rt, at, inputs, aid, strategy, k, &mut store)?;
        time = time.saturating_add(spent);
    }
    say(rt, "build", time)?;
    Some(store)
}

/// Makes the lineage of a piece, and places it: how long the placing takes.
fn place_piece(
    rt: &HostRuntime,
    at: &OpAt,
    inputs: &[Arc<Array>],
    aid: &Aid,
    strategy: Strategy,
    k: u32,
    store: &mut NodeStore,
) -> Option<u64>
    requires inputs { extents_of (map (λ a. arc_value a) inputs.now) ≡ at.now.ins }
    requires aid { aid.now ≡ aid_of at.now.op (map (λ a. arc_value a) inputs.now) }
    requires piece { k < pieces_of at.now.out }
    requires supported { supports at.now.op strategy ≡ true }
    requires site { store.old.site ≡ at.now }
    requires list { store.old.list ≡ strategy ∷ [] }
    ensures site { store.new.site ≡ store.old.site }
    ensures list { store.new.list ≡ store.old.list }
{
    let lineage = lineage_for(rt, at, inputs, aid, strategy, k)?;
    let start = Instant::now(rt).ok()?;
    store.place(&lineage).ok()?;
    since(rt, start)
}

/// The best of some times of an image by the store, and how many cells it has.
pub fn ask_entries(rt: &HostRuntime, at: &OpAt, store: &NodeStore, strategy: Strategy) -> Option<()>
    requires site { store.now.site ≡ at.now }
    requires list { store.now.list ≡ strategy ∷ [] }
    requires stored { is_stored strategy ≡ true }
    requires input { 0 < length at.now.ins }
{
    for look in LOOKS.iter() {
        ask_entry(rt, at, store, strategy, *look)?;
    }
    Some(())
}

#[tactic(auto, using(crate::proofs::Lists::listed_alone))]
fn ask_entry(
    rt: &HostRuntime,
    at: &OpAt,
    store: &NodeStore,
    strategy: Strategy,
    look: Look,
) -> Option<()>
    requires site { store.now.site ≡ at.now }
    requires list { store.now.list ≡ strategy ∷ [] }
    requires stored { is_stored strategy ≡ true }
    requires input { 0 < length at.now.ins }
{
    let from = asked(rt.alloc(), near(at, look.dir), look.quarter)?;
    let mut best = u64::MAX;
    let mut cells = 0;
    for _ in 0..TURNS {
        if best < LONG || cells == 0 {
            let mut to = CellBits::new(rt.alloc(), far(at, look.dir)).ok()?;
            let start = Instant::now(rt).ok()?;
            store.image(strategy, look.dir, 0, &from, &mut to);
            best = best.min(since(rt, start)?);
            cells = count_in(rt.alloc(), &to)?;
        }
    }
    say_look(rt, look.name, best, cells)
}

/// The bytes of the store, written, and read once more.
pub fn write_entries(
    rt: &HostRuntime,
    at: &Arc<OpAt>,
    store: &NodeStore,
    strategy: Strategy,
) -> Option<()>
    requires supported { supports (arc_value at.now).op strategy ≡ true }
{
    let mut bytes = Vec::new(rt.alloc());
    let start = Instant::now(rt).ok()?;
    store.put_bytes(&mut bytes).ok()?;
    say(rt, "write", since(rt, start)?)?;
    say(rt, "bytes", bytes.len() as u64)?;
    let at = Arc::try_clone(at).ok()?;
    let start = Instant::now(rt).ok()?;
    let (read, _) = NodeStore::take_bytes(rt.alloc(), at, &[strategy], &bytes, 0).ok()?;
    say(rt, "read", since(rt, start)?)?;
    drop(read);
    Some(())
}
RT
cat >"$here/src/main.rt" <<'RT'
//! `stores ROW SIDE WHAT [KIND]` measures one thing of one row, in a process of its own.
#![tactic(auto)]

ghost use Rattle.std.specs.Prelude.{◌≡◌, ◌<◌, length, map, true};
ghost use Rattle.std.specs.Arc.{arc_value};
ghost use Rattle.sz_spec.specs.Values.{extents_of};
ghost use Rattle.sz_spec.specs.Shapes.{arity, has_right_parameters};
ghost use Rattle.sz_ops.specs.Aids.{aid_of};

mod arrays;
mod kept;
mod measures;
mod nodes;
mod pieces;

use crate::arrays::{Picture, drawn, owner, placed};
use crate::kept::Kind;
use crate::measures::{ask_all, build, make, trace_all, write};
use crate::nodes::{ask_entries, build_entries, make_entries, write_entries};
use crate::pieces::{Source, cells_of};
use std::env;
use std::env::Args;
use std::sync::Arc;
use sz_cells::Shape;
use sz_ops::{Aid, prepare_lineage};
use sz_spec::{Array, Dir, Kernel, Op, OpAt, Strategy, supports};

/// What is measured.
#[derive(Clone, Copy)]
enum What {
    Make,
    Trace,
    /// A store is built, and no more.
    Build(Kind),
    /// And asked.
    Ask(Kind),
    /// And written and read.
    Write(Kind),
    /// The same of a store of payload or composite lineage.
    Entries(Step, Strategy),
}

/// What is done with a store of payload or composite lineage.
#[derive(Clone, Copy)]
enum Step {
    Make,
    Build,
    Ask,
    Write,
}

fn strategy_of(word: &str) -> Option<Strategy> {
    match word {
        "pay_one" => Some(Strategy::PayOne),
        "pay_many" => Some(Strategy::PayMany),
        "comp_one" => Some(Strategy::CompOne),
        "comp_many" => Some(Strategy::CompMany),
        _ => None,
    }
}

fn step_of(what: &str) -> Option<Step> {
    match what {
        "make" => Some(Step::Make),
        "build" => Some(Step::Build),
        "ask" => Some(Step::Ask),
        "write" => Some(Step::Write),
        _ => None,
    }
}

fn kind_of(word: &str) -> Option<Kind> {
    let (many, dir) = match word {
        "full_one_b" => (false, Dir::Back),
        "full_one_f" => (false, Dir::Forward),
        "full_many_b" => (true, Dir::Back),
        "full_many_f" => (true, Dir::Forward),
        _ => return None,
    };
    Some(Kind { many, dir })
}

fn what_of(what: &str, kind: &str) -> Option<What> {
    if let Some(strategy) = strategy_of(kind) {
        return Some(What::Entries(step_of(what)?, strategy));
    }
    match what {
        "make" => Some(What::Make),
        "trace" => Some(What::Trace),
        "build" => Some(What::Build(kind_of(kind)?)),
        "ask" => Some(What::Ask(kind_of(kind)?)),
        "write" => Some(What::Write(kind_of(kind)?)),
        _ => None,
    }
}

/// Measures an operator over its inputs.
fn measure(
    rt: &HostRuntime,
    at: OpAt,
    inputs: &[Arc<Array>],
    source: Source,
    what: What,
) -> Option<()>
    requires inputs { extents_of (map (λ a. arc_value a) inputs.now) ≡ at.ins }
    requires input { 0 < length at.ins }
{
    let alloc = rt.alloc();
    let at = Arc::new(alloc, at).ok()?;
    let aid = prepare_lineage(alloc, &at, inputs).ok()?;
    match what {
        What::Make => make(rt, &at, inputs, &aid, &source),
        What::Trace => trace_all(rt, &at, inputs),
        What::Build(kind) => {
            let kept = build(rt, &at, inputs, &aid, &source, kind)?;
            drop(kept);
            Some(())
        }
        What::Ask(kind) => {
            let kept = build(rt, &at, inputs, &aid, &source, kind)?;
            ask_all(rt, &at, &kept)
        }
        What::Write(kind) => {
            let kept = build(rt, &at, inputs, &aid, &source, kind)?;
            write(rt, &at, &kept, kind)
        }
        What::Entries(step, strategy) => {
            measure_entries(rt, &at, inputs, &aid, step, strategy)
        }
    }
}

/// Measures the store of a strategy, of payload or composite lineage.
fn measure_entries(
    rt: &HostRuntime,
    at: &Arc<OpAt>,
    inputs: &[Arc<Array>],
    aid: &Aid,
    step: Step,
    strategy: Strategy,
) -> Option<()>
    requires inputs { extents_of (map (λ a. arc_value a) inputs.now) ≡ (arc_value at.now).ins }
    requires aid { aid.now ≡ aid_of (arc_value at.now).op (map (λ a. arc_value a) inputs.now) }
    requires input { 0 < length (arc_value at.now).ins }
{
    if !supports(at.op(), strategy) || !strategy.is_stored() {
        return None;
    }
    match step {
        Step::Make => make_entries(rt, at, inputs, aid, strategy),
        Step::Build => {
            let store = build_entries(rt, at, inputs, aid, strategy)?;
            drop(store);
            Some(())
        }
        Step::Ask => {
            let store = build_entries(rt, at, inputs, aid, strategy)?;
            ask_entries(rt, at, &store, strategy)
        }
        Step::Write => {
            let store = build_entries(rt, at, inputs, aid, strategy)?;
            write_entries(rt, at, &store, strategy)
        }
    }
}

fn one(rt: &HostRuntime, op: Op, input: &Arc<Array>, source: Source, what: What) -> Option<()>
    requires one { arity op ≡ 1 }
    requires right { has_right_parameters op ≡ true }
{
    let inputs = [owner(input)?];
    let at = placed(op, vec![in rt.alloc(); input.shape()].ok()?)?;
    measure(rt, at, &inputs, source, what)
}

fn sum(rt: &HostRuntime, shape: Shape, what: What) -> Option<()> {
    let input = drawn(rt.alloc(), shape, Picture::Drawn)?;
    let inputs = [owner(&input)?, owner(&input)?];
    let ins = vec![in rt.alloc(); input.shape(), input.shape()].ok()?;
    let at = placed(Op::Add, ins)?;
    measure(rt, at, &inputs, Source::Operator, what)
}

fn transposed(rt: &HostRuntime, shape: Shape, what: What) -> Option<()> {
    let input = drawn(rt.alloc(), shape, Picture::Drawn)?;
    one(rt, Op::Transpose, &input, Source::Operator, what)
}

fn convolved(rt: &HostRuntime, shape: Shape, side: u32, what: What) -> Option<()> {
    let mut weights = Vec::new(rt.alloc());
    for place in 0..81u32 {
        if place < side.min(9) * side.min(9) {
            let is_heavy = place % 2 == 1 || (side == 3 && place == 4);
            weights.push(i64::from(is_heavy)).ok()?;
        }
    }
    let kernel = Kernel::make(side, side, weights);
    let op = Op::Convolve { kernel };
    if !sz_spec::has_right_parameters(&op) {
        return None;
    }
    let input = drawn(rt.alloc(), shape, Picture::Drawn)?;
    let inputs = [owner(&input)?];
    let at = placed(op, vec![in rt.alloc(); input.shape()].ok()?)?;
    measure(rt, at, &inputs, Source::Operator, what)
}

fn cleaned(rt: &HostRuntime, shape: Shape, t: i64, what: What) -> Option<()> {
    let input = drawn(rt.alloc(), shape, Picture::Drawn)?;
    one(rt, Op::Clean { t }, &input, Source::Operator, what)
}

/// A table of 500 columns, of which every second number drawn names one.
fn looked_up(rt: &HostRuntime, shape: Shape, what: What) -> Option<()> {
    let input = drawn(rt.alloc(), shape, Picture::Drawn)?;
    let table = drawn(rt.alloc(), Shape::make(1, 500)?, Picture::Drawn)?;
    let inputs = [owner(&input)?, owner(&table)?];
    let ins = vec![in rt.alloc(); input.shape(), table.shape()].ok()?;
    let at = placed(Op::Lookup, ins)?;
    measure(rt, at, &inputs, Source::Operator, what)
}

fn regions(rt: &HostRuntime, shape: Shape, picture: Picture, t: i64, what: What) -> Option<()> {
    let input = drawn(rt.alloc(), shape, picture)?;
    one(rt, Op::Regions { t }, &input, Source::Operator, what)
}

/// Region pairs that are made for the purpose, of an operator with one input of its output's shape.
fn made(rt: &HostRuntime, shape: Shape, whole: bool, what: What) -> Option<()> {
    let input = drawn(rt.alloc(), shape, Picture::Block)?;
    let set = cells_of(rt.alloc(), shape, whole)?;
    let source = if whole {
        Source::Whole(set)
    } else {
        Source::Beside(set)
    };
    one(rt, Op::Neg, &input, source, what)
}

fn run(rt: &HostRuntime, row: &str, side: u32, what: What) -> Option<()> {
    let shape = Shape::make(side, side)?;
    match row {
        "plus" => convolved(rt, shape, 3, what),
        "nine" => convolved(rt, shape, 9, what),
        "transpose" => transposed(rt, shape, what),
        "add" => sum(rt, shape, what),
        "drawn" => regions(rt, shape, Picture::Drawn, 500, what),
        "block" => regions(rt, shape, Picture::Block, 5, what),
        "chessboard" => regions(rt, shape, Picture::Chessboard, 5, what),
        "clean" => cleaned(rt, shape, 500, what),
        "hot" => cleaned(rt, shape, 999, what),
        "lookup" => looked_up(rt, shape, what),
        "pairs" => made(rt, shape, false, what),
        "whole" => made(rt, shape, true, what),
        _ => None,
    }
}

/// Measures what the words say.
fn measured(rt: &HostRuntime, args: Args) -> Option<()> {
    let mut words = args;
    words.next()?;
    let row = words.next()?;
    let side = words.next()?.parse::<u32>().ok()?;
    let what = words.next()?;
    let kind = words.next()?;
    let what = what_of(what.as_str(), kind.as_str())?;
    run(rt, row.as_str(), side, what)
}

fn main(rt: HostRuntime) -> anyhow::Result<()> {
    // What a process holds when it starts this one counts to its peak, and is less than this.
    let ballast = vec![in rt.alloc(); 1u64; 4_194_304]?;
    let args = env::args(&rt)?;
    if measured(&rt, args).is_none() {
        println!(rt; "nothing {}", ballast.len())?;
    }
    println!(rt;
        "words {}",
        ballast.iter().filter(|word| **word == 1).count()
    )?;
    Ok(())
}
RT
cd "$here"
rt run -- plus 8 make - >"$work/log" 2>&1 || [ -x out/stores ] || { cat "$work/log"; exit 1; }
python3 - "$here/out/stores" "$@" <<'PY'
import os, resource, subprocess, sys, tempfile

program = sys.argv[1]
sides = [int(word) for word in sys.argv[2:]] or [256, 1024]
full = ["full_one_b", "full_one_f", "full_many_b", "full_many_f"]
by_strategy = ["pay_one", "pay_many", "comp_one", "comp_many"]
rows = {
    "plus": "convolve 3 by 3", "nine": "convolve 9 by 9", "transpose": "transpose", "add": "add", "drawn": "regions, drawn",
    "block": "regions, one block", "chessboard": "regions, chessboard", "pairs": "pairs with one set", "whole": "one pair of all cells",
}
by_entries = {
    "clean": "clean, every second cell hot", "hot": "clean, one cell in a thousand hot", "lookup": "lookup, every second cell in the table",
    "drawn": "regions, drawn", "block": "regions, one block",
}
asked_rows, asked_entries = (os.environ.get(name, "").split() for name in ("STORES_ROWS", "STORES_ENTRIES"))
wanted, wanted_entries = (asked_rows, asked_entries) if asked_rows or asked_entries else (list(rows), list(by_entries))
seconds = int(os.environ.get("STORES_SECONDS", "300"))
memory = int(os.environ.get("STORES_GIGABYTES", "12")) << 30
looks = [("one_back", "b"), ("one_forward", "f"), ("quarter_back", "b"), ("quarter_forward", "f")]


def limit():
    resource.setrlimit(resource.RLIMIT_AS, (memory, memory))


# What a process of these words says, and its peak of memory in bytes; None where it ended in another way.
def measure(*words):
    with tempfile.TemporaryFile("w+") as said:
        words = [program, *map(str, words)]
        running = subprocess.Popen(["timeout", str(seconds), *words], stdout=said, preexec_fn=limit)
        _, status, used = os.wait4(running.pid, 0)
        running.returncode = os.waitstatus_to_exitcode(status)
        said.seek(0)
        pairs = [line.split() for line in said]
    numbers = {pair[0]: int(pair[1]) for pair in pairs if len(pair) == 2}
    if running.returncode != 0 or "nothing" in numbers:
        return None
    return {**numbers, "peak": used.ru_maxrss * 1024}


def least(results, name):
    return min((result[name] for result in results if result), default=None)


# A time in microseconds, its ratio to another, and a star where it is past what is aimed at.
def told(time, other=None, most=None, past=None):
    if time is None:
        return "-"
    text = f"{time / 1000:,.1f}" if time < 100_000 else f"{time / 1000:,.0f}"
    star = past is not None and time > past
    if other:
        text += f" ({time / other:.2f})"
        star = star or most is not None and time > most * other
    return text + "*" * star


def table(lines):
    widths = [max(len(line[at]) for line in lines) for at in range(len(lines[0]))]
    for line in lines:
        print("  ".join(word.ljust(width) if at == 0 else word.rjust(width) for at, (word, width) in enumerate(zip(line, widths))).rstrip())


looks_head = ["one back", "one forward", "quarter back (to trace)", "quarter forward (to trace)"]
bytes_head = ["bytes a cell", "write", "read (to build)"]
head = ["", "build (to make)", "a cell", *looks_head, "ns a pair", *bytes_head]
entries_head = ["", "entries", "made", "build (to make)", "a cell", "an entry", *looks_head, *bytes_head]


def made(row, side, kind):
    runs = [measure(row, side, "make", kind) for _ in range(3)]
    return least(runs, "make"), least(runs, "peak"), least(runs, "pairs")


# What a trace takes of each look, and how many cells it finds.
def traces(row, side):
    traced = measure(row, side, "trace", "-") if row not in ("pairs", "whole") else None
    return traced or {}


# The times of the looks of a store, and what is told of those that find other cells than the trace.
def looked(row, kind, asked, traced, indexed):
    words, faults = [], []
    for look, side_asked in looks:
        time, one = asked.get(look), look.startswith("one")
        ours = side_asked in indexed
        words.append(told(time, None if one else traced.get(look), 5 if ours else None, 100_000 if one and ours else None))
        if time is not None and look in traced and asked[look + "_cells"] != traced[look + "_cells"]:
            faults.append(f"{kind} {look}: {asked[look + '_cells']} cells, and {traced[look + '_cells']} traced")
    return words, faults


def measured(row, side, kind):
    built, asked, written = (measure(row, side, what, kind) for what in ("build", "ask", "write"))
    return built, asked or {}, written or {}, least([built, asked, written], "build")


def written_words(written, build, cells):
    size = "-" if "bytes" not in written else f"{written['bytes'] / cells:,.1f}"
    return [size, told(written.get("write")), told(written.get("read"), build, 1)]


def measure_row(row, side):
    cells = side * side
    make, base, pairs = made(row, side, "-")
    traced = traces(row, side)
    print(f"{rows[row]}: {pairs} region pairs, made in {told(make)} us; traces " + ", ".join(told(traced.get(look)) for look, _ in looks) + " us")
    lines, faults = [head], []
    for kind in full:
        built, asked, written, build = measured(row, side, kind)
        more = (built["peak"] - base) / cells if built and base else None
        words, wrong = looked(row, kind, asked, traced, kind[-1])
        across = asked.get("one_forward" if kind.endswith("b") else "one_back")
        lines.append([
            kind, told(build, make, 6), "-" if more is None else f"{more:,.0f}" + "*" * (more > 900), *words,
            f"{across / pairs:,.1f}" if across and pairs else "-", *written_words(written, build, cells),
        ])
        faults += wrong
    table(lines)
    for fault in faults:
        print(fault)
    print(flush=True)


def measure_entries(row, side):
    cells = side * side
    traced = traces(row, side)
    print(f"{by_entries[row]}; traces " + ", ".join(told(traced.get(look)) for look, _ in looks) + " us")
    lines, faults = [entries_head], []
    for kind in by_strategy:
        make, base, count = made(row, side, kind)
        built, asked, written, build = measured(row, side, kind)
        more = built["peak"] - base if built and base else None
        if row == "hot":
            more = least([built, *(measure(row, side, "build", kind) for _ in range(6))], "peak") - base
        words, wrong = looked(row, kind, asked, traced, "bf")
        lines.append([
            kind, str(count), told(make), told(build, make, 6), "-" if more is None else f"{more / cells:,.1f}",
            "-" if more is None or not count else f"{more / count:,.0f}",
            *words, *written_words(written, build, cells),
        ])
        faults += wrong
    table(lines)
    for fault in faults:
        print(fault)
    print(flush=True)


for side in sides:
    print(f"{side} by {side}; microseconds, and bytes a cell; * past the aim")
    print()
    for row in wanted:
        measure_row(row, side)
    for row in wanted_entries:
        measure_entries(row, side)
PY
