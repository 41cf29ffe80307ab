#!/usr/bin/env bash
# Times the calls of a shelf, as LLVM builds it, and prints one table. The shelf is of a convolution 3 by 3 (a plus) of an array of 1,024 a
# side (or of the side that is given), with a store of full lineage for each direction: 16,384 pieces.
#
# Its rows, each for one thread, for two and for four, with a pass of its own in each thread:
#
#   turns in which nothing is done   1,000,000 a thread: seals that are refused since piece 0 is missing. One thread is to take at most 100
#                                    nanoseconds a turn; what is past that has a star
#   sealed_now                       1,000,000 a thread, on a sealed shelf: loads without a turn
#   made; made and placed            the lineages of all pieces, shared out among the threads, dropped at once or placed
#   looks in turns                   200,000 a thread, each of one cell, backward, at a sealed shelf
#   looks into a kept store          the same, by the store that each pass keeps: no turn
#
# Two rows more: one thread makes and places all pieces and seals while four others look at the shelf until it is sealed; and their looks,
# most of which are told the least piece that is missing, and so go over the marks of those before it.
#
# `ns a call` is what a call takes in its thread, `calls a ms` how many all threads make in a millisecond, and `to one thread` that number beside
# the one of one thread. Each measure is a process of its own, the best of a few; SHELF_TURNS says of how many. It is no test: nothing is
# compared. It needs python3, works in a folder of its own, and takes what was built in this checkout.
#
#     bench/shelf.sh [SIDE]
set -euo pipefail
root=$(cd "$(dirname "$0")/.." && pwd)
work=$(mktemp -d)
trap 'rm -rf "$work"' EXIT
here=$work/crates/turns
mkdir -p "$here/src" "$here/specs" "$here/proofs"
. "$root/bench/apart.sh"
take_crates sz_cells sz_spec sz_frame sz_region sz_ops sz_store sz_shelf
echo 'turns: sz_cells sz_spec sz_frame sz_region sz_ops sz_store sz_shelf anyhow' >>"$work/crates.txt"
cat >"$here/specs/Lib.antt" <<'ANTT'
pub mod Bench
ANTT
cat >"$here/specs/Bench.antt" <<'ANTT'
-- A shelf of a node with one input, and with a store for each direction.
use Rattle.std.specs.Prelude.{◌≡◌, List, [], ◌∷◌}
use Rattle.sz_spec.specs.declared.modes.Strategy.{Strategy}
use Rattle.sz_spec.specs.declared.modes.Strategy.TheVariants as strategy
use Rattle.sz_spec.specs.Values.{Grid}
use Rattle.sz_spec.specs.Shapes.{Site}
use Rattle.sz_shelf.specs.Tags.{Tag}

abbrev pub strategies : List Strategy
strategies = strategy.FullOneB ∷ strategy.FullOneF ∷ []

abbrev pub tag_of : Site → Grid → Tag
tag_of s g = record { site = s; inputs = g ∷ []; list = strategies }

-- the operator takes the array, and the tag is theirs
pub record IsBench (s : Site) (g : Grid) (t : Tag) : Type 0 where
  pub ins : s.ins ≡ g.extent ∷ []
  pub tag : t ≡ tag_of s g
ANTT
cat >"$here/proofs/Lib.antt" <<'ANTT'
pub mod Sites
ANTT
write_sites "$here/proofs/Sites.antt"
mkdir -p "$here/proofs/run"
cat >"$here/proofs/run/Answers.antt" <<'ANTT'
-- A worker moves, since a pass moves and a shelf is shared.
use Prim.Native.Nat.{ℕ}
use mir.Syntax.{Ty}
use denote.RattleType.{RattleType}
use denote.Exit.{no}
use denote.Param.{param, arg}
use denote.Param.Send.{IsSend, IsSync, sendable, param_send, arg_send}
use Rattle.std.proofs.Crossing.{crosses}
use Rattle.sz_shelf.proofs.Crossing.{fields, at_send, at_sync, shelf_send, shelf_sync, pass_send}
use Rattle.turns.specs.contracts.bench.Bench as Bench
use Rattle.turns.specs.contracts.worker.Worker as Worker
use Rattle.turns.proofs.run.Goals as goal

bench_send : IsSend Bench.the_row
bench_send = search (at_send, at_sync, shelf_send, shelf_sync, sendable, crosses, fields) depth 60 fits 5000

bench_sync : IsSync Bench.the_row
bench_sync = search (at_send, at_sync, shelf_send, shelf_sync, sendable, crosses, fields) depth 60 fits 5000

worker_send : IsSend Worker.the_row
worker_send = search (bench_send, bench_sync, pass_send, sendable, crosses, fields) depth 60 fits 5000

passed_send : (i : ℕ) (δ : Ty) (R : RattleType) → IsSend R → IsSend (param i (arg δ no R))
passed_send i δ R s = param_send i _ (arg_send δ no R s)

pub for_each_mut-requires-send-T : goal.for_each_mut-requires-send-T
for_each_mut-requires-send-T g c κs within = passed_send _ _ Worker.the_row worker_send
ANTT
cat >"$here/src/bench.rt" <<'RT'
//! An operator with one input, its array, and a shelf for them.

ghost use Rattle.std.specs.Prelude.{◌≡◌, ◌<◌, [], ◌∷◌, IfOk};
ghost use Rattle.std.specs.Arc.{arc_value};
ghost use Rattle.sz_spec.specs.Values.{extent_at};
ghost use Rattle.sz_frame.specs.Fits.{Fits};
ghost use Rattle.sz_frame.specs.Images.{measure_of};
ghost use Rattle.sz_shelf.specs.Passes.{place_of};
ghost use Rattle.sz_shelf.specs.Tags.{tag_pieces};

use std::alloc::Global;
use std::marker::Model;
use std::sync::{Arc, Wait};
use sz_cells::{CellBits, NoMemory};
use sz_ops::{piece, prepare_lineage};
use sz_region::PieceLineage;
use sz_shelf::{Look, Pass, Placed, SealReply, Shelf};
use sz_spec::{Array, Dir, OpAt, Strategy, Tally, pieces_of};

const LIST: [Strategy; 2] = [Strategy::FullOneB, Strategy::FullOneF];

/// An operator with its array and their shelf. Contracts see which shelf it is.
#[derive(Drop)]
pub struct Bench {
    at: Arc<OpAt>,
    array: Arc<Array>,
    shelf: Arc<Shelf>,
}

impl Model for Bench {
    ghost use Rattle.std.specs.Arc.{arc_value};
    ghost use Rattle.sz_shelf.specs.Places.{ShelfPlace};
    ghost use Rattle.turns.specs.Bench.{IsBench};

    ghost Value = { ShelfPlace };

    ghost view = { λ b. arc_value b.shelf };

    ghost invariant = { λ b.
        IsBench (arc_value b.at) (arc_value b.array) (arc_value b.shelf).tag };
}

impl Bench {
    /// The shelf of an operator and its array, and its first pass.
    pub fn new(alloc: Global, at: Arc<OpAt>, array: Arc<Array>) -> Result<(Bench, Pass), NoMemory>
        requires { (arc_value at).ins ≡ (arc_value array).extent ∷ [] }
        ensures { IfOk result (λ b. place_of b.1 ≡ b.0) }
    {
        let own = Arc::try_clone(&at)?;
        let (shelf, pass) = Shelf::make(alloc, own, &[Arc::try_clone(&array)?], &LIST)?;
        Ok((Bench { at, array, shelf }, pass))
    }

    /// How many pieces the output has.
    pub fn pieces(&self) -> u32
        ensures { result ≡ tag_pieces self.now.tag }
    {
        pieces_of(self.at.out())
    }

    /// The lineage of a piece.
    pub fn lineage(&self, alloc: Global, k: u32) -> Result<PieceLineage, NoMemory>
        requires { k < tag_pieces self.now.tag }
        ensures piece { IfOk result (λ p. p.piece ≡ k) }
        ensures fits { let t = self.now.tag in
            IfOk result (λ p. Fits (measure_of t.site t.inputs) t.list k p) }
    {
        let inputs = [Arc::try_clone(&self.array)?];
        let aid = prepare_lineage(alloc, &self.at, &inputs)?;
        let mut tally = Tally::new();
        piece(alloc, &self.at, &inputs, &aid, k, &LIST, &mut tally)
    }

    /// Places the lineage of a piece.
    pub fn place<R: Wait>(
        &self,
        alloc: Global,
        rt: &R,
        pass: &mut Pass,
        k: u32,
    ) -> Result<Placed, NoMemory>
        requires own { place_of pass.old ≡ self.now }
        requires piece { k < tag_pieces self.now.tag }
        ensures own { place_of pass.new ≡ place_of pass.old }
    {
        let lineage = self.lineage(alloc, k)?;
        self.shelf.place(rt, pass, &lineage)
    }

    /// Seals.
    pub fn seal<R: Wait>(&self, rt: &R, pass: &mut Pass) -> SealReply
        requires { place_of pass.old ≡ self.now }
        ensures { place_of pass.new ≡ place_of pass.old }
    {
        self.shelf.seal(rt, pass)
    }

    /// Whether there is a seal.
    pub fn sealed_now(&self, pass: &mut Pass) -> bool
        requires { place_of pass.old ≡ self.now }
        ensures { place_of pass.new ≡ place_of pass.old }
    {
        self.shelf.sealed_now(pass)
    }

    /// Looks backward, and adds the image to a set.
    pub fn look<R: Wait>(&self, rt: &R, pass: &mut Pass, from: &CellBits, to: &mut CellBits) -> Look
        requires own { place_of pass.old ≡ self.now }
        requires from { from.now.extent ≡ self.now.tag.site.out }
        requires to { to.old.extent ≡ extent_at self.now.tag.site.ins 0 }
        ensures own { place_of pass.new ≡ place_of pass.old }
        ensures to { to.new.extent ≡ to.old.extent }
    {
        let _ = &self.at;
        self.shelf
            .look(rt, pass, Strategy::FullOneB, Dir::Back, 0, from, to)
    }

    /// Takes the stores, which the pass then keeps. Whether there were any.
    pub fn keep<R: Wait>(&self, alloc: Global, rt: &R, pass: &mut Pass) -> bool
        requires { place_of pass.old ≡ self.now }
        ensures { place_of pass.new ≡ place_of pass.old }
    {
        match self.shelf.store_of(alloc, rt, pass) {
            Ok(given) => given.is_some(),
            Err(_) => false,
        }
    }

    /// Looks into the stores that the pass keeps. Whether it keeps any.
    pub fn look_kept(&self, pass: &Pass, from: &CellBits, to: &mut CellBits) -> bool
        requires own { place_of pass.now ≡ self.now }
        requires from { from.now.extent ≡ self.now.tag.site.out }
        requires to { to.old.extent ≡ extent_at self.now.tag.site.ins 0 }
        ensures { to.new.extent ≡ to.old.extent }
    {
        let _ = &self.at;
        match pass.kept() {
            Some(store) => {
                store.image(Strategy::FullOneB, Dir::Back, 0, from, to);
                true
            }
            None => false,
        }
    }

    /// One pass more.
    pub fn split(&self, pass: &mut Pass) -> Result<Pass, NoMemory>
        requires { place_of pass.old ≡ self.now }
        ensures same { place_of pass.new ≡ place_of pass.old }
        ensures new { IfOk result (λ p. place_of p ≡ self.now) }
    {
        self.shelf.split(pass)
    }

    /// The set of one cell of the output, and an empty set of the input's shape.
    pub fn cells(&self, alloc: Global) -> Result<(CellBits, CellBits), NoMemory>
        ensures from { IfOk result (λ c. c.0.extent ≡ self.now.tag.site.out) }
        ensures to { IfOk result (λ c. c.1.extent ≡ extent_at self.now.tag.site.ins 0) }
    {
        let out = self.at.out();
        let mut from = CellBits::new(alloc, out)?;
        from.set(out.cell_at(out.size() / 2));
        Ok((from, CellBits::new(alloc, self.array.shape())?))
    }
}
RT
cat >"$here/src/worker.rt" <<'RT'
//! A pass, with the shelf that it is of.

ghost use Rattle.std.specs.Prelude.{◌≡◌, ◌<◌};
ghost use Rattle.std.specs.Arc.{arc_value};
ghost use Rattle.sz_spec.specs.Values.{extent_at};
ghost use Rattle.sz_shelf.specs.Passes.{place_of};

use crate::bench::Bench;
use std::alloc::Global;
use std::sync::{Arc, Wait};
use sz_cells::{CellBits, NoMemory};
use sz_shelf::{Look, Pass, Placed, SealReply};

/// What a thread works with: a shelf, a pass of it, the set that it looks from, and one for the
/// images.
#[derive(Drop)]
pub struct Worker {
    bench: Arc<Bench>,
    pass: Pass,
    from: CellBits,
    to: CellBits,
    /// How many calls answered as was hoped.
    pub done: u64,
    ghost own: { place_of pass ≡ arc_value bench },
    ghost near: { from.extent ≡ (arc_value bench).tag.site.out },
    ghost far: { to.extent ≡ extent_at (arc_value bench).tag.site.ins 0 },
}

impl Worker {
    /// A worker with a pass.
    pub fn new(alloc: Global, bench: Arc<Bench>, pass: Pass) -> Result<Worker, NoMemory>
        requires { place_of pass ≡ arc_value bench }
    {
        let (from, to) = bench.cells(alloc)?;
        Ok(Worker {
            bench,
            pass,
            from,
            to,
            done: 0,
        })
    }

    /// One worker more, at the same shelf.
    pub fn split(&mut self, alloc: Global) -> Result<Worker, NoMemory> {
        let bench = Arc::try_clone(&self.bench)?;
        let pass = self.bench.split(&mut self.pass)?;
        Worker::new(alloc, bench, pass)
    }

    /// How many pieces there are.
    pub fn pieces(&self) -> u32 {
        self.bench.pieces()
    }

    fn count(&mut self, is_done: bool) {
        self.done = self.done.wrapping_add(u64::from(is_done));
    }

    /// One turn in which nothing is done: a seal while the first piece is missing.
    pub fn turn<R: Wait>(&mut self, rt: &R) {
        let reply = self.bench.seal(rt, &mut self.pass);
        self.count(matches!(reply, SealReply::Missing(_)));
    }

    /// Seals. Whether it is sealed.
    pub fn seal<R: Wait>(&mut self, rt: &R) -> bool {
        self.bench.seal(rt, &mut self.pass) == SealReply::Sealed
    }

    /// One load of the count.
    pub fn ask(&mut self) {
        let is_sealed = self.bench.sealed_now(&mut self.pass);
        self.count(is_sealed);
    }

    /// Makes the lineage of a piece, and drops it.
    pub fn make(&mut self, alloc: Global, k: u32) {
        let is_made = k < self.bench.pieces() && self.bench.lineage(alloc, k).is_ok();
        self.count(is_made);
    }

    /// Makes the lineage of a piece, and places it.
    pub fn place<R: Wait>(&mut self, alloc: Global, rt: &R, k: u32) {
        if k < self.bench.pieces() {
            let placed = self.bench.place(alloc, rt, &mut self.pass, k);
            self.count(matches!(placed, Ok(Placed::New)));
        }
    }

    /// Looks at the shelf. Whether it is sealed.
    pub fn look<R: Wait>(&mut self, rt: &R) -> bool {
        let look = self
            .bench
            .look(rt, &mut self.pass, &self.from, &mut self.to);
        self.count(true);
        look == Look::Done
    }

    /// Keeps the stores.
    pub fn keep<R: Wait>(&mut self, alloc: Global, rt: &R) -> bool {
        self.bench.keep(alloc, rt, &mut self.pass)
    }

    /// Looks into the kept stores.
    pub fn look_kept(&mut self) {
        let is_kept = self.bench.look_kept(&self.pass, &self.from, &mut self.to);
        self.count(is_kept);
    }
}
RT
cat >"$here/src/main.rt" <<'RT'
//! `turns WHAT THREADS SIDE` measures one thing, in a process of its own.
#![tactic(auto)]

ghost use Rattle.std.specs.Prelude.{◌≡◌, [], ◌∷◌, true, length, IfSome};
ghost use Rattle.std.specs.Arc.{arc_value};
ghost use Rattle.sz_spec.specs.Shapes.{arity, has_right_parameters};

mod bench;
mod worker;

use crate::bench::Bench;
use crate::worker::Worker;
use std::alloc::Global;
use std::env::Args;
use std::sync::{Arc, Wait};
use std::thread::Threads;
use std::time::{Clock, Instant};
use std::{env, thread};
use sz_cells::Shape;
use sz_spec::{Array, Kernel, Op, OpAt};

/// What is measured.
#[derive(Clone, Copy, PartialEq, Eq)]
enum What {
    /// Turns in which nothing is done.
    Turn,
    /// Loads of the count.
    Ask,
    /// The lineages of all pieces are made.
    Make,
    /// They are made and placed.
    ShelfPlace,
    /// One thread makes and places them, and the others look at the shelf meanwhile.
    Beside,
    /// Looks at a sealed shelf, each in a turn.
    Look,
    /// Looks into kept stores.
    Kept,
}

const CALLS: u32 = 1_000_000;

const LOOKS: u32 = 200_000;

fn what_of(word: &str) -> Option<What> {
    match word {
        "turn" => Some(What::Turn),
        "ask" => Some(What::Ask),
        "make" => Some(What::Make),
        "place" => Some(What::ShelfPlace),
        "beside" => Some(What::Beside),
        "look" => Some(What::Look),
        "kept" => Some(What::Kept),
        _ => None,
    }
}

/// Makes or places every so many-th piece.
fn fill<R: Wait>(
    alloc: Global,
    rt: &R,
    worker: &mut Worker,
    first: usize,
    step: usize,
    places: bool,
) {
    for k in 0..worker.pieces() {
        if step > 0 && k as usize % step == first {
            if places {
                worker.place(alloc, rt, k);
            } else {
                worker.make(alloc, k);
            }
        }
    }
}

/// Looks until the shelf is sealed.
fn look_on<R: Wait>(rt: &R, worker: &mut Worker) {
    for _ in 0..u64::MAX {
        if worker.look(rt) {
            return;
        }
    }
}

/// What a thread does: the one with this number, of so many.
fn work<R: Wait>(
    alloc: Global,
    rt: &R,
    worker: &mut Worker,
    what: What,
    number: usize,
    threads: usize,
) {
    match what {
        What::Turn => {
            for _ in 0..CALLS {
                worker.turn(rt);
            }
        }
        What::Ask => {
            for _ in 0..CALLS {
                worker.ask();
            }
        }
        What::Make => fill(alloc, rt, worker, number, threads, false),
        What::ShelfPlace => fill(alloc, rt, worker, number, threads, true),
        What::Beside => {
            if number == 0 {
                fill(alloc, rt, worker, 0, 1, true);
                worker.seal(rt);
            } else {
                look_on(rt, worker);
            }
        }
        What::Look => {
            for _ in 0..LOOKS {
                worker.look(rt);
            }
        }
        What::Kept => {
            for _ in 0..LOOKS {
                worker.look_kept();
            }
        }
    }
}

/// An array whose cells count up.
fn array(alloc: Global, shape: Shape) -> Option<Arc<Array>>
    ensures { IfSome result (λ a. (arc_value a).extent ≡ shape) }
{
    let mut cells = Vec::new(alloc);
    for index in 0..shape.size() {
        cells.push(Some(i64::from(index))).ok()?;
    }
    let array = Array::make(shape, cells)?;
    Arc::new(alloc, array).ok()
}

/// The convolution by a plus, of a shape.
fn convolution(alloc: Global, shape: Shape) -> Option<Arc<OpAt>>
    ensures { IfSome result (λ a. (arc_value a).ins ≡ shape ∷ []) }
{
    let weights = vec![in alloc; 0i64, 1, 0, 1, 1, 1, 0, 1, 0].ok()?;
    let kernel = Kernel::make(3, 3, weights);
    let op = Op::Convolve { kernel };
    if !sz_spec::has_right_parameters(&op) {
        return None;
    }
    let at = placed(op, vec![in alloc; shape].ok()?)?;
    Arc::new(alloc, at).ok()
}

/// An operator between inputs of these shapes, where its shape rule holds.
#[tactic(auto, using(crate::proofs::Sites::given_ins))]
fn placed(op: Op, ins: Vec<Shape>) -> Option<OpAt>
    requires arity { length ins.items ≡ arity op }
    requires right { has_right_parameters op ≡ true }
    ensures { IfSome result (λ a. a.ins ≡ ins.items) }
{
    match OpAt::of(op, ins) {
        Ok(at) => Some(at),
        Err(_) => None,
    }
}

/// A shelf of the convolution of a square array, and its first worker.
fn first_worker(alloc: Global, side: u32) -> Option<Worker> {
    let shape = Shape::make(side, side)?;
    let array = array(alloc, shape)?;
    let at = convolution(alloc, shape)?;
    let (bench, pass) = Bench::new(alloc, at, array).ok()?;
    let bench = Arc::new(alloc, bench).ok()?;
    Worker::new(alloc, bench, pass).ok()
}

/// So many workers at one shelf.
fn workers(alloc: Global, first: Worker, count: usize) -> Option<Vec<Worker>> {
    let mut first = first;
    let mut all = Vec::new(alloc);
    for _ in 1..count {
        all.push(first.split(alloc).ok()?).ok()?;
    }
    all.push(first).ok()?;
    Some(all)
}

/// What stands on the shelf before the measure.
fn ready<R: Wait>(alloc: Global, rt: &R, worker: &mut Worker, what: What) -> bool {
    if what != What::Ask && what != What::Look && what != What::Kept {
        return true;
    }
    fill(alloc, rt, worker, 0, 1, true);
    worker.done = 0;
    worker.seal(rt) && (what != What::Kept || worker.keep(alloc, rt))
}

/// Lets all workers work, each in a thread. Nanoseconds.
fn run<R: Threads + Wait + Clock + Sync>(
    rt: &R,
    alloc: Global,
    workers: &mut Vec<Worker>,
    what: What,
) -> Option<u64> {
    let threads = workers.len();
    if threads == 0 {
        return None;
    }
    let start = Instant::now(rt).ok()?;
    thread::for_each_mut(
        rt,
        workers.as_mut_slice(),
        threads,
        &|number, worker: &mut Worker| work(alloc, rt, worker, what, number, threads),
    );
    let time = start.elapsed(rt).ok()?;
    u64::try_from(time.as_nanos()).ok()
}

/// Measures what the words say: nanoseconds, and the workers.
fn measured<R: Threads + Wait + Clock + Sync>(
    rt: &R,
    alloc: Global,
    args: Args,
) -> Option<(u64, Vec<Worker>)> {
    let mut words = args;
    words.next()?;
    let what = what_of(words.next()?.as_str())?;
    let threads = words.next()?.parse::<usize>().ok()?;
    let side = words.next()?.parse::<u32>().ok()?;
    let mut first = first_worker(alloc, side)?;
    if !ready(alloc, rt, &mut first, what) {
        return None;
    }
    let mut all = workers(alloc, first, threads.min(64))?;
    let time = run(rt, alloc, &mut all, what)?;
    Some((time, all))
}

fn main(rt: HostRuntime) -> anyhow::Result<()> {
    let args = env::args(&rt)?;
    match measured(&rt, rt.alloc(), args) {
        Some((time, workers)) => {
            println!(rt; "time {time}")?;
            for worker in workers.iter() {
                println!(rt; "done {}", worker.done)?;
            }
        }
        None => println!(rt; "nothing 0")?,
    }
    Ok(())
}
RT
cd "$here"
rt run -- turn 1 8 >"$work/log" 2>&1 || [ -x out/turns ] || { cat "$work/log"; exit 1; }
python3 - "$here/out/turns" "$@" <<'PY'
import os, subprocess, sys

program = sys.argv[1]
side = int(sys.argv[2]) if len(sys.argv) > 2 else 1024
turns = int(os.environ.get("SHELF_TURNS", "5"))


# What one process of these words says: its nanoseconds, and what each thread counted.
def once(what, threads):
    said = subprocess.run([program, what, str(threads), str(side)], stdout=subprocess.PIPE, text=True, timeout=600, check=True).stdout
    lines = [line.split() for line in said.splitlines()]
    times = [int(number) for name, number in lines if name == "time"]
    if not times:
        sys.exit(f"{what} {threads}: nothing was measured")
    return times[0], [int(number) for name, number in lines if name == "done"]


# The one of a few that took the least time.
def best(what, threads):
    return min(once(what, threads) for _ in range(turns))


lines = [["", "threads", "ms", "ns a call", "calls a ms", "to one thread"]]


# A line of a measure: the time, the time that one call takes in its thread, and how many all threads make in a millisecond, beside
# how many one thread makes.
def told(name, what, threads, alone=None, aim=None):
    time, done = best(what, threads)
    calls = sum(done)
    each = time * len(done) / calls
    rate = calls * 1e6 / time
    star = "*" if aim is not None and each > aim else ""
    lines.append([name, str(threads), f"{time / 1e6:,.1f}", f"{each:,.1f}{star}", f"{rate:,.1f}", "" if alone is None else f"{rate / alone:.2f}"])
    return rate


for name, what, counts, aim in [
    ("turns in which nothing is done", "turn", (1, 2, 4), 100),
    ("sealed_now", "ask", (1, 2, 4), None),
    ("lineages of pieces, made", "make", (1, 2, 4), None),
    ("lineages of pieces, made and placed", "place", (1, 2, 4), None),
    ("looks at a sealed shelf, each in a turn", "look", (1, 2, 4), None),
    ("looks into a kept store", "kept", (1, 2, 4), None),
]:
    alone = None
    for threads in counts:
        rate = told(name, what, threads, alone, aim if threads == 1 else None)
        alone = alone or rate

time, done = best("beside", 5)
placed, looks = done[0], sum(done[1:])
lines.append(["lineages made and placed beside four that look", "1 + 4", f"{time / 1e6:,.1f}", f"{time / max(placed, 1):,.1f}", f"{placed * 1e6 / time:,.1f}", ""])
lines.append(["  and their looks meanwhile", "4", f"{time / 1e6:,.1f}", f"{time * 4 / max(looks, 1):,.1f}", f"{looks * 1e6 / time:,.1f}", ""])

load = os.getloadavg()[0]
print(f"{side} by {side}, {-(-side * side // 64)} pieces; the best of {turns}; {os.cpu_count()} processors, load {load:.1f}; * past the aim")
widths = [max(len(line[at]) for line in lines) for at in range(len(lines[0]))]
for line in lines:
    print("  ".join(word.ljust(width) if at == 0 else word.rjust(width) for at, (word, width) in enumerate(zip(line, widths))).rstrip())
PY
