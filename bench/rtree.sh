#!/usr/bin/env bash
# Times the tree of rectangles, as LLVM builds it: 262,144 unit squares in row-major order are put in, and 10,000 cells
# looked for, each from number 0 and then once more behind what was found.
# It is no test: nothing is compared. Run it from anywhere; it works in a folder of its own.
set -euo pipefail
root=$(cd "$(dirname "$0")/.." && pwd)
work=$(mktemp -d)
trap 'rm -rf "$work"' EXIT
mkdir -p "$work/crates/looks/src" "$work/crates/looks/specs" "$work/crates/looks/proofs/fill"
for name in sz_cells sz_rtree; do
    (cd "$root/crates" && tar cf - --exclude=out "$name") | tar xf - -C "$work/crates"
done
printf 'sz_cells:\nsz_rtree: sz_cells\nlooks: sz_cells sz_rtree anyhow\n' >"$work/crates.txt"
touch "$work/crates/looks/specs/Lib.antt"
cat >"$work/crates/looks/src/main.rt" <<'RT'
#![tactic(auto)]

ghost use Rattle.std.specs.Prelude.{◌≤◌};

use std::time::Instant;

use sz_cells::Bounds;
use sz_rtree::RTree;

const SIDE: u32 = 512;
const LOOKS: u32 = 10000;

fn square(number: u32) -> Bounds {
    let row = number / SIDE;
    let column = number % SIDE;
    Bounds {
        top: row,
        left: column,
        bottom: row,
        right: column,
    }
}

fn fill(tree: &mut RTree)
    requires { 262144 ≤ tree.old.spare }
{
    for number in 0..SIDE * SIDE {
        tree.insert(square(number));
    }
}

fn look(tree: &RTree) -> u32 {
    let mut found = 0u32;
    for turn in 0..LOOKS {
        let cell = square(turn.wrapping_mul(2654435761) % (SIDE * SIDE));
        let mut from = 0;
        if let Some(number) = tree.next_hit(cell, from) {
            found = found.wrapping_add(number);
            from = number.wrapping_add(1);
        }
        if let Some(number) = tree.next_hit(cell, from) {
            found = found.wrapping_add(number);
        }
    }
    found
}

fn main(rt: HostRuntime) -> anyhow::Result<()> {
    let start = Instant::now(&rt)?;
    let Ok(mut tree) = RTree::new(rt.alloc()) else {
        println!(rt; "no memory")?;
        return Ok(());
    };
    if tree.reserve(SIDE * SIDE).is_err() {
        println!(rt; "no memory")?;
        return Ok(());
    }
    fill(&mut tree);
    let filled = start.elapsed(&rt)?;
    println!(rt; "{} rectangles reserved and put in: {} us", tree.len(), filled.as_micros())?;
    let start = Instant::now(&rt)?;
    let found = look(&tree);
    let looked = start.elapsed(&rt)?;
    println!(rt; "{} pairs of looks: {} us (sum of the numbers found: {})", LOOKS, looked.as_micros(), found)?;
    Ok(())
}
RT
printf 'use Rattle.std.proofs.Common.{◌+◌, ◌≤◌}\nuse Rattle.looks.proofs.fill.Given as goal\n\nabbrev pub invariant-loop-number : goal.invariant-loop-number\ninvariant-loop-number l = 262144 ≤ l.tree.spare + l.number\n' >"$work/crates/looks/proofs/fill/Invariants.antt"
cd "$work/crates/looks"
rt run >"$work/log" 2>&1 || { cat "$work/log"; exit 1; }
for _ in 1 2 3 4 5; do ./out/looks; done
