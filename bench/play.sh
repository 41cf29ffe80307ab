#!/usr/bin/env bash
# Times `subzero play`, as LLVM builds it, on a session that loads an array of SIDE by SIDE (1024 where no side is given),
# negates it and asks for a cell and for every eighth one, and beside it the time of reading the array's line alone by serde_json.
# Both times are those of whole processes, the best of five. It is no test: nothing is compared. It builds the program in this checkout
# and the reading in a folder of its own, and needs python3. Run it from anywhere.
set -euo pipefail
side=${1:-1024}
root=$(cd "$(dirname "$0")/.." && pwd)
work=$(mktemp -d)
trap 'rm -rf "$work"' EXIT
mkdir -p "$work/crates/reads/src"
echo 'reads: serde_json anyhow' >"$work/crates.txt"
cat >"$work/crates/reads/src/main.rt" <<'RT'
#![tactic(auto)]

use serde_json::Value;
use std::io::Read;

fn main(rt: HostRuntime) -> anyhow::Result<()> {
    let mut line = Vec::new(rt.alloc());
    rt.stdin().read_to_end(&mut line)?;
    let read = Value::from_slice(rt.alloc(), &line).is_ok();
    println!(rt; "{read}")?;
    Ok(())
}
RT
python3 - "$side" "$work" <<'PY'
import random, sys
side, work = int(sys.argv[1]), sys.argv[2]
random.seed(1)
rows = ",".join("[" + ",".join(str(random.randint(-999, 999)) for _ in range(side)) + "]" for _ in range(side))
array = '{"array":"a","cells":[%s]}\n' % rows
ask = '{"ask":1,"dir":"back","path":[[0,0]],"cells":[%s]}\n'
some = ",".join("[%d,%d]" % (r, c) for r in range(side) for c in range(0, side, 8))
open(work + "/line", "w").write(array)
with open(work + "/session", "w") as out:
    out.write(array)
    out.write('{"flow":"f","inputs":1,"nodes":[{"op":"neg","from":[{"i":0}]}]}\n{"start":"f","base":[["a",1]]}\n{"await":1}\n')
    out.write(ask % "[0,0]")
    out.write(ask % some)
PY
for crate in "$work/crates/reads" "$root/crates/subzero"; do
    (cd "$crate" && rt run -- play <"$work/line" >"$work/log" 2>&1) || [ -x "$crate/out/$(basename "$crate")" ] || { cat "$work/log"; exit 1; }
done
python3 - "$work" "$root" <<'PY'
import subprocess, sys, time
work, root = sys.argv[1:3]
def best(words, text):
    times = []
    for _ in range(5):
        with open(text) as source:
            start = time.time()
            subprocess.run(words, stdin=source, stdout=subprocess.DEVNULL, check=True)
            times.append(time.time() - start)
    return min(times) * 1000
reading = best([work + "/crates/reads/out/reads"], work + "/line")
playing = best([root + "/crates/subzero/out/subzero", "play"], work + "/session")
print("reading the line alone: %.1f ms" % reading)
print("playing the session:    %.1f ms (%.1f times)" % (playing, playing / reading))
PY
