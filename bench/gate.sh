#!/usr/bin/env bash
# Prints what each crate costs to prove: its own proof, the proof of its tests, and its must-fail edits, each from
# nothing and one after another. It is no test and no part of the gate: nothing is judged, and what it proves is not
# kept for the gate.
#
#     bench/gate.sh              every crate of crates.txt, lowest first
#     bench/gate.sh NAME..       these alone, in that order
#
# All seconds are of one job at a time. "wall" passed on the clock, so it is worth something only on an idle machine;
# "cpu" is processor time, in user and system mode, of all processes. The columns:
#
#   proof   `rt check` of the crate over no kept work, with the libraries below it built before the clock starts. The
#           gate makes this check too, but loads of those libraries their statements alone.
#   tests   `rt check --test` over no kept work: the crate once more with its #[test] functions, since the gate proves
#           both together too. Nothing is built or run. "-" where a crate has no tests.
#   edits   `rt must-fail --anew`: the crate once more from nothing, each edit over that, and the crate over it at the
#           end, as in the gate. `n` is how many edits there are, and "-" stands where there are none.
#
# In the total, cpu is about what a whole gate takes that has nothing kept, without what it takes to build and run
# tests and programs. Its wall is less than the sum, as it works on several crates at a time.
#
# A check begins with what checks of the same text in other copies of the repository on this machine kept, and else
# with what its own folder out/incremental has. So the crates are measured in a copy, in which the root file of each
# ends with a comment that no other copy has, and that folder is emptied before each measure. The copy is removed at the
# end. A library below that is not measured stays as it is, and is built over whatever there is.
set -euo pipefail
root=$(cd "$(dirname "$0")/.." && pwd)
work=$(mktemp -d)
trap 'rm -rf "$work"' EXIT
mkdir "$work/crates"
cp "$root/crates.txt" "$root/HANDLES" "$work"
(cd "$root/crates" && tar cf - --exclude=out .) | tar xf - -C "$work/crates"
cd "$work"

declare -A below needed asked
names=()
while IFS= read -r line; do
    line=${line%%#*}
    [[ $line == *:* ]] || continue
    read -r name _ <<<"${line%%:*}"
    names+=("$name")
    below[$name]=${line#*:}
done <crates.txt
[ $# -gt 0 ] || set -- "${names[@]}"
for name in "$@"; do
    [ -n "${below[$name]+there}" ] || { echo "crates.txt has no crate $name" >&2; exit 1; }
    asked[$name]=1
done
# (a crate stands behind those below it, so one pass from the last line up finds all that are needed below)
for ((at = ${#names[@]} - 1; at >= 0; at--)); do
    name=${names[at]}
    [ -n "${asked[$name]-}${needed[$name]-}" ] || continue
    for low in ${below[$name]}; do
        [ -z "${below[$low]+there}" ] || needed[$low]=1
    done
done

# Ends the script, with what a command said that failed.
failed() {
    tail -n 40 "$work/log" >&2
    echo "failed: $*" >&2
    exit 1
}

# Runs a command in a crate's folder, and leaves the seconds that passed in `wall` and those of processors in `cpu`.
measure() {
    local TIMEFORMAT='%R %U %S' user system
    cd "$work/crates/$1"
    { time "${@:2}" >"$work/log" 2>&1; } 2>"$work/seconds" || failed "${*:2} in $1"
    read -r wall user system <"$work/seconds"
    cpu=$(awk "BEGIN { printf \"%.1f\", $user + $system }")
    wall=$(awk "BEGIN { printf \"%.1f\", $wall }")
    cd "$work"
}

# Has the next check of a crate begin from nothing.
from_nothing() {
    rm -rf "crates/$1/out/incremental"
    mkdir -p "crates/$1/out/incremental"
}

# Adds the seconds of the last measure to the sums of a column.
add() {
    sums[$1]=$(awk "BEGIN { printf \"%.1f\", ${sums[$1]} + $wall }")
    sums[$1 + 1]=$(awk "BEGIN { printf \"%.1f\", ${sums[$1 + 1]} + $cpu }")
}

row() {
    printf '%-16s %8s %8s  %8s %8s  %3s %8s %8s  %8s\n' "$@"
}

# A library for the crates above, where any of those that are asked for stands on it.
build() {
    [ -n "${needed[$1]-}" ] || return 0
    (cd "crates/$1" && rt lib >"$work/log" 2>&1) || failed "rt lib in $1"
}

sums=(0 0 0 0 0 0)
count=0
row crate proof proof tests tests n edits edits sum
row '' wall cpu wall cpu '' wall cpu cpu
for name in "${names[@]}"; do
    if [ -z "${asked[$name]-}" ]; then
        build "$name"
        continue
    fi
    for file in "crates/$name"/src/{lib,main}.rt; do
        [ ! -f "$file" ] || echo "// Measured in $work." >>"$file"
    done
    from_nothing "$name"
    measure "$name" rt check --jobs 1
    add 0
    cells=("$wall" "$cpu")
    all=$cpu
    build "$name"
    if grep -rqF '#[test]' "crates/$name/src"; then
        from_nothing "$name"
        measure "$name" rt check --test --jobs 1
        add 2
        cells+=("$wall" "$cpu")
        all="$all + $cpu"
    else
        cells+=(- -)
    fi
    edits=$(find "crates/$name" -path '*/must-fail/*.edit' | wc -l)
    if [ "$edits" -gt 0 ]; then
        from_nothing "$name"
        RT_JOBS=1 measure "$name" rt must-fail --anew "$name"
        add 4
        cells+=("$edits" "$wall" "$cpu")
        all="$all + $cpu"
    else
        cells+=(- - -)
    fi
    count=$((count + edits))
    row "$name" "${cells[@]}" "$(awk "BEGIN { printf \"%.1f\", $all }")"
    rm -rf "crates/$name/out/incremental"
done
row total "${sums[@]:0:4}" "$count" "${sums[@]:4:2}" \
    "$(awk "BEGIN { printf \"%.1f\", ${sums[1]} + ${sums[3]} + ${sums[5]} }")"
