#!/usr/bin/env bash
# What a log costs: an append (the first thousand lines beside the second), opening a log of 4,096 arrays, and a flow of
# stores on an image of SIDE by SIDE (512 where no side is given): the session that makes it beside the log opened
# again, and the log's size. Times are wall-clock seconds, of one run each. It is no test: nothing is compared.
#     bash bench/log.sh [SIDE [PROGRAM]]
set -euo pipefail
side=${1:-512}
root=$(cd "$(dirname "$0")/.." && pwd)
program=${2:-$root/crates/subzero/out/subzero}
work=$(mktemp -d)
trap 'rm -rf "$work"' EXIT
cd "$work"

timed() {
    local what=$1 begin end
    shift
    begin=$(date +%s%N)
    "$@"
    end=$(date +%s%N)
    printf '%-46s %9.3f s\n' "$what" "$(echo "($end - $begin) / 1000000000" | bc -l)"
}
session() { "$program" run "$1" <"$2" >/dev/null; }
play() { "$program" play <"$1" >/dev/null; }
check() { "$program" check "$1" >/dev/null; }

awk 'BEGIN { for (i = 0; i < 1000; i++) print "{\"array\":\"a\",\"cells\":[[" i "]]}" }' >thousand
"$program" init log >/dev/null
timed 'the first 1,000 arrays, appended' session log thousand
timed 'the second 1,000 arrays, appended' session log thousand
timed '1,000 arrays without a log' play thousand
session log thousand
session log thousand
head -n 96 thousand >rest
session log rest
: >nothing
timed 'a log of 4,096 arrays, opened' session log nothing
echo "    its size: $(stat -c %s log) bytes"

awk -v n="$side" 'BEGIN {
    srand(1)
    printf "{\"array\":\"sky\",\"cells\":["
    for (r = 0; r < n; r++) {
        printf "%s[", r ? "," : ""
        for (c = 0; c < n; c++) printf "%s%d", c ? "," : "", rand() < 0.001 ? 5000 : 10 + rand() * 300
        printf "]"
    }
    print "]}"
    printf "{\"flow\":\"f\",\"inputs\":1,\"nodes\":[{\"op\":\"clean\",\"t\":1000,\"from\":[{\"i\":0}]},"
    printf "{\"op\":\"convolve\",\"kernel\":[[0,1,0],[1,1,1],[0,1,0]],\"from\":[{\"n\":0}]},"
    print "{\"op\":\"regions\",\"t\":900,\"from\":[{\"n\":1}]},{\"op\":\"block\",\"fold\":\"max\",\"h\":4,\"w\":4,\"from\":[{\"n\":2}]}]}"
    print "{\"strategy\":\"f\",\"node\":0,\"list\":[\"comp_one\"]}"
    print "{\"strategy\":\"f\",\"node\":1,\"list\":[\"full_many_b\"]}"
    print "{\"strategy\":\"f\",\"node\":2,\"list\":[\"pay_many\"]}"
    print "{\"start\":\"f\",\"base\":[[\"sky\",1]]}"
    print "{\"await\":1}"
}' >image
"$program" init stores >/dev/null
timed "an image of $side a side, without a log" play image
timed "the same on a log" session stores image
timed 'its log, opened' session stores nothing
timed 'its log, checked' check stores
echo "    its size: $(stat -c %s stores) bytes, that of the session $(stat -c %s image)"
