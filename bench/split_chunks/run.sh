#!/bin/sh
# Times splits of large graphs by the program of crates/runs_seal, which has to be built (`rt check` in its folder):
# trees of 1,000, 5,000 and 20,000 modules, and 4,096 modules in 4,096 groups under 16 cache groups.
set -eu
here=$(cd "$(dirname "$0")" && pwd)
program="$here/../../crates/runs_seal/out/runs_seal"
work=$(mktemp -d)
trap 'rm -rf "$work"' EXIT
for graph in "tree 1000" "tree 5000" "tree 20000" "many 4096"; do
    # shellcheck disable=SC2086
    python3 "$here/graphs.py" $graph >"$work/line"
    start=$(date +%s.%N)
    "$program" <"$work/line" >"$work/answer"
    end=$(date +%s.%N)
    printf '%s: %s, %.2f s\n' "$graph" "$(cat "$work/answer")" "$(echo "$end - $start" | bc)"
done
