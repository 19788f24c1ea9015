#!/bin/sh
# Times `reach` and `available` on wide and deep graphs and on graphs whose groups have many parents each, at three sizes. The
# program in Rattle is made in a temporary folder, and reads its graphs as crates/runs_seal does, with larger bounds.
set -eu
. "$(dirname "$0")/../workspace.sh"
crates='avail_sets bit_rows chunk_groups fault_place graph_types pack_util'
copy_crates $crates
for crate in $crates; do
    grep -E "^$crate:" "$root/crates.txt"
done >"$work/crates.txt"
echo 'bench: avail_sets bit_rows chunk_groups graph_types pack_util' >>"$work/crates.txt"
lines="$root/crates/runs_seal"
cp -r "$lines/specs" "$work/crates/bench/"
cp "$lines/src/graphs.rt" "$work/crates/bench/src/"
cp -r "$lines/proofs/Lib.antt" "$lines/proofs/Few.antt" "$lines/proofs/graphs" "$work/crates/bench/proofs/"
find "$work/crates/bench" -type f -exec sed -i 's/\bruns_seal\b/bench/g; s/\b16\b/32_768/g' {} +
cat >"$work/crates/bench/src/main.rt" <<'RATTLE'
#![tactic(auto)]
ghost use Rattle.chunk_groups.specs.Grouped.{AreGroupsOver};

mod graphs;

use avail_sets::available;
use bit_rows::BitTable;
use chunk_groups::{are_over, reach};
use graph_types::{Groups, ModuleGraph};
use std::io;
use std::time::Instant;

const PASSES: u32 = 5;

// How many places of the table are true.
fn count(table: &BitTable) -> u64 {
    let mut total = 0u64;
    for at in 0..table.rows() {
        total = total.saturating_add(u64::from(table.row(at).count()));
    }
    total
}

fn measure(rt: HostRuntime, graph: &ModuleGraph, groups: &Groups) -> io::Result<()>
    requires { AreGroupsOver graph.now groups.now.infos }
{
    for _ in 0..PASSES {
        let start = Instant::now(&rt)?;
        let reached = reach(rt.alloc(), graph, groups)?;
        let reach_nanos = start.elapsed(&rt)?.as_nanos();
        let start = Instant::now(&rt)?;
        let had = available(rt.alloc(), graph, groups, &reached)?;
        let available_nanos = start.elapsed(&rt)?.as_nanos();
        let (reached, had) = (count(&reached), count(&had));
        println!(rt; "{reach_nanos} {available_nanos} {reached} {had}")?;
    }
    Ok(())
}

fn answer(rt: HostRuntime, line: &str) -> io::Result<()> {
    let graph = graphs::graph(rt.alloc(), line, &[])?;
    let groups = graphs::groups(rt.alloc(), line)?;
    if !are_over(&graph, &groups) {
        return Ok(());
    }
    measure(rt, &graph, &groups)
}

fn main(rt: HostRuntime) -> io::Result<()> {
    for line in rt.lines(rt.alloc()) {
        let line = line?;
        answer(rt, line.as_str())?;
    }
    Ok(())
}
RATTLE
mkdir "$work/crates/bench/proofs/answer"
cat >"$work/crates/bench/proofs/answer/Answers.antt" <<'ANTT'
use Rattle.bench.proofs.answer.Goals as goal

pub measure-requires : goal.measure-requires
measure-requires c = c.are_over.ensures.0 c.if-not-are_over.false
ANTT
(cd "$work/crates/bench" && rt run --jobs 1 </dev/null >"$work/log" 2>&1) || { cat "$work/log" >&2; exit 1; }
for shape in wide deep many every; do
    for size in '8192 1024' '16384 2048' '32768 4096'; do
        # shellcheck disable=SC2086
        python3 "$here/graphs.py" $shape $size | "$work/crates/bench/out/bench" >"$work/times"
        awk -v shape="$shape" -v size="$size" '
            NR == 1 || $1 < reach { reach = $1 }
            NR == 1 || $2 < had { had = $2 }
            END {
                split(size, counts, " ")
                places = counts[1] * counts[2]
                printf "%s: %d modules, %d groups: reach %.3f s (%.2f ns a place), available %.3f s (%.2f ns a place); %d reached, %d available\n", \
                    shape, counts[1], counts[2], reach / 1e9, reach / places, had / 1e9, had / places, $3, $4
            }' "$work/times"
    done
done
