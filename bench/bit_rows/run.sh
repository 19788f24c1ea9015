#!/bin/sh
# Times union_with, meet_with and count over 4,096 rows of 32,768 bits against the plain word loop
# in C at -O2, on this machine in one run. The program in Rattle is made in a temporary folder, over
# a copy of the crate.
set -eu
. "$(dirname "$0")/../workspace.sh"
bench_on bit_rows
cat >"$work/crates/bench/src/main.rt" <<'RATTLE'
#![tactic(auto)]

use bit_rows::{BitRow, BitTable};
use std::io;
use std::time::Instant;

const ROWS: u32 = 4096;

const PLACES: u32 = 32768;

const PASSES: u32 = 20;

// A row with every `step`th place from `from` on.
fn fill(row: &mut BitRow, from: u32, step: u32) {
    for at in 0..row.len() {
        if at < row.len() && at >= from && step != 0 && (at - from) % step == 0 {
            row.set(at, true);
        }
    }
}

fn fill_table(table: &mut BitTable, spare: &mut BitRow) {
    for at in 0..ROWS {
        if at < table.rows() && spare.len() == table.width() {
            table.swap_row(at, spare);
            fill(spare, at % 13, 13);
        }
        if at < table.rows() && spare.len() == table.width() {
            table.swap_row(at, spare);
        }
    }
}

fn union_all(table: &mut BitTable, spare: &mut BitRow, other: &BitRow) -> u64 {
    let mut changed = 0u64;
    for at in 0..ROWS {
        if at < table.rows() && spare.len() == table.width() {
            table.swap_row(at, spare);
            if spare.len() == other.len() && spare.union_with(other) {
                changed = changed.saturating_add(1);
            }
        }
        if at < table.rows() && spare.len() == table.width() {
            table.swap_row(at, spare);
        }
    }
    changed
}

fn meet_all(table: &mut BitTable, spare: &mut BitRow, other: &BitRow) -> u64 {
    let mut changed = 0u64;
    for at in 0..ROWS {
        if at < table.rows() && spare.len() == table.width() {
            table.swap_row(at, spare);
            if spare.len() == other.len() && spare.meet_with(other) {
                changed = changed.saturating_add(1);
            }
        }
        if at < table.rows() && spare.len() == table.width() {
            table.swap_row(at, spare);
        }
    }
    changed
}

fn count_all(table: &BitTable) -> u64 {
    let mut total = 0u64;
    for at in 0..ROWS {
        if at < table.rows() {
            total = total.saturating_add(u64::from(table.row(at).count()));
        }
    }
    total
}

fn one_pass(operation: u32, table: &mut BitTable, spare: &mut BitRow, other: &BitRow) -> u64 {
    match operation {
        0 => union_all(table, spare, other),
        1 => meet_all(table, spare, other),
        _ => count_all(table),
    }
}

fn measure(
    rt: HostRuntime,
    name: &str,
    operation: u32,
    table: &mut BitTable,
    spare: &mut BitRow,
    other: &BitRow,
) -> io::Result<()> {
    let mut best = u128::MAX;
    let mut first = 0u64;
    let mut last = 0u64;
    for i in 0..PASSES {
        let start = Instant::now(&rt)?;
        last = one_pass(operation, table, spare, other);
        let taken = start.elapsed(&rt)?.as_nanos();
        if i == 0 {
            first = last;
        }
        best = best.min(taken);
    }
    println!(rt; "{name} {best} {first} {last}")
}

fn main(rt: HostRuntime) -> io::Result<()> {
    let mut table = BitTable::new(rt.alloc(), ROWS, PLACES)?;
    let mut spare = BitRow::new(rt.alloc(), PLACES)?;
    let mut other = BitRow::new(rt.alloc(), PLACES)?;
    fill(&mut other, 0, 3);
    fill_table(&mut table, &mut spare);
    measure(rt, "union_with", 0, &mut table, &mut spare, &other)?;
    measure(rt, "meet_with", 1, &mut table, &mut spare, &other)?;
    measure(rt, "count", 2, &mut table, &mut spare, &other)
}
RATTLE

"${CC:-cc}" -O2 -o "$work/plain" "$here/words.c"
(cd "$work/crates/bench" && rt run --jobs 1 >"$work/log" 2>&1) || { cat "$work/log"; exit 1; }
"$work/plain" >"$work/plain.txt"
"$work/crates/bench/out/bench" >"$work/rows.txt"
paste -d ' ' "$work/plain.txt" "$work/rows.txt" | awk '{
    if ($1 != $5 || $3 != $7 || $4 != $8) { print "answers differ: " $0; exit 1 }
    printf "%-10s  C -O2 %8.3f ms  bit_rows %8.3f ms  ratio %.2f\n", $1, $2 / 1e6, $6 / 1e6, $2 / $6
}'
