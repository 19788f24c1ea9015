#!/bin/sh
# Times claims and draws by 1, 2 and 4 threads on this machine in one run. The program in Rattle is made in a temporary folder,
# over copies of the crates.
set -eu
. "$(dirname "$0")/../workspace.sh"
bench_on claim_board draw_board pack_util
for name in claim_all draw_all claim_nanos draw_nanos; do mkdir -p "$work/crates/bench/proofs/$name"; done
touch "$work/crates/bench/specs/Lib.antt"
cat >"$work/crates/bench/src/main.rt" <<'RATTLE'
#![tactic(auto)]
ghost use Rattle.std.specs.Prelude.{◌≡◌, ◌<◌, false, All};
ghost use Rattle.claim_board.specs.Claims as claims;
ghost use Rattle.draw_board.specs.Draws as draws;

use claim_board::{ClaimBoard, ClaimSeat};
use draw_board::{DrawBoard, DrawSeat};
use pack_util::FileId;
use std::alloc::Global;
use std::io;
use std::thread::{Threads, for_each_mut};
use std::time::{Clock, Instant};

const FILES: u32 = 200_000;

const POSITIONS: u32 = 4_000_000;

const PASSES: u32 = 5;

fn claim_all(board: &ClaimBoard, seat: &mut ClaimSeat)
    requires { claims.IsSeatOf board.now seat.old × (claims.board_files board.now ≡ FILES) }
{
    for file in 0..FILES {
        let _claim = board.claim(seat, FileId(file));
    }
}

fn draw_all(board: &DrawBoard, seat: &mut DrawSeat)
    requires { draws.IsSeatOf board.now seat.old × (draws.has_drawn_none seat.old ≡ false) }
{
    while let Some(_position) = board.draw(seat) {}
}

fn claim_together<R: Threads + Sync>(rt: &R, board: &ClaimBoard, seats: &mut [ClaimSeat], threads: usize)
    requires { (0 < threads) × All (λ seat. claims.IsSeatOf board.now seat × (claims.board_files board.now ≡ FILES)) seats.old }
{
    for_each_mut(rt, seats, threads, &|_, seat: &mut ClaimSeat|
        requires { claims.IsSeatOf board.now seat.old × (claims.board_files board.now ≡ FILES) }
    { claim_all(board, seat) });
}

fn draw_together<R: Threads + Sync>(rt: &R, board: &DrawBoard, seats: &mut [DrawSeat], threads: usize)
    requires { (0 < threads) × All (λ seat. draws.IsSeatOf board.now seat × (draws.has_drawn_none seat ≡ false)) seats.old }
{
    for_each_mut(rt, seats, threads, &|_, seat: &mut DrawSeat|
        requires { draws.IsSeatOf board.now seat.old × (draws.has_drawn_none seat.old ≡ false) }
    { draw_all(board, seat) });
}

fn claim_nanos<R: Threads + Clock + Sync>(rt: &R, alloc: Global, threads: u32) -> io::Result<u128> {
    let (board, mut seats) = ClaimBoard::new(alloc, FILES, threads)?;
    let start = Instant::now(rt)?;
    claim_together(rt, &board, seats.as_mut_slice(), threads.max(1) as usize);
    Ok(start.elapsed(rt)?.as_nanos())
}

fn draw_nanos<R: Threads + Clock + Sync>(rt: &R, alloc: Global, threads: u32) -> io::Result<u128> {
    let (board, mut seats) = DrawBoard::new(alloc, POSITIONS, threads)?;
    let start = Instant::now(rt)?;
    draw_together(rt, &board, seats.as_mut_slice(), threads.max(1) as usize);
    Ok(start.elapsed(rt)?.as_nanos())
}

fn main(rt: HostRuntime) -> io::Result<()> {
    for threads in [1u32, 2, 4] {
        let mut claimed = u128::MAX;
        let mut drawn = u128::MAX;
        for _pass in 0..PASSES {
            claimed = claimed.min(claim_nanos(&rt, rt.alloc(), threads)?);
            drawn = drawn.min(draw_nanos(&rt, rt.alloc(), threads)?);
        }
        println!(rt; "{threads} {claimed} {drawn}")?;
    }
    Ok(())
}
RATTLE
cat >"$work/crates/bench/proofs/Lib.antt" <<'ANTT'
pub mod Each
ANTT
cat >"$work/crates/bench/proofs/Each.antt" <<'ANTT'
-- Each seat of a new board is one of the board's.
use Rattle.std.proofs.Common.{◌≡◌, ℕ, zero, suc, ◌<◌, List, [], ◌∷◌, length, get_or, arith, subst}
use Rattle.std.specs.Prelude.{All, false}
use Rattle.std.specs.List.{AllByRecursion}
use Rattle.claim_board.specs.Claims as claims
use Rattle.draw_board.specs.Draws as draws
use Rattle.claim_board.specs.declared.board.ClaimBoard.{ClaimBoard}
use Rattle.claim_board.specs.declared.seat.ClaimSeat.{ClaimSeat}
use Rattle.draw_board.specs.declared.board.DrawBoard.{DrawBoard}
use Rattle.draw_board.specs.declared.seat.DrawSeat.{DrawSeat}

pub each_claims : (board : ClaimBoard) (n from : ℕ) (seats : List ClaimSeat) → claims.board_files board ≡ n → claims.AreSeatsFrom board from seats
    → All (λ seat. claims.IsSeatOf board seat × (claims.board_files board ≡ n)) seats
each_claims board n from [] files are k d h = absurd (omega arith)
each_claims board n from (x ∷ xs) files are zero d h = (are.0, files)
each_claims board n from (x ∷ xs) files are (suc k) d h = each_claims board n (suc from) xs files are.2 k d (omega arith)

pub each_draws : (board : DrawBoard) (from : ℕ) (seats : List DrawSeat) → draws.AreSeatsFrom board from seats → AllByRecursion draws.IsNewSeat seats
    → All (λ seat. draws.IsSeatOf board seat × (draws.has_drawn_none seat ≡ false)) seats
each_draws board from [] are new k d h = absurd (omega arith)
each_draws board from (x ∷ xs) are new zero d h = (are.0, new.0.1)
each_draws board from (x ∷ xs) are new (suc k) d h = each_draws board (suc from) xs are.2 new.1 k d (omega arith)
ANTT
cat >"$work/crates/bench/proofs/claim_all/Invariants.antt" <<'ANTT'
use Rattle.claim_board.specs.Claims.{IsSameSeat}
use Rattle.bench.proofs.claim_all.Given as goal

abbrev pub invariant-loop-file : goal.invariant-loop-file
invariant-loop-file l = IsSameSeat l.initial.seat l.seat
ANTT
cat >"$work/crates/bench/proofs/draw_all/Invariants.antt" <<'ANTT'
use Rattle.std.proofs.Common.{◌≡◌, ◌-◌, false}
use Rattle.draw_board.specs.Draws.{IsSameSeat, above, board_len, drawn, has_drawn_none}
use Rattle.bench.proofs.draw_all.Given as goal

abbrev pub invariant-loop-position : goal.invariant-loop-position
invariant-loop-position l = IsSameSeat l.initial.seat l.seat × (has_drawn_none l.seat ≡ false)

abbrev pub decreases-loop-position : goal.decreases-loop-position
decreases-loop-position l = board_len l.board - above (drawn l.seat)
ANTT
cat >"$work/crates/bench/proofs/claim_nanos/Answers.antt" <<'ANTT'
use Rattle.std.proofs.Common.{arith, sym, subst, List, ◌≡◌}
use Rattle.std.specs.Prelude.{All}
use Rattle.claim_board.specs.declared.seat.ClaimSeat.{ClaimSeat}
use Rattle.claim_board.specs.Claims.{IsSeatOf, board_files}
use Rattle.bench.specs.declared.TheConstants.{FILES}
use Rattle.bench.proofs.Each.{each_claims}
use Rattle.bench.proofs.claim_nanos.Goals as goal

pub claim_together-requires-after_bounds : goal.claim_together-requires-after_bounds
claim_together-requires-after_bounds g c κs lives =
    let board = c.in_ok-board.board in
    let new = c.in_ok-board.ensures in
    (
      omega (arith, c.max.ensures),
      subst (λ (seats : List ClaimSeat). All (λ seat. IsSeatOf board seat × (board_files board ≡ FILES)) seats) (sym c.as_mut_slice.ensures.value) (each_claims board FILES 0 c.in_ok-board.seats.items new.files_are new.all.1),
    )
ANTT
cat >"$work/crates/bench/proofs/draw_nanos/Answers.antt" <<'ANTT'
use Rattle.std.proofs.Common.{arith, sym, subst, List, ◌≡◌, false}
use Rattle.std.specs.Prelude.{All}
use Rattle.draw_board.specs.declared.seat.DrawSeat.{DrawSeat}
use Rattle.draw_board.specs.Draws.{IsSeatOf, has_drawn_none}
use Rattle.bench.proofs.Each.{each_draws}
use Rattle.bench.proofs.draw_nanos.Goals as goal

pub draw_together-requires-after_bounds : goal.draw_together-requires-after_bounds
draw_together-requires-after_bounds g c κs lives =
    let board = c.in_ok-board.board in
    let new = c.in_ok-board.ensures in
    (
      omega (arith, c.max.ensures),
      subst (λ (seats : List DrawSeat). All (λ seat. IsSeatOf board seat × (has_drawn_none seat ≡ false)) seats) (sym c.as_mut_slice.ensures.value) (each_draws board 0 c.in_ok-board.seats.items new.all.1 new.new),
    )
ANTT
(cd "$work/crates/bench" && rt run </dev/null >/dev/null 2>"$work/log") || { cat "$work/log" >&2; exit 1; }
"$work/crates/bench/out/bench" |
    awk '{ printf "%d threads: %.1f million claims and %.1f million draws a second\n", $1, $1 * 200000 / $2 * 1e3, 4000000 / $3 * 1e3 }'
