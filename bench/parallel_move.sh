#!/bin/sh
# How long it takes to plan the moves of 60 places at once, on one core, in a built program: a cycle of 60 frame words,
# and 60 frame words that go elsewhere; and the moves of 1,024 and 8,192: a cycle, a permutation of many cycles, and words
# that go elsewhere. Times are of the processor, so that others on the machine count little.
# A copy of the two crates and a small program over them are made in a temporary folder, built by rt and run there.
# Needs rt. Usage: bench/parallel_move.sh [TIMES]
set -eu
times=${1:-20000}
top=$(cd "$(dirname "$0")/.." && pwd)
work=$(mktemp -d)
trap 'rm -rf "$work"' EXIT
mkdir -p "$work/crates/move_speed/src" "$work/crates/move_speed/proofs/pairs_of"
for crate in target_base parallel_move; do
    cp -r "$top/crates/$crate" "$work/crates/"
    rm -rf "$work/crates/$crate/must-fail"
done
cat > "$work/crates.txt" <<'EOF'
target_base:
parallel_move: target_base indexmap
move_speed: target_base parallel_move anyhow
EOF
cat > "$work/crates/move_speed/src/main.rt" <<EOF
//! Plans the moves of 60 places many times, and those of many places, and prints how long one planning took.
#![tactic(auto)]

ghost use Rattle.std.specs.Prelude.{IfOk, ◌<◌};
ghost use Rattle.parallel_move.specs.Moving.{HasDistinctTargets};

use anyhow::Result;
use parallel_move::moves;
use std::alloc::{AllocError, Global};
use std::time::CpuClock;
use target_base::Place;

const TIMES: u32 = $times;

// Each of so many words gets the word that is so many times as far, and so many further, less these over.
fn pairs_of(
    alloc: Global,
    count: u32,
    times: u32,
    further: u32,
    over: u32,
) -> std::result::Result<Vec<(Place, Place)>, AllocError>
    requires { count < 1000000 }
    ensures { IfOk result (λ pairs. HasDistinctTargets pairs.items) }
{
    let mut out = Vec::new(alloc);
    for k in 0..count {
        let far = k.wrapping_mul(times).wrapping_add(further);
        let source = if over > 0 { far % over } else { far };
        out.push((Place::Word(16 + k), Place::Word(source.wrapping_add(16))))?;
    }
    Ok(out)
}

// Plans these moves so many times.
fn time_moves(rt: &HostRuntime, what: &str, pairs: &[(Place, Place)], times: u32) -> Result<()>
    requires distinct { HasDistinctTargets pairs.now }
    requires some { 0 < times }
{
    let start = rt.process_cpu_time()?;
    let mut count = 0usize;
    for _ in 0..times {
        count = moves(rt.alloc(), pairs)?.len();
    }
    let took = rt.process_cpu_time()?.saturating_sub(start) / times;
    println!(rt; "{what}: {took:?} each, {count} moves")?;
    Ok(())
}

fn main(rt: HostRuntime) -> Result<()> {
    let cycle = pairs_of(rt.alloc(), 60, 1, 1, 60)?;
    time_moves(&rt, "a cycle of 60", &cycle, TIMES)?;
    let away = pairs_of(rt.alloc(), 60, 1, 60, 0)?;
    time_moves(&rt, "60 places that go elsewhere", &away, TIMES)?;
    let few = pairs_of(rt.alloc(), 1024, 1, 1, 1024)?;
    time_moves(&rt, "a cycle of 1024", &few, 80)?;
    let many = pairs_of(rt.alloc(), 8192, 1, 1, 8192)?;
    time_moves(&rt, "a cycle of 8192", &many, 20)?;
    let mixed = pairs_of(rt.alloc(), 8192, 4097, 12, 8192)?;
    time_moves(&rt, "a permutation of 8192", &mixed, 20)?;
    let far = pairs_of(rt.alloc(), 8192, 1, 8192, 0)?;
    time_moves(&rt, "8192 places that go elsewhere", &far, 20)?;
    Ok(())
}
EOF
cat > "$work/crates/move_speed/proofs/Lib.antt" <<'EOF'
mod Distinct
EOF
cat > "$work/crates/move_speed/proofs/Distinct.antt" <<'EOF'
-- Pairs whose targets are words below a bound.
use Rattle.std.proofs.Common.{◌≡◌, ℕ, ◌+◌, ◌<◌, ◌≤◌, Bool, true, false, ◌||◌, eqb, List, [], ◌∷◌, ◌++◌, refl, ap, sym, subst, ◌∙◌, arith}
use Rattle.std.proofs.lemmas.Bool.{or_parts, ne_eqb}
use Rattle.target_base.specs.declared.place.Place.{Place}
use Rattle.target_base.specs.declared.place.Place.TheVariants.{In, Word}
use Rattle.parallel_move.specs.Moving.{same, is_target, HasDistinctTargets}

abbrev pub IsLow : ℕ → Place → Type 0
IsLow n (In r) = ⊥
IsLow n (Word w) = w < n

abbrev pub AreLow : ℕ → List (Place × Place) → Type 0
AreLow n [] = Unit {0}
AreLow n (pair ∷ pairs) = IsLow n pair.0 × AreLow n pairs

low_more : (p : Place) (n m : ℕ) → n ≤ m → IsLow n p → IsLow m p
low_more (In r) n m h w = w
low_more (Word k) n m h w = omega (arith, h, w)

low_apart : (p : Place) (n : ℕ) → IsLow n p → same p (Word n) ≡ false
low_apart (In r) n h = absurd h
low_apart (Word k) n h = ne_eqb k n (λ (e : k ≡ n). omega (arith, e, h))

pub low_push : (n : ℕ) (pairs : List (Place × Place)) (q : Place) → AreLow n pairs → AreLow (n + 1) (pairs ++ (Word n, q) ∷ [])
low_push n [] q h = (omega arith, tt)
low_push n (pair ∷ pairs) q h = (low_more pair.0 n (n + 1) (omega arith) h.0, low_push n pairs q h.1)

pub distinct_push : (n : ℕ) (pairs : List (Place × Place)) (q : Place) → AreLow n pairs → HasDistinctTargets pairs → HasDistinctTargets (pairs ++ (Word n, q) ∷ [])
distinct_push n [] q h d = (refl, tt)
distinct_push n (pair ∷ pairs) q h d = (target_push pairs pair.0 h.0 d.0, distinct_push n pairs q h.1 d.1)
  where
    target_push : (ps : List (Place × Place)) (p : Place) → IsLow n p → is_target p ps ≡ false → is_target p (ps ++ (Word n, q) ∷ []) ≡ false
    target_push [] (In r) low e = absurd low
    target_push [] (Word w) low e = ap (λ (b : Bool). b || false) (ne_eqb n w (λ (e : n ≡ w). omega (arith, e, low)))
    target_push (x ∷ xs) p low e =
        let parts = or_parts (same x.0 p) (is_target p xs) e in
        ap (λ (b : Bool). b || is_target p (xs ++ (Word n, q) ∷ [])) parts.0 ∙ target_push xs p low parts.1
EOF
cat > "$work/crates/move_speed/proofs/pairs_of/Invariants.antt" <<'EOF'
use Rattle.std.proofs.Common.{◌+◌}
use Rattle.parallel_move.specs.Moving.{HasDistinctTargets}
use Rattle.move_speed.proofs.Distinct.{AreLow}
use Rattle.move_speed.proofs.pairs_of.Given as goal

abbrev pub invariant-loop-k : goal.invariant-loop-k
invariant-loop-k l = record { distinct : HasDistinctTargets l.out.items; low : AreLow (16 + l.k) l.out.items }
EOF
cat > "$work/crates/move_speed/proofs/pairs_of/Answers.antt" <<'EOF'
use Rattle.std.proofs.Common.{◌≡◌, ℕ, ◌+◌, List, sym, subst, arith}
use Rattle.target_base.specs.declared.place.Place.{Place}
use Rattle.parallel_move.specs.Moving.{HasDistinctTargets}
use Rattle.move_speed.proofs.Distinct.{AreLow, low_push, distinct_push}
use Rattle.move_speed.proofs.pairs_of.Goals as goal

pub loop-k-preserved : goal.loop-k-preserved
loop-k-preserved c =
    let next : 16 + c.loop-k.k + 1 ≡ 16 + (c.loop-k.k + 1) = omega arith in record {
      distinct = subst HasDistinctTargets (sym c.in_ok-push.ensures.items) (distinct_push (16 + c.loop-k.k) c.loop-k.out.items _ c.loop-k.invariant.low c.loop-k.invariant.distinct);
      low = subst (λ (n : ℕ). AreLow n c.push.new.self.items) next
          (subst (AreLow (16 + c.loop-k.k + 1)) (sym c.in_ok-push.ensures.items) (low_push (16 + c.loop-k.k) c.loop-k.out.items _ c.loop-k.invariant.low));
    }
EOF
cd "$work/crates/move_speed"
rt run 2>"$work/log" || { cat "$work/log" >&2; exit 1; }
