#!/bin/sh
# How many pure operations a second are noted and looked up, and how long it takes to make 1,000 and 8,000 boxes constants,
# and equal to the next one each, in processor time, on one core, in a built program.
# A copy of the two crates and a small program over them are made in a temporary folder, built by rt and run there.
# Needs rt. Usage: bench/box_forward.sh
set -eu
top=$(cd "$(dirname "$0")/.." && pwd)
work=$(mktemp -d)
trap 'rm -rf "$work"' EXIT
speed="$work/crates/note_speed"
mkdir -p "$speed/src" "$speed/proofs/constants" "$speed/proofs/equals" "$speed/proofs/fresh"
for crate in trace_ops box_forward; do
    cp -r "$top/crates/$crate" "$work/crates/"
    rm -rf "$work/crates/$crate/must-fail"
done
cat > "$work/crates.txt" <<'EOF'
trace_ops: indexmap
box_forward: trace_ops indexmap
note_speed: trace_ops box_forward anyhow
EOF
cat > "$speed/src/main.rt" <<'EOF'
//! Notes a million operations, looks each of them up, makes boxes constants or equal, and prints how long each took.
#![tactic(auto)]

ghost use Rattle.trace_ops.specs.declared.trace.Arg.TheVariants.{Of};
ghost use Rattle.trace_ops.specs.declared.trace.Kind.TheVariants.{Int};
ghost use Rattle.std.specs.Prelude.{◌≡◌, ℕ, ◌<◌, ◌≤◌, ◌+◌, None, Some, IfOk, slice_get};

use anyhow::Result;
use box_forward::{Forward, Pure};
use std::alloc::{AllocError, Global};
use std::time::CpuClock;
use trace_ops::{Arg, BoxId, Kind, OpCode};

const COUNT: u32 = 1_000_000;

fn numbered(number: u32) -> Arg
    ensures { result ≡ Of (record { kind = Int; number = number }) }
{
    Arg::Of(BoxId {
        kind: Kind::Int,
        number,
    })
}

fn note_all(known: &mut Pure) -> Result<(), AllocError> {
    for k in 0..COUNT {
        known.note(
            OpCode::IntAdd,
            &[numbered(k), Arg::Const(i64::from(k) * 3)],
            numbered(k),
        )?;
    }
    Ok(())
}

fn look_up_all(known: &Pure) -> u32 {
    let mut found = 0u32;
    for k in 0..COUNT {
        if known
            .look_up(OpCode::IntAdd, &[numbered(k), Arg::Const(i64::from(k) * 3)])
            .is_some()
        {
            found = found.wrapping_add(1);
        }
    }
    found
}

fn fresh(alloc: Global, count: u32) -> Result<Forward, AllocError>
    ensures { IfOk result (λ f. (j : ℕ) → j < count → slice_get f j ≡ Some None) }
{
    let forward = Forward::new(alloc, count)?;
    Ok(forward)
}

// Each of the first boxes is a constant.
fn constants(forward: &mut Forward, count: u32)
    requires { (j : ℕ) → j < count → slice_get forward.old j ≡ Some None }
{
    for k in 0..count {
        forward.make_constant(k, Arg::Const(i64::from(k)));
    }
}

// Each of the first boxes is the next one.
fn equals(forward: &mut Forward, count: u32)
    requires few { count + 1 < 4294967296 }
    requires own { (j : ℕ) → j < count + 1 → slice_get forward.old j ≡ Some None }
{
    for k in 0..count {
        forward.make_equal(k, numbered(k + 1));
    }
}

fn time_notes(rt: &HostRuntime) -> Result<()> {
    let mut known = Pure::new(rt.alloc())?;
    let start = rt.process_cpu_time()?;
    note_all(&mut known)?;
    let took = rt.process_cpu_time()?.saturating_sub(start);
    println!(rt; "{COUNT} operations noted in {took:?}")?;
    let start = rt.process_cpu_time()?;
    let found = look_up_all(&known);
    let took = rt.process_cpu_time()?.saturating_sub(start);
    println!(rt; "{found} found again in {took:?}")?;
    Ok(())
}

fn time_constants(rt: &HostRuntime, count: u32) -> Result<()> {
    let mut forward = fresh(rt.alloc(), count)?;
    let start = rt.process_cpu_time()?;
    constants(&mut forward, count);
    let took = rt.process_cpu_time()?.saturating_sub(start);
    println!(rt; "{count} constants in {took:?}")?;
    Ok(())
}

fn time_equals(rt: &HostRuntime, count: u32) -> Result<()>
    requires { count + 1 < 4294967296 }
{
    let mut forward = fresh(rt.alloc(), count + 1)?;
    let start = rt.process_cpu_time()?;
    equals(&mut forward, count);
    let took = rt.process_cpu_time()?.saturating_sub(start);
    println!(rt; "{count} equalities in {took:?}")?;
    Ok(())
}

fn main(rt: HostRuntime) -> Result<()> {
    time_notes(&rt)?;
    time_constants(&rt, 1_000)?;
    time_constants(&rt, 8_000)?;
    time_equals(&rt, 1_000)?;
    time_equals(&rt, 8_000)
}
EOF
cat > "$speed/proofs/Lib.antt" <<'EOF'
mod Alone
EOF
cat > "$speed/proofs/Alone.antt" <<'EOF'
-- Boxes that stand for themselves.
use Rattle.std.proofs.Common.{◌≡◌, ℕ, zero, suc, ◌<◌, List, Option, Some, None, replicate, slice_get, refl, ap, ◌∙◌, arith}
use Rattle.trace_ops.specs.declared.trace.Arg.{Arg}

none_at : (n k : ℕ) → k < n → slice_get (replicate {A = Option Arg} n None) k ≡ Some None
none_at zero k h = absurd (omega (arith, h))
none_at (suc n) zero h = refl
none_at (suc n) (suc k) h = none_at n k (omega (arith, h))

pub each_none : (table : List (Option Arg)) (n : ℕ) → table ≡ replicate n None → (k : ℕ) → k < n → slice_get table k ≡ Some None
each_none table n e k h = ap (λ (t : List (Option Arg)). slice_get t k) e ∙ none_at n k h
EOF
cat > "$speed/proofs/constants/Invariants.antt" <<'EOF'
use Rattle.std.proofs.Common.{◌≡◌, ℕ, ◌<◌, ◌≤◌, Some, None, slice_get}
use Rattle.note_speed.proofs.constants.Given as goal

abbrev pub invariant-loop-k : goal.invariant-loop-k
invariant-loop-k l = (j : ℕ) → l.k ≤ j → j < l.count → slice_get l.forward j ≡ Some None
EOF
cat > "$speed/proofs/equals/Invariants.antt" <<'EOF'
use Rattle.std.proofs.Common.{◌≡◌, ℕ, ◌+◌, ◌<◌, ◌≤◌, Some, None, slice_get}
use Rattle.note_speed.proofs.equals.Given as goal

abbrev pub invariant-loop-k : goal.invariant-loop-k
invariant-loop-k l = (j : ℕ) → l.k ≤ j → j < l.count + 1 → slice_get l.forward j ≡ Some None
EOF
cat > "$speed/proofs/fresh/Answers.antt" <<'EOF'
use Rattle.note_speed.proofs.Alone.{each_none}
use Rattle.note_speed.proofs.fresh.Goals as goal

pub returns : goal.returns
returns c = each_none c.in_ok-forward.forward c.args.count c.in_ok-forward.ensures
EOF
cat > "$speed/proofs/constants/Answers.antt" <<'EOF'
use Rattle.std.proofs.Common.{◌≡◌, arith}
use Rattle.note_speed.proofs.constants.Goals as goal

pub make_constant-requires-clause-own : goal.make_constant-requires-clause-own
make_constant-requires-clause-own c = c.loop-k.invariant c.loop-k.k (omega arith) (omega arith)

pub loop-k-preserved : goal.loop-k-preserved
loop-k-preserved c = λ j le lt. c.make_constant.ensures.others.own j (λ (e : j ≡ c.loop-k.k). omega (arith, le, e)) (c.loop-k.invariant j (omega (arith, le)) lt)
EOF
cat > "$speed/proofs/equals/Answers.antt" <<'EOF'
use Rattle.std.proofs.Common.{◌≡◌, ◌+◌, Option, Some, None, slice_get, sym, subst, arith}
use Rattle.std.proofs.lemmas.Option.{slice_get_within}
use Rattle.trace_ops.specs.declared.trace.Arg.{Arg}
use Rattle.trace_ops.specs.declared.trace.Arg.TheVariants.{Of}
use Rattle.trace_ops.specs.declared.trace.Kind.TheVariants.{Int}
use Rattle.box_forward.specs.Forwarding.{followed, entry_or, IsApart, IsWithin}
use Rattle.note_speed.proofs.equals.Goals as goal

pub make_equal-requires-clause-own : goal.make_equal-requires-clause-own
make_equal-requires-clause-own c = c.loop-k.invariant c.loop-k.k (omega arith) (omega arith)

pub make_equal-requires-clause-within : goal.make_equal-requires-clause-within
make_equal-requires-clause-within c =
    subst (IsWithin c.loop-k.forward) (sym c.numbered.ensures) (slice_get_within c.loop-k.forward (c.loop-k.k + 1) None (c.loop-k.invariant (c.loop-k.k + 1) (omega arith) (omega arith)))

pub make_equal-requires-clause-apart : goal.make_equal-requires-clause-apart
make_equal-requires-clause-apart c =
    let a : Arg = Of (record { kind = Int; number = c.loop-k.k + 1 }) in
    subst (λ (x : Arg). IsApart c.loop-k.k (followed c.loop-k.forward x)) (sym c.numbered.ensures)
    (subst (λ (e : Option (Option Arg)). IsApart c.loop-k.k (entry_or e a)) (sym (c.loop-k.invariant (c.loop-k.k + 1) (omega arith) (omega arith))) (λ (e : c.loop-k.k + 1 ≡ c.loop-k.k). omega (arith, e)))

pub loop-k-preserved : goal.loop-k-preserved
loop-k-preserved c = λ j le lt. c.make_equal.ensures.others.own j (λ (e : j ≡ c.loop-k.k). omega (arith, le, e)) (c.loop-k.invariant j (omega (arith, le)) lt)
EOF
cd "$speed"
rt run 2>"$work/log" || { cat "$work/log" >&2; exit 1; }
