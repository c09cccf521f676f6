#!/bin/sh
# How long forcing a list of linked virtual objects takes, and forcing 1,000 and 8,000 objects one by one, in processor time, on one core, in a built program.
# A copy of the two crates and a small program over them are made in a temporary folder, built by rt and run there.
# Needs rt. Usage: bench/virtuals.sh [OBJECTS]
set -eu
objects=${1:-5000}
top=$(cd "$(dirname "$0")/.." && pwd)
work=$(mktemp -d)
trap 'rm -rf "$work"' EXIT
mkdir -p "$work/crates/force_speed/src" "$work/crates/force_speed/proofs/linked"
for crate in trace_ops virtuals; do
    cp -r "$top/crates/$crate" "$work/crates/"
    rm -rf "$work/crates/$crate/must-fail"
done
cat > "$work/crates.txt" <<EOF
trace_ops: indexmap
virtuals: trace_ops smallvec
force_speed: trace_ops virtuals anyhow
EOF
cat > "$work/crates/force_speed/src/main.rt" <<'EOF'
//! Links objects into a list, forces it, and prints how long that took.
#![tactic(auto)]

ghost use Rattle.std.specs.Prelude.{◌≡◌, ℕ, ◌+◌, ◌<◌, ◌≤◌, ◌^◌, [], length, IfOk, OnOk};
ghost use Rattle.virtuals.specs.Shapes.{IsLive};

use anyhow::Result;
use std::alloc::AllocError;
use std::time::CpuClock;
use trace_ops::{BoxId, Kind, ShapeOf, Val};
use virtuals::Virtuals;

// One more object, whose second part is the last one.
fn link(virtuals: &mut Virtuals, last: u32) -> std::result::Result<u32, AllocError>
    requires live { IsLive virtuals.old last }
    requires few { length virtuals.old + 1 < 2 ^ 32 }
    ensures live { IfOk result (λ id. IsLive virtuals.new id) }
    ensures count { OnOk result (length virtuals.new ≡ length virtuals.old + 1) }
{
    let kinds = [Kind::Int, Kind::Ref];
    let id = virtuals.make(ShapeOf::Size(0), kinds.as_slice())?;
    virtuals.set(id, 1, Val::Virtual(last));
    Ok(id)
}

// A list of objects.
fn linked(virtuals: &mut Virtuals) -> std::result::Result<u32, AllocError>
    requires { virtuals.old ≡ [] }
    ensures { IfOk result (λ id. IsLive virtuals.new id) }
{
    let kinds = [Kind::Int, Kind::Ref];
    let mut last = virtuals.make(ShapeOf::Size(0), kinds.as_slice())?;
    for k in 1..OBJECTSu32 {
        last = link(virtuals, last)?;
    }
    Ok(last)
}

// Objects that nothing names.
fn singles(virtuals: &mut Virtuals, count: u32) -> std::result::Result<(), AllocError>
    requires empty { virtuals.old ≡ [] }
    requires few { count < 1000000 }
    ensures { OnOk result ((j : ℕ) → j < count → IsLive virtuals.new j) }
{
    let kinds = [Kind::Int, Kind::Ref];
    for k in 0..count {
        virtuals.make(ShapeOf::Size(0), kinds.as_slice())?;
    }
    Ok(())
}

// Each of the first objects is forced.
fn force_each(virtuals: &mut Virtuals, count: u32) -> std::result::Result<usize, AllocError>
    requires { (j : ℕ) → j < count → IsLive virtuals.old j }
{
    let mut steps = 0usize;
    for k in 0..count {
        let order = virtuals.force_order(k)?;
        steps = steps.wrapping_add(order.len());
        let to = BoxId {
            kind: Kind::Ref,
            number: k,
        };
        virtuals.forced(k, to);
    }
    Ok(steps)
}

fn time_singles(rt: &HostRuntime, count: u32) -> Result<()>
    requires { count < 1000000 }
{
    let mut virtuals = Virtuals::new(rt.alloc())?;
    singles(&mut virtuals, count)?;
    let start = rt.process_cpu_time()?;
    let steps = force_each(&mut virtuals, count)?;
    let took = rt.process_cpu_time()?.saturating_sub(start);
    println!(rt; "{count} single objects: {steps} steps in {took:?}")?;
    Ok(())
}

fn time_list(rt: &HostRuntime) -> Result<()> {
    let mut virtuals = Virtuals::new(rt.alloc())?;
    let last = linked(&mut virtuals)?;
    let start = rt.process_cpu_time()?;
    let order = virtuals.force_order(last)?;
    let took = rt.process_cpu_time()?.saturating_sub(start);
    let steps = order.len();
    println!(rt; "OBJECTS objects: {steps} steps in {took:?}")?;
    Ok(())
}

fn main(rt: HostRuntime) -> Result<()> {
    time_singles(&rt, 1_000)?;
    time_singles(&rt, 8_000)?;
    time_list(&rt)
}
EOF
cat > "$work/crates/force_speed/proofs/linked/Invariants.antt" <<'EOF'
use Rattle.std.proofs.Common.{◌≡◌, length}
use Rattle.virtuals.specs.Shapes.{IsLive}
use Rattle.force_speed.proofs.linked.Given as goal

abbrev pub invariant-loop-k : goal.invariant-loop-k
invariant-loop-k l = record {
  live : IsLive l.virtuals l.last;
  count : length l.virtuals ≡ l.k;
}
EOF
mkdir -p "$work/crates/force_speed/proofs/singles" "$work/crates/force_speed/proofs/force_each"
cat > "$work/crates/force_speed/proofs/singles/Invariants.antt" <<'EOF'
use Rattle.std.proofs.Common.{◌≡◌, ℕ, ◌<◌, length}
use Rattle.virtuals.specs.Shapes.{IsLive}
use Rattle.force_speed.proofs.singles.Given as goal

abbrev pub invariant-loop-k : goal.invariant-loop-k
invariant-loop-k l = record {
  live : (j : ℕ) → j < l.k → IsLive l.virtuals j;
  count : length l.virtuals ≡ l.k;
}
EOF
cat > "$work/crates/force_speed/proofs/singles/Answers.antt" <<'EOF'
use Rattle.std.proofs.Common.{◌≡◌, ◌+◌, List, [], ◌∷◌, ◌++◌, Option, length, ap, subst, ◌∙◌, inl, inr, arith}
use Rattle.std.proofs.lemmas.Bool.{cases_lt}
use Rattle.std.proofs.lemmas.List.{length_push}
use Rattle.trace_ops.specs.declared.piece.Shape.{Shape}
use Rattle.virtuals.specs.Shapes.{IsLive}
use Rattle.force_speed.proofs.singles.Goals as goal

one_more : (x : Option Shape) (old new : List (Option Shape)) → new ≡ old ++ x ∷ [] → length new ≡ length old + 1
one_more x old new e = ap (λ (xs : List (Option Shape)). length xs) e ∙ length_push old x

pub loop-k-preserved : goal.loop-k-preserved
loop-k-preserved c = record {
  live = λ j h. elim (cases_lt j c.loop-k.k) [
    | inl low ↦ c.in_ok-make.ensures.live j (c.loop-k.invariant.live j low)
    | inr high ↦
        let same : c.in_ok-make.field-0 ≡ j = omega (arith, c.in_ok-make.ensures.id, c.loop-k.invariant.count, high, h) in
        subst (IsLive c.make.new.self) same c.in_ok-make.ensures.made
  ];
  count = omega (arith, one_more _ c.loop-k.virtuals c.make.new.self c.in_ok-make.ensures.ok, c.loop-k.invariant.count);
}
EOF
cat > "$work/crates/force_speed/proofs/force_each/Invariants.antt" <<'EOF'
use Rattle.std.proofs.Common.{ℕ, ◌<◌, ◌≤◌}
use Rattle.virtuals.specs.Shapes.{IsLive}
use Rattle.force_speed.proofs.force_each.Given as goal

abbrev pub invariant-loop-k : goal.invariant-loop-k
invariant-loop-k l = (j : ℕ) → l.k ≤ j → j < l.count → IsLive l.virtuals j
EOF
cat > "$work/crates/force_speed/proofs/force_each/Answers.antt" <<'EOF'
use Rattle.std.proofs.Common.{◌≡◌, arith}
use Rattle.force_speed.proofs.force_each.Goals as goal

pub force_order-requires : goal.force_order-requires
force_order-requires c = c.loop-k.invariant c.loop-k.k (omega arith) (omega arith)

pub forced-requires : goal.forced-requires
forced-requires c = c.loop-k.invariant c.loop-k.k (omega arith) (omega arith)

pub loop-k-preserved : goal.loop-k-preserved
loop-k-preserved c = λ j le lt. c.forced.ensures.live j (λ (e : j ≡ c.loop-k.k). omega (arith, le, e)) (c.loop-k.invariant j (omega (arith, le)) lt)
EOF
sed -i "s/OBJECTS/$objects/" "$work/crates/force_speed/src/main.rt"
cd "$work/crates/force_speed"
rt run 2>"$work/log" || { cat "$work/log" >&2; exit 1; }
