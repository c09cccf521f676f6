#!/bin/sh
# How long the lives of a piece's boxes take, and their places, which include the lives, on one core, in a built program:
# pieces whose boxes all live to the end, so that nearly each has a frame word, and pieces whose boxes die at once.
# A copy of the crates and a small program over them are made in a temporary folder, built by rt and run there.
# Needs rt. Usage: bench/linear_scan.sh [OPERATIONS [OPERATIONS]]
set -eu
few=${1:-2000}
many=${2:-16000}
top=$(cd "$(dirname "$0")/.." && pwd)
work=$(mktemp -d)
trap 'rm -rf "$work"' EXIT
mkdir -p "$work/crates/scan_speed/src" "$work/crates/scan_speed/proofs"
for crate in trace_ops target_base linear_scan; do
    cp -r "$top/crates/$crate" "$work/crates/"
    rm -rf "$work/crates/$crate/must-fail"
done
grep -E '^(trace_ops|target_base|linear_scan):' "$top/crates.txt" > "$work/crates.txt"
echo 'scan_speed: trace_ops target_base linear_scan anyhow' >> "$work/crates.txt"
cat > "$work/crates/scan_speed/src/main.rt" <<'EOF'
//! Makes pieces, and prints how long their lives and places take.
#![tactic(auto)]

ghost use Rattle.std.specs.Prelude.{◌≡◌, ◌+◌, ◌<◌, ◌^◌, [], ◌∷◌, ◌≤◌, length, Some, IfOk, OnOk};
ghost use Rattle.std.specs.List.{flat_map};
ghost use Rattle.trace_ops.specs.Parts.{boxes_of_val};
ghost use Rattle.trace_ops.specs.Pieces.{results_of};
ghost use Rattle.linear_scan.specs.Living.{HaveNumbersBelow, UsesDefined};

use anyhow::Result;
use linear_scan::{Places, allocate, ranges};
use std::alloc::{AllocError, Global};
use std::time::{Duration, Instant};
use trace_ops::{Arg, BoxId, Descr, Half, Kind, List, OpCode, OptOp, Piece, PieceId, Shape, ShapeOf, Snapshot, Val};
use target_base::Place;

type Made<T> = std::result::Result<T, AllocError>;

fn int(number: u32) -> BoxId
    ensures { result ≡ record { kind = Kind.Int; number = number } }
{
    BoxId { kind: Kind::Int, number }
}

fn sum(alloc: Global, number: u32, args: &[Arg]) -> Made<OptOp>
    ensures { IfOk result (λ op. op ≡ OptOp.Plain OpCode.IntAdd (Some (record { kind = Kind.Int; number = number })) args.now Descr.No) }
{
    let args = List::of(Vec::from_slice(alloc, args)?);
    Ok(OptOp::Plain { code: OpCode::IntAdd, result: Some(int(number)), args, descr: Descr::No })
}

// A snapshot of one virtual object with these parts.
fn snapshot(alloc: Global, parts: Vec<Val>) -> Made<Snapshot>
    ensures { IfOk result (λ snap. snap ≡ record { frames = []; shapes = record { of = ShapeOf.Size 0; parts = parts.items } ∷ []; pending = [] }) }
{
    let shapes = vec![in alloc; Shape { of: ShapeOf::Size(0), parts: List::of(parts) }]?;
    Ok(Snapshot { frames: List::of(Vec::new(alloc)), shapes: List::of(shapes), pending: List::of(Vec::new(alloc)) })
}

// One more sum of two boxes before it.
fn add(alloc: Global, ops: &mut Vec<OptOp>, number: u32, left: u32, right: u32) -> Made<()>
    requires few { number + 1 < 2 ^ 31 }
    requires defined { UsesDefined 1 ops.old.items }
    requires boxes { 1 + length (flat_map results_of ops.old.items) ≡ number }
    requires below { (left < number) × (right < number) }
    ensures defined { OnOk result (UsesDefined 1 ops.new.items) }
    ensures boxes { OnOk result (1 + length (flat_map results_of ops.new.items) ≡ number + 1) }
    ensures count { OnOk result (length ops.new.items ≡ length ops.old.items + 1) }
{
    let args = [Arg::Of(int(left)), Arg::Of(int(right))];
    let op = sum(alloc, number, args.as_slice())?;
    ops.push(op)?;
    Ok(())
}

// An exit whose snapshot needs the boxes of these parts.
fn exit(alloc: Global, ops: &mut Vec<OptOp>, number: u32, parts: Vec<Val>) -> Made<()>
    requires defined { UsesDefined 1 ops.old.items }
    requires boxes { 1 + length (flat_map results_of ops.old.items) ≡ number }
    requires parts { HaveNumbersBelow number (flat_map boxes_of_val parts.items) }
    ensures defined { OnOk result (UsesDefined 1 ops.new.items) }
    ensures boxes { OnOk result (1 + length (flat_map results_of ops.new.items) ≡ number) }
    ensures count { OnOk result (length ops.new.items ≡ length ops.old.items + 1) }
{
    let snap = snapshot(alloc, parts)?;
    let op = OptOp::Exit { guard: 0, snap };
    ops.push(op)?;
    Ok(())
}

// The first boxes of those below a number.
fn boxes_below(alloc: Global, count: u32, number: u32) -> Made<Vec<Val>>
    requires { count ≤ number }
    ensures { IfOk result (λ vals. HaveNumbersBelow number (flat_map boxes_of_val vals.items)) }
{
    let mut vals = Vec::new(alloc);
    for k in 0..count {
        vals.push(Val::Known(Arg::Of(int(k))))?;
    }
    Ok(vals)
}

// As many operations as there are boxes: sums of the box before, and an exit that needs so many of the boxes.
fn sums(alloc: Global, boxes: u32, needed: u32) -> Made<Piece>
    requires boxes { (1 ≤ boxes) × (boxes < 2 ^ 20) }
    requires needed { needed ≤ boxes }
    ensures label { IfOk result (λ piece. length piece.label ≡ 1) }
    ensures count { IfOk result (λ piece. length piece.ops ≡ boxes) }
    ensures boxes { IfOk result (λ piece. 1 + length (flat_map results_of piece.ops) ≡ boxes) }
    ensures defined { IfOk result (λ piece. UsesDefined 1 piece.ops) }
{
    let mut ops = Vec::new(alloc);
    for number in 1..boxes {
        add(alloc, &mut ops, number, number - 1, number - 1)?;
    }
    let parts = boxes_below(alloc, needed, boxes)?;
    exit(alloc, &mut ops, boxes, parts)?;
    Ok(Piece {
        id: PieceId { trace: 0, half: Half::Pre },
        label: List::of(Vec::from_slice(alloc, &[int(0)])?),
        ops: List::of(ops),
    })
}

// Places for a piece, with its label box in a frame word.
fn places_of(alloc: Global, piece: &Piece) -> Made<Places>
    requires label { length piece.now.label ≡ 1 }
    requires few { length piece.now.ops < 2 ^ 20 }
    requires boxes { 1 + length (flat_map results_of piece.now.ops) < 2 ^ 20 }
    requires defined { UsesDefined 1 piece.now.ops }
{
    let label = [Place::Word(16)];
    allocate(alloc, piece, 12, label.as_slice())
}

// Leaves nothing of a piece in the caches: 64 MB are written.
fn chill(alloc: Global) -> Made<()> {
    let mut cells = Vec::new(alloc);
    for k in 0..8_000_000u64 {
        cells.push(k)?;
    }
    Ok(())
}

// The time of one call for lives and of one for places, each at a piece that isn't in the caches, and the frame words.
fn measure(rt: &HostRuntime, boxes: u32, needed: u32) -> Result<(Duration, Duration, u32)>
    requires boxes { (1 ≤ boxes) × (boxes < 2 ^ 20) }
    requires needed { needed ≤ boxes }
{
    let piece = sums(rt.alloc(), boxes, needed)?;
    chill(rt.alloc())?;
    let start = Instant::now(rt)?;
    let _ = ranges(rt.alloc(), &piece)?;
    let scanned = start.elapsed(rt)?;
    chill(rt.alloc())?;
    let start = Instant::now(rt)?;
    let places = places_of(rt.alloc(), &piece)?;
    let placed = start.elapsed(rt)?;
    Ok((scanned, placed, places.words))
}

// The least of several measurements, which others on the machine disturb least.
fn report(rt: &HostRuntime, name: &str, boxes: u32, needed: u32) -> Result<()>
    requires boxes { (1 ≤ boxes) × (boxes < 2 ^ 20) }
    requires needed { needed ≤ boxes }
{
    let (mut scanned, mut placed, words) = measure(rt, boxes, needed)?;
    for _ in 0..20u32 {
        let (scan, place, _) = measure(rt, boxes, needed)?;
        scanned = scanned.min(scan);
        placed = placed.min(place);
    }
    println!(rt; "{boxes} operations, {name}: lives {scanned:?}, places {placed:?}, frame words up to {words}")?;
    Ok(())
}

fn main(rt: HostRuntime) -> Result<()> {
    report(&rt, "all live", FEW, FEW)?;
    report(&rt, "all live", MANY, MANY)?;
    report(&rt, "short-lived", FEW, 0)?;
    report(&rt, "short-lived", MANY, 0)?;
    Ok(())
}
EOF
# The proofs of these functions are those of the crate's tests.
cp -r "$top/crates/linear_scan/proofs/tests/." "$work/crates/scan_speed/proofs/"
rm -rf "$work/crates/scan_speed/proofs/places_of"
find "$work/crates/scan_speed/proofs" -name '*.antt' -exec sed -i 's/Rattle\.linear_scan\.proofs\.tests\./Rattle.scan_speed.proofs./' {} +
sed -i "s/FEW/$few/g; s/MANY/$many/g" "$work/crates/scan_speed/src/main.rt"
cd "$work/crates/scan_speed"
rt run 2>"$work/log" || { cat "$work/log" >&2; exit 1; }
