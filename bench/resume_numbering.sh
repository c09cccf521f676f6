#!/bin/sh
# How long numbering the guards of pieces of 2,000 and 16,000 operations takes, on one core, in a built program.
# A copy of the crates and a small program over them are made in a temporary folder, built by rt and run there.
# Needs rt. Usage: bench/resume_numbering.sh
set -eu
top=$(cd "$(dirname "$0")/.." && pwd)
work=$(mktemp -d)
trap 'rm -rf "$work"' EXIT
speed="$work/crates/number_speed"
mkdir -p "$speed/src" "$speed/proofs"
for crate in lists trace_ops target_base resume_numbering; do
    cp -r "$top/crates/$crate" "$work/crates/"
    rm -rf "$work/crates/$crate/must-fail"
    grep "^$crate:" "$top/crates.txt" >> "$work/crates.txt"
done
echo "number_speed: trace_ops resume_numbering anyhow" >> "$work/crates.txt"
# The test that a piece can be numbered, with its proofs, is that of the crate's own tests.
cp "$top/crates/resume_numbering/src/tests/fitting.rt" "$speed/src/"
cp -r "$top/crates/resume_numbering/proofs/tests/fitting" "$speed/proofs/"
find "$speed/proofs" -name '*.antt' -exec sed -i 's/resume_numbering\.proofs\.tests\.fitting/number_speed.proofs.fitting/' {} +
cat > "$speed/src/main.rt" <<'END'
//! Numbers pieces in which every second operation is a guard, and prints how long that took.
#![tactic(auto)]

mod fitting;

use anyhow::Result;
use fitting::fits;
use resume_numbering::number;
use std::alloc::{AllocError, Global};
use std::time::Instant;
use trace_ops::{
    Arg, BoxId, Descr, Half, Kind, List, OpCode, OptFrame, OptOp, Pending, Piece, PieceId, Shape,
    ShapeOf, Snapshot, Spot, Text, Val,
};

const KINDS: [Kind; 2] = [Kind::Int, Kind::Ref];
const INT: BoxId = BoxId {
    kind: Kind::Int,
    number: 0,
};
const REF: BoxId = BoxId {
    kind: Kind::Ref,
    number: 1,
};

fn frame(alloc: Global, pc: u32, slots: &[Val]) -> std::result::Result<OptFrame, AllocError> {
    Ok(OptFrame {
        name: Text::new(b"main"),
        pc,
        slots: List::of(Vec::from_slice(alloc, slots)?),
    })
}

// Two frames, the outer one shared by all guards, a virtual object and a pending store.
fn snapshot(alloc: Global, k: u32) -> std::result::Result<Snapshot, AllocError> {
    let own = Val::Known(Arg::Const(1_000_000_000_000 + i64::from(k)));
    let outer = [Val::Known(Arg::Of(REF)), Val::Known(Arg::Null)];
    let inner = [Val::Known(Arg::Of(INT)), own, Val::Virtual(0)];
    let parts = [own, Val::Known(Arg::Of(INT)), Val::Virtual(0)];
    let mut frames = Vec::new(alloc);
    frames.push(frame(alloc, 0, &outer)?)?;
    frames.push(frame(alloc, k, &inner)?)?;
    let mut shapes = Vec::new(alloc);
    shapes.push(Shape {
        of: ShapeOf::Size(0),
        parts: List::of(Vec::from_slice(alloc, &parts)?),
    })?;
    let mut pending = Vec::new(alloc);
    pending.push(Pending {
        base: Arg::Of(REF),
        spot: Spot::Field(1),
        value: Val::Virtual(0),
    })?;
    Ok(Snapshot {
        frames: List::of(frames),
        shapes: List::of(shapes),
        pending: List::of(pending),
    })
}

fn op(alloc: Global, k: u32) -> std::result::Result<OptOp, AllocError> {
    if k % 2 == 0 {
        return Ok(OptOp::Plain {
            code: OpCode::IntNeg,
            result: Some(INT),
            args: List::of(Vec::new(alloc)),
            descr: Descr::No,
        });
    }
    Ok(OptOp::Guard {
        code: OpCode::GuardTrue,
        args: List::of(Vec::new(alloc)),
        guard: k,
        snap: snapshot(alloc, k)?,
    })
}

fn piece(alloc: Global, count: u32) -> std::result::Result<Piece, AllocError> {
    let mut ops = Vec::new(alloc);
    for k in 0..count {
        ops.push(op(alloc, k)?)?;
    }
    Ok(Piece {
        id: PieceId {
            trace: 0,
            half: Half::Pre,
        },
        label: List::of(Vec::new(alloc)),
        ops: List::of(ops),
    })
}

// Leaves nothing of a piece in the caches: 64 MB are written.
fn chill(alloc: Global) -> std::result::Result<(), AllocError> {
    let mut cells = Vec::new(alloc);
    for k in 0..8_000_000u64 {
        cells.push(k)?;
    }
    Ok(())
}

fn main(rt: HostRuntime) -> Result<()> {
    for count in [2_000u32, 16_000, 2_000, 16_000] {
        let piece = piece(rt.alloc(), count)?;
        if fits(&KINDS, &piece) {
            chill(rt.alloc())?;
            let start = Instant::now(&rt)?;
            let table = number(rt.alloc(), &piece)?;
            let took = start.elapsed(&rt)?;
            let rows = table.guards.items().len();
            println!(rt; "{count} operations: {rows} guards in {took:?}")?;
        }
    }
    Ok(())
}
END
cd "$speed"
# memory that was given back stays with the program, so that taking pages anew isn't measured
export MALLOC_MMAP_THRESHOLD_=1073741824 MALLOC_TRIM_THRESHOLD_=1073741824 MALLOC_TOP_PAD_=67108864
rt run --jobs 1 2>"$work/log" || { cat "$work/log" >&2; exit 1; }
