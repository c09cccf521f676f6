#!/bin/sh
# How long the numbers of 100,000 addresses in a full arena of 16 MiB take, after one pass over the arena, and how long
# rebuilding 1,000 objects takes, on one core, in a built program.
# A copy of the crates and a small program over them are made in a temporary folder, built by rt and run there.
# Needs rt. Usage: bench/resume_rebuild.sh
set -eu
top=$(cd "$(dirname "$0")/.." && pwd)
work=$(mktemp -d)
trap 'rm -rf "$work"' EXIT
speed="$work/crates/rebuild_speed"
mkdir -p "$speed/src" "$speed/specs" "$speed/proofs"
crates="lists trace_ops target_base trace_meaning heap_shape opt_meaning arena_objects resume_numbering resume_rebuild"
for crate in $crates; do
    cp -r "$top/crates/$crate" "$work/crates/"
    rm -rf "$work/crates/$crate/must-fail"
    grep "^$crate:" "$top/crates.txt" >> "$work/crates.txt"
done
echo "rebuild_speed: $crates anyhow" >> "$work/crates.txt"
# The test that a table can be rebuilt from, with its proofs, is that of the tests of rebuilding.
for part in specs/Lib.antt specs/Simple.antt proofs/Lib.antt proofs/Simply.antt proofs/simple src/simple.rt; do
    cp -r "$top/crates/rebuild_tests/$part" "$speed/$part"
done
find "$speed" -type f -exec sed -i 's/rebuild_tests/rebuild_speed/g' {} +
cat > "$speed/src/main.rt" <<'END'
//! Finds the numbers of addresses, and rebuilds objects, and prints how long that took.
#![tactic(auto)]

ghost use Rattle.std.specs.Prelude.{◌≡◌, ◌≤◌, ◌*◌, ◌^◌, length, IfOk};

mod simple;

use anyhow::Result;
use resume_numbering::{FrameRow, GuardRow, PendingRow, ResumeTable, VirtualRow};
use resume_rebuild::{Full, Rebuilt, rebuild};
use simple::can_rebuild;
use std::alloc::{AllocError, Global};
use std::time::Instant;
use target_base::{ArenaWords, Place};
use trace_ops::{BoxId, FieldRow, Kind, List, ShapeOf, SizeRow, Table, Text, Word};

// A size of one field.
fn size(alloc: Global) -> std::result::Result<SizeRow, AllocError> {
    let fields = Vec::from_slice(alloc, &[0])?;
    Ok(SizeRow {
        name: Text::new(b"cell"),
        vtable: None,
        fields: List::of(fields),
    })
}

fn table(alloc: Global) -> std::result::Result<Table, AllocError> {
    let shapes = Vec::from_slice(alloc, &[ShapeOf::Size(0)])?;
    let next = FieldRow {
        name: Text::new(b"next"),
        size: 0,
        kind: Kind::Ref,
        immutable: false,
    };
    let fields = Vec::from_slice(alloc, &[next])?;
    let size = size(alloc)?;
    let sizes = vec![in alloc; size]?;
    Ok(Table {
        shapes: List::of(shapes),
        sizes: List::of(sizes),
        fields: List::of(fields),
        arrays: List::of(Vec::new(alloc)),
        calls: List::of(Vec::new(alloc)),
        functions: List::of(Vec::new(alloc)),
        prebuilts: List::of(Vec::new(alloc)),
    })
}

// So many objects of two words each.
fn full_words(alloc: Global, count: usize) -> std::result::Result<Vec<Word>, AllocError>
    requires { count ≤ 2 ^ 20 }
    ensures { IfOk result (λ ws. length ws.items ≡ 2 * count) }
{
    let mut words = Vec::new(alloc);
    for k in 0..count {
        words.push(1)?;
        words.push(0)?;
    }
    Ok(words)
}

// An arena in which they are all.
fn full_arena(alloc: Global, count: usize) -> std::result::Result<ArenaWords, AllocError>
    requires { count ≤ 2 ^ 20 }
{
    let words = full_words(alloc, count)?;
    Ok(ArenaWords::new(words, 16 * count as u64))
}

// How many of 100,000 addresses, far apart, are those of objects.
fn found(out: &Rebuilt) -> u32 {
    let mut count = 0u32;
    for k in 0..100_000u32 {
        let step = (u64::from(k) * 7_919) % 1_048_576;
        if out.number_of((0x1000_0000 + 16 * step) as i64).is_some() {
            count = count.wrapping_add(1);
        }
    }
    count
}

// So many virtual objects, each of which names itself.
fn virtuals(alloc: Global, count: u32) -> std::result::Result<Vec<VirtualRow>, AllocError>
    requires { count ≤ 1000 }
{
    let mut rows = Vec::new(alloc);
    for k in 0..count {
        let parts = Vec::from_slice(alloc, &[4 * k + 3])?;
        rows.push(VirtualRow {
            of: ShapeOf::Size(0),
            parts: List::of(parts),
        })?;
    }
    Ok(rows)
}

fn numbers(alloc: Global, count: u32) -> std::result::Result<Vec<u32>, AllocError> {
    let mut numbers = Vec::new(alloc);
    for k in 0..count {
        numbers.push(k)?;
    }
    Ok(numbers)
}

fn frames(alloc: Global) -> std::result::Result<Vec<FrameRow>, AllocError> {
    let slots = Vec::from_slice(alloc, &[3])?;
    let row = FrameRow {
        parent: None,
        name: Text::new(b"main"),
        pc: 0,
        slots: List::of(slots),
    };
    let rows = vec![in alloc; row]?;
    Ok(rows)
}

fn guards(alloc: Global, count: u32) -> std::result::Result<Vec<GuardRow>, AllocError> {
    let virtuals = numbers(alloc, count)?;
    let row = GuardRow {
        guard: 0,
        frame: 0,
        virtuals: List::of(virtuals),
        pending: List::of(Vec::new(alloc)),
    };
    let rows = vec![in alloc; row]?;
    Ok(rows)
}

fn resume_table(alloc: Global) -> std::result::Result<ResumeTable, AllocError> {
    let virtuals = virtuals(alloc, 1_000)?;
    let frames = frames(alloc)?;
    let guards = guards(alloc, 1_000)?;
    Ok(ResumeTable {
        consts: List::of(Vec::new(alloc)),
        frames: List::of(frames),
        virtuals: List::of(virtuals),
        guards: List::of(guards),
    })
}

fn empty_arena(alloc: Global) -> std::result::Result<ArenaWords, AllocError> {
    let words = vec![in alloc; 0i64; 8_192usize]?;
    Ok(ArenaWords::new(words, 0))
}

// Rebuilds once, and prints how long that took.
fn rebuild_once(
    rt: &HostRuntime,
    t: &Table,
    table: &ResumeTable,
    arena: &mut ArenaWords,
    out: &mut Rebuilt,
) -> Result<()>
    requires { out.old.table ≡ t.now }
{
    if !can_rebuild(t, table, 0) {
        println!(rt; "not tried")?;
        return Ok(());
    }
    out.reserve(table)?;
    let start = Instant::now(rt)?;
    let came = rebuild(table, 0, &[], &[], arena, out);
    let took = start.elapsed(rt)?;
    let bytes = arena.taken();
    let done = came.is_ok();
    println!(rt; "1000 objects rebuilt ({done}, {bytes} bytes) in {took:?}")?;
    Ok(())
}

fn time_rebuild(rt: &HostRuntime, t: &Table, table: &ResumeTable) -> Result<()> {
    let mut arena = empty_arena(rt.alloc())?;
    let mut out = Rebuilt::new(rt.alloc())?;
    out.adopt(t)?;
    rebuild_once(rt, t, table, &mut arena, &mut out)
}

fn time_finding(rt: &HostRuntime, t: &Table) -> Result<()> {
    let arena = full_arena(rt.alloc(), 1_048_576)?;
    let mut out = Rebuilt::new(rt.alloc())?;
    out.adopt(t)?;
    let start = Instant::now(rt)?;
    out.walk(&arena);
    let walked = start.elapsed(rt)?;
    let start = Instant::now(rt)?;
    let count = found(&out);
    let took = start.elapsed(rt)?;
    println!(rt; "one pass in {walked:?}, {count} of 100000 addresses found in {took:?}")?;
    Ok(())
}

fn main(rt: HostRuntime) -> Result<()> {
    let t = table(rt.alloc())?;
    let table = resume_table(rt.alloc())?;
    for _ in 0..3u32 {
        time_finding(&rt, &t)?;
        time_rebuild(&rt, &t, &table)?;
    }
    Ok(())
}
END
mkdir -p "$speed/proofs/full_words" "$speed/proofs/rebuild_once"
cat > "$speed/proofs/full_words/Invariants.antt" <<'END'
use Rattle.std.proofs.Common.{◌≡◌, ◌*◌, length}
use Rattle.rebuild_speed.proofs.full_words.Given as goal

abbrev pub invariant-loop-k : goal.invariant-loop-k
invariant-loop-k l = length l.words.items ≡ 2 * l.k
END
cat > "$speed/proofs/rebuild_once/Answers.antt" <<'END'
use Rattle.std.proofs.Common.{◌∙◌, refl, sym, subst}
use Rattle.trace_ops.specs.declared.table.Table.{Table}
use Rattle.resume_rebuild.specs.Known.{ShapesAreKnown}
use Rattle.rebuild_speed.proofs.rebuild_once.Goals as goal

pub rebuild-came-requires-clause-shapes : goal.rebuild-came-requires-clause-shapes
rebuild-came-requires-clause-shapes c = subst (λ (t : Table). ShapesAreKnown t c.args.table.now 0) (sym (c.in_ok-reserve.ensures.table ∙ c.requires)) (c.if-not-can_rebuild.ensures.shapes refl)
END
cd "$speed"
rt run 2>"$work/log" || { cat "$work/log" >&2; exit 1; }
