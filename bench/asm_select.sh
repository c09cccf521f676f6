#!/bin/sh
# How many bytes are chosen for each operation, where its boxes stand in registers and where they stand in frame words, for a
# stub, and for pieces of mixed operations with 12 and with 3 registers; and how the time of selecting grows with a piece. A
# small program over the crates, in a temporary folder, is run step by step before any proof, since nothing here proves that
# its pieces are sound: times compare with each other, and are not those of a built program.
# Needs rt, and the libraries that `rt all check` or `rt ci` has built. Usage: bench/asm_select.sh [OPERATIONS [OPERATIONS]]
set -eu
few=${1:-1000}
many=${2:-8000}
top=$(cd "$(dirname "$0")/.." && pwd)
work=$(mktemp -d)
trap 'rm -rf "$work"' EXIT
mkdir -p "$work/crates/select_bytes/src"
for crate in lists trace_ops trace_meaning heap_shape opt_meaning target_base x64_encode x64_machine arena_objects linear_scan parallel_move guard_exit asm_select; do
    cp -rp "$top/crates/$crate" "$work/crates/"
    grep -E "^$crate:" "$top/crates.txt" >> "$work/crates.txt"
done
echo 'select_bytes: trace_ops target_base x64_encode linear_scan guard_exit asm_select anyhow' >> "$work/crates.txt"
cat > "$work/crates/select_bytes/src/main.rt" <<'EOF'
//! Makes pieces, and prints how many bytes are chosen for them.
#![tactic(auto)]

use anyhow::Result;
use asm_select::{Selected, select};
use guard_exit::stub;
use linear_scan::allocate;
use std::alloc::{AllocError, Global};
use std::time::{Duration, Instant};
use target_base::{Place, Reg};
use trace_ops::{
    Arg, ArrayRow, BoxId, CallRow, Descr, FieldRow, Half, Kind, List, OpCode, OptFrame, OptOp, Piece,
    PieceId, ShapeOf, SizeRow, Snapshot, Table, Text, TraceSet, Val,
};
use x64_encode::encode;

type Made<T> = std::result::Result<T, AllocError>;

fn int(number: u32) -> BoxId {
    BoxId { kind: Kind::Int, number }
}

fn reference(number: u32) -> BoxId {
    BoxId { kind: Kind::Ref, number }
}

fn list<T: Copy>(alloc: Global, items: &[T]) -> Made<List<T>> {
    let mut copies = Vec::new(alloc);
    for k in 0..items.len() {
        copies.push(items[k])?;
    }
    Ok(List::of(copies))
}

// A class with two fields, an array, and a function of two integers.
fn table(alloc: Global) -> Made<Table> {
    let field = |name: &[u8], kind: Kind| FieldRow { name: Text::new(name), size: 0, kind, immutable: false };
    let node = SizeRow { name: Text::new(b"node"), vtable: Some(Text::new(b"Node")), fields: list(alloc, &[0, 1])? };
    let call = CallRow {
        name: Text::new(b"ff"),
        args: list(alloc, &[Kind::Int, Kind::Int])?,
        result: Some(Kind::Int),
        reads: list(alloc, &[])?,
        writes: list(alloc, &[])?,
    };
    let mut sizes = Vec::new(alloc);
    sizes.push(node)?;
    let mut calls = Vec::new(alloc);
    calls.push(call)?;
    Ok(Table {
        shapes: list(alloc, &[ShapeOf::Size(0), ShapeOf::Array(0)])?,
        sizes: List::of(sizes),
        fields: list(alloc, &[field(b"x", Kind::Int), field(b"next", Kind::Ref)])?,
        arrays: list(alloc, &[ArrayRow { name: Text::new(b"ia"), kind: Kind::Int }])?,
        calls: List::of(calls),
        functions: list(alloc, &[Text::new(b"f")])?,
        prebuilts: List::of(Vec::new(alloc)),
    })
}

fn set_of(alloc: Global) -> Made<TraceSet> {
    Ok(TraceSet { table: table(alloc)?, traces: List::of(Vec::new(alloc)) })
}

// A frame with these boxes.
fn shown(alloc: Global, boxes: &[BoxId]) -> Made<Snapshot> {
    let mut slots = Vec::new(alloc);
    for k in 0..boxes.len() {
        slots.push(Val::Known(Arg::Of(boxes[k])))?;
    }
    let mut frames = Vec::new(alloc);
    frames.push(OptFrame { name: Text::new(b"L"), pc: 0, slots: List::of(slots) })?;
    Ok(Snapshot { frames: List::of(frames), shapes: List::of(Vec::new(alloc)), pending: List::of(Vec::new(alloc)) })
}

fn plain(alloc: Global, code: OpCode, gives: Option<BoxId>, args: &[Arg], descr: Descr) -> Made<OptOp> {
    Ok(OptOp::Plain { code, result: gives, args: list(alloc, args)?, descr })
}

fn guard(alloc: Global, code: OpCode, args: &[Arg], boxes: &[BoxId]) -> Made<OptOp> {
    Ok(OptOp::Guard { code, args: list(alloc, args)?, guard: 0, snap: shown(alloc, boxes)? })
}

// The bytes of some instructions, from one on and up to another.
fn bytes_between(selected: &Selected, from: u32, to: u32) -> usize {
    let mut bytes = 0;
    let mut out = [0u8; 16];
    let instrs = selected.instrs.items();
    for k in from as usize..to as usize {
        bytes += encode(&instrs[k], &mut out);
    }
    bytes
}

fn all_bytes(selected: &Selected) -> usize {
    bytes_between(selected, 0, selected.instrs.items().len() as u32)
}

// Three boxes in the first registers, which live to the end, and three integers and two references elsewhere.
fn label(alloc: Global) -> Made<Vec<BoxId>> {
    let mut boxes = Vec::new(alloc);
    for k in 0..6u32 {
        boxes.push(int(k))?;
    }
    boxes.push(reference(6))?;
    boxes.push(reference(7))?;
    Ok(boxes)
}

fn places(alloc: Global, words: bool) -> Made<Vec<Place>> {
    let mut at = Vec::new(alloc);
    for k in 0..3u8 {
        at.push(Place::In(Reg(k)))?;
    }
    for k in 0..5u8 {
        at.push(if words { Place::Word(16 + u32::from(k)) } else { Place::In(Reg(if k < 1 { 3 } else { 5 + k })) })?;
    }
    Ok(at)
}

// The bytes of the first operation of some, with the boxes in registers or in words.
fn first_bytes(alloc: Global, set: &TraceSet, ops: Vec<OptOp>, calls: bool, words: bool) -> Made<usize> {
    let boxes = label(alloc)?;
    let mut all = ops;
    // no box lives across a call
    let snap = if calls { shown(alloc, &[])? } else { shown(alloc, boxes.as_slice())? };
    all.push(OptOp::Exit { guard: 1, snap })?;
    let piece = Piece {
        id: PieceId { trace: 0, half: Half::Pre },
        label: List::of(boxes),
        ops: List::of(all),
    };
    let at = places(alloc, words)?;
    let registers = if words { 3 } else { 12 };
    let found = allocate(alloc, &piece, registers, at.as_slice())?;
    let selected = select(alloc, set, &piece, &found, &[])?;
    let last = piece.ops.items().len() - 1;
    let starts = selected.starts.items();
    Ok(bytes_between(&selected, 0, starts[last]))
}

#[derive(Drop)]
struct Case<'a> {
    name: &'a str,
    code: OpCode,
    gives: Option<Kind>,
    args: &'a [Arg],
    descr: Descr,
    // a guard that stands behind it
    behind: Option<OpCode>,
}

fn ops_of(alloc: Global, case: &Case) -> Made<Vec<OptOp>> {
    let mut ops = Vec::new(alloc);
    let gives = match case.gives {
        Some(kind) => Some(BoxId { kind, number: 8 }),
        None => None,
    };
    match case.code {
        OpCode::GuardTrue | OpCode::GuardFalse | OpCode::GuardValue | OpCode::GuardNonnull | OpCode::GuardIsnull
        | OpCode::GuardClass | OpCode::GuardNonnullClass => ops.push(guard(alloc, case.code, case.args, &[])?)?,
        _ => ops.push(plain(alloc, case.code, gives, case.args, case.descr)?)?,
    }
    match case.behind {
        Some(OpCode::GuardNoOverflow) => ops.push(guard(alloc, OpCode::GuardNoOverflow, &[], &[])?)?,
        Some(code) => ops.push(guard(alloc, code, &[Arg::Of(int(8))], &[])?)?,
        None => {}
    }
    Ok(ops)
}

fn report(rt: &HostRuntime, set: &TraceSet, case: &Case) -> Result<()> {
    let alloc = rt.alloc();
    let calls = matches!(case.code, OpCode::NewWithVtable | OpCode::NewArrayClear | OpCode::CallI);
    let registers = first_bytes(alloc, set, ops_of(alloc, case)?, calls, false)?;
    let words = first_bytes(alloc, set, ops_of(alloc, case)?, calls, true)?;
    println!(rt; "{:24} {:3} {:3}", case.name, registers, words)?;
    Ok(())
}

fn cases(rt: &HostRuntime, set: &TraceSet) -> Result<()> {
    let two = [Arg::Of(int(3)), Arg::Of(int(4))];
    let five = [Arg::Of(int(3)), Arg::Const(5)];
    let one = [Arg::Of(int(3))];
    let base = [Arg::Of(reference(6))];
    let item = [Arg::Of(reference(6)), Arg::Of(int(3))];
    let second = [Arg::Of(reference(6)), Arg::Const(2)];
    let put = [Arg::Of(reference(6)), Arg::Of(int(3))];
    let put_item = [Arg::Of(reference(6)), Arg::Of(int(3)), Arg::Of(int(4))];
    let both = [Arg::Of(reference(6)), Arg::Of(reference(7))];
    let class = [Arg::Of(reference(6)), Arg::Class(0)];
    let passed = [Arg::Func(0), Arg::Of(int(3)), Arg::Of(int(4))];
    let none: [Arg; 0] = [];
    let all = [
        Case { name: "int_add", code: OpCode::IntAdd, gives: Some(Kind::Int), args: &two, descr: Descr::No, behind: None },
        Case { name: "int_add constant", code: OpCode::IntAdd, gives: Some(Kind::Int), args: &five, descr: Descr::No, behind: None },
        Case { name: "int_sub", code: OpCode::IntSub, gives: Some(Kind::Int), args: &two, descr: Descr::No, behind: None },
        Case { name: "int_mul", code: OpCode::IntMul, gives: Some(Kind::Int), args: &two, descr: Descr::No, behind: None },
        Case { name: "int_and", code: OpCode::IntAnd, gives: Some(Kind::Int), args: &two, descr: Descr::No, behind: None },
        Case { name: "int_lshift", code: OpCode::IntLshift, gives: Some(Kind::Int), args: &two, descr: Descr::No, behind: None },
        Case { name: "int_lshift constant", code: OpCode::IntLshift, gives: Some(Kind::Int), args: &five, descr: Descr::No, behind: None },
        Case { name: "int_neg", code: OpCode::IntNeg, gives: Some(Kind::Int), args: &one, descr: Descr::No, behind: None },
        Case { name: "int_force_ge_zero", code: OpCode::IntForceGeZero, gives: Some(Kind::Int), args: &one, descr: Descr::No, behind: None },
        Case { name: "same_as_i", code: OpCode::SameAsI, gives: Some(Kind::Int), args: &one, descr: Descr::No, behind: None },
        Case { name: "int_lt", code: OpCode::IntLt, gives: Some(Kind::Int), args: &two, descr: Descr::No, behind: None },
        Case { name: "int_lt and its guard", code: OpCode::IntLt, gives: Some(Kind::Int), args: &two, descr: Descr::No, behind: Some(OpCode::GuardTrue) },
        Case { name: "int_is_true and its guard", code: OpCode::IntIsTrue, gives: Some(Kind::Int), args: &one, descr: Descr::No, behind: Some(OpCode::GuardTrue) },
        Case { name: "int_add_ovf and its guard", code: OpCode::IntAddOvf, gives: Some(Kind::Int), args: &two, descr: Descr::No, behind: Some(OpCode::GuardNoOverflow) },
        Case { name: "ptr_eq", code: OpCode::PtrEq, gives: Some(Kind::Int), args: &both, descr: Descr::No, behind: None },
        Case { name: "getfield_gc_i", code: OpCode::GetfieldGcI, gives: Some(Kind::Int), args: &base, descr: Descr::Field(0), behind: None },
        Case { name: "setfield_gc", code: OpCode::SetfieldGc, gives: None, args: &put, descr: Descr::Field(0), behind: None },
        Case { name: "getarrayitem_gc_i", code: OpCode::GetarrayitemGcI, gives: Some(Kind::Int), args: &item, descr: Descr::Array(0), behind: None },
        Case { name: "getarrayitem constant", code: OpCode::GetarrayitemGcI, gives: Some(Kind::Int), args: &second, descr: Descr::Array(0), behind: None },
        Case { name: "setarrayitem_gc", code: OpCode::SetarrayitemGc, gives: None, args: &put_item, descr: Descr::Array(0), behind: None },
        Case { name: "arraylen_gc", code: OpCode::ArraylenGc, gives: Some(Kind::Int), args: &base, descr: Descr::Array(0), behind: None },
        Case { name: "new_with_vtable", code: OpCode::NewWithVtable, gives: Some(Kind::Ref), args: &none, descr: Descr::Size(0), behind: None },
        Case { name: "new_array_clear", code: OpCode::NewArrayClear, gives: Some(Kind::Ref), args: &one, descr: Descr::Array(0), behind: None },
        Case { name: "call_i of two", code: OpCode::CallI, gives: Some(Kind::Int), args: &passed, descr: Descr::Call(0), behind: None },
        Case { name: "guard_true", code: OpCode::GuardTrue, gives: None, args: &one, descr: Descr::No, behind: None },
        Case { name: "guard_value", code: OpCode::GuardValue, gives: None, args: &five, descr: Descr::No, behind: None },
        Case { name: "guard_nonnull", code: OpCode::GuardNonnull, gives: None, args: &base, descr: Descr::No, behind: None },
        Case { name: "guard_class", code: OpCode::GuardClass, gives: None, args: &class, descr: Descr::No, behind: None },
        Case { name: "guard_nonnull_class", code: OpCode::GuardNonnullClass, gives: None, args: &class, descr: Descr::No, behind: None },
    ];
    for k in 0..all.len() {
        report(rt, set, &all[k])?;
    }
    Ok(())
}

// Eight operations of a loop over a list and an array, of which the last box is a sum so far.
fn round(alloc: Global, ops: &mut Vec<OptOp>, next: u32, sum: BoxId) -> Made<BoxId> {
    let (x, i, s, t) = (int(next), int(next + 1), int(next + 2), int(next + 3));
    let (o, m) = (int(next + 4), int(next + 5));
    let list = Arg::Of(reference(6));
    ops.push(plain(alloc, OpCode::GetfieldGcI, Some(x), &[list], Descr::Field(0))?)?;
    ops.push(plain(alloc, OpCode::IntLt, Some(i), &[Arg::Of(x), Arg::Of(int(3))], Descr::No)?)?;
    ops.push(guard(alloc, OpCode::GuardTrue, &[Arg::Of(i)], &[sum])?)?;
    ops.push(plain(alloc, OpCode::GetarrayitemGcI, Some(s), &[Arg::Of(reference(7)), Arg::Of(x)], Descr::Array(0))?)?;
    ops.push(plain(alloc, OpCode::IntAddOvf, Some(t), &[Arg::Of(sum), Arg::Of(s)], Descr::No)?)?;
    ops.push(guard(alloc, OpCode::GuardNoOverflow, &[], &[sum])?)?;
    ops.push(plain(alloc, OpCode::IntAnd, Some(o), &[Arg::Of(t), Arg::Const(1023)], Descr::No)?)?;
    ops.push(plain(alloc, OpCode::IntAdd, Some(m), &[Arg::Of(o), Arg::Of(int(4))], Descr::No)?)?;
    ops.push(plain(alloc, OpCode::SetfieldGc, None, &[list, Arg::Of(m)], Descr::Field(0))?)?;
    Ok(m)
}

fn mixed(alloc: Global, operations: u32) -> Made<Piece> {
    let mut ops = Vec::new(alloc);
    let mut sum = int(5);
    let mut next = 8;
    for _ in 0..operations / 9 {
        sum = round(alloc, &mut ops, next, sum)?;
        next += 6;
    }
    let snap = shown(alloc, &[sum])?;
    ops.push(OptOp::Exit { guard: 1, snap })?;
    Ok(Piece { id: PieceId { trace: 0, half: Half::Pre }, label: List::of(label(alloc)?), ops: List::of(ops) })
}

// One selection of the code of a piece: its bytes, and how long it took.
fn selection(rt: &HostRuntime, set: &TraceSet, piece: &Piece, registers: u8) -> Result<(usize, Duration)> {
    let alloc = rt.alloc();
    let at = places(alloc, registers < 12)?;
    let found = allocate(alloc, piece, registers, at.as_slice())?;
    let start = Instant::now(rt)?;
    let selected = select(alloc, set, piece, &found, &[])?;
    let time = start.elapsed(rt)?;
    Ok((all_bytes(&selected), time))
}

// The least of several times, which others on the machine disturb least.
fn piece_bytes(rt: &HostRuntime, set: &TraceSet, operations: u32, registers: u8) -> Result<()> {
    let piece = mixed(rt.alloc(), operations)?;
    let (bytes, mut time) = selection(rt, set, &piece, registers)?;
    for _ in 0..4u32 {
        let (_, again) = selection(rt, set, &piece, registers)?;
        time = time.min(again);
    }
    let kept = piece.ops.items().len();
    let tenths = 10 * bytes / kept;
    println!(rt; "{kept} mixed operations, {registers} registers: {}.{} bytes each, selected in {time:?}", tenths / 10, tenths % 10)?;
    Ok(())
}

fn stub_bytes() -> usize {
    let mut bytes = 0;
    let mut out = [0u8; 16];
    let instrs = stub(1_000_000);
    for k in 0..3usize {
        bytes += encode(&instrs[k], &mut out);
    }
    bytes
}

fn main(rt: HostRuntime) -> Result<()> {
    let set = set_of(rt.alloc())?;
    println!(rt; "bytes with boxes in registers, and in words")?;
    cases(&rt, &set)?;
    println!(rt; "a stub: {} bytes", stub_bytes())?;
    piece_bytes(&rt, &set, FEW, 12)?;
    piece_bytes(&rt, &set, FEW, 3)?;
    piece_bytes(&rt, &set, MANY, 12)?;
    Ok(())
}
EOF
sed -i "s/FEW/$few/g; s/MANY/$many/g" "$work/crates/select_bytes/src/main.rt"
cd "$work/crates/select_bytes"
rt try 2>"$work/log" || { cat "$work/log" >&2; exit 1; }
