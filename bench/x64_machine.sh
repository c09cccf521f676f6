#!/bin/sh
# How many instructions a second the machine steps, on one core, in a built program.
# A copy of the two crates and a small program over them are made in a temporary folder, built by rt and run there.
# Needs rt. Usage: bench/x64_machine.sh [STEPS]
set -eu
steps=${1:-100000000}
top=$(cd "$(dirname "$0")/.." && pwd)
work=$(mktemp -d)
trap 'rm -rf "$work"' EXIT
mkdir -p "$work/crates/step_speed/src"
for crate in target_base x64_encode x64_machine; do
    cp -r "$top/crates/$crate" "$work/crates/"
    rm -rf "$work/crates/$crate/must-fail"
done
cat > "$work/crates.txt" <<EOF
target_base:
x64_encode: target_base byteorder
x64_machine: target_base x64_encode
step_speed: target_base x64_encode x64_machine
EOF
cat > "$work/crates/step_speed/src/main.rt" <<'EOF'
//! Steps a loop of ten instructions, and prints how long it took.
#![tactic(auto)]

ghost use Rattle.std.specs.Prelude.{◌+◌, ◌≤◌, ◌<◌, ◌^◌, length, IfOk};

use anyhow::Result;
use std::alloc::{AllocError, Global};
use std::time::Instant;
use x64_encode::{AluOp, Cc, Instr, Mem, PlainCode, Reg, encode, has_row};
use x64_machine::{Machine, Stop, Turn};

const RAX: Reg = Reg(0);
const RCX: Reg = Reg(1);
const RDX: Reg = Reg(2);
const RBX: Reg = Reg(3);
const RBP: Reg = Reg(5);
const RSI: Reg = Reg(6);
const RDI: Reg = Reg(7);
const R8: Reg = Reg(8);

fn put(code: &mut Vec<u8>, instr: Instr) -> Result<(), AllocError> {
    if !has_row(&instr) {
        return Ok(());
    }
    let mut bytes = [0; 16];
    let n = encode(&instr, &mut bytes);
    for i in 0..n {
        code.push(bytes[i])?;
    }
    Ok(())
}

fn loop_of_ten(alloc: Global) -> Result<Vec<u8>, AllocError> {
    let mut code = Vec::new(alloc);
    let ten = [
        Instr::Alu(AluOp::Add, RAX, RCX),
        Instr::Store(Mem::At(RBP, 128), RAX),
        Instr::Load(RDX, Mem::At(RBP, 128)),
        Instr::Lea(RSI, Mem::Item(RAX, RDX, 4)),
        Instr::Imul(RDI, RSI),
        Instr::AluImm(AluOp::Sub, RDX, 5),
        Instr::Alu(AluOp::Cmp, RDX, RAX),
        Instr::Set(Cc::E, RBX),
        Instr::Movzx(R8, RBX),
    ];
    for instr in ten {
        put(&mut code, instr)?;
    }
    let back = code.len() + 5;
    if back < 1000 {
        put(&mut code, Instr::Jmp(-(back as i32)))?;
    }
    Ok(code)
}

fn run(machine: &mut Machine, code: &PlainCode, steps: u64) -> Option<Stop> {
    for _ in 0..steps {
        if machine.counts().instructions >= 1 << 62 {
            return None;
        }
        if let Turn::Stopped(stop) = machine.step(code) {
            return Some(stop);
        }
    }
    None
}

fn main(rt: HostRuntime) -> Result<()> {
    let bytes = loop_of_ten(rt.alloc())?;
    if bytes.len() >= 1 << 30 {
        return Ok(());
    }
    let code = PlainCode::new(bytes);
    let mut machine = Machine::start(rt.alloc(), 65536, &[], 0, &[7])?;
    let start = Instant::now(&rt)?;
    let stop = run(&mut machine, &code, STEPS);
    let took = start.elapsed(&rt)?;
    let made = machine.counts().instructions;
    let rdi = machine.reg(RDI);
    println!(rt; "{made} instructions in {took:?}, rdi {rdi}, {stop:?}")?;
    Ok(())
}
EOF
sed -i "s/STEPS/$steps/" "$work/crates/step_speed/src/main.rt"
sed -i 's/^step_speed:.*/step_speed: target_base x64_encode x64_machine anyhow/' "$work/crates.txt"
cd "$work/crates/step_speed"
rt run 2>"$work/log" || { cat "$work/log" >&2; exit 1; }
