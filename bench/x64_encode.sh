#!/bin/sh
# An outside check of the instruction table: a few thousand encodings, made by a built program over x64_encode, are
# disassembled by objdump, which must find the same instructions with the same lengths.
# Skipped, with status 0, where objdump or python3 is missing. Needs rt.
set -eu
for tool in objdump python3; do
    command -v $tool >/dev/null || { echo "skipped: no $tool"; exit 0; }
done
top=$(cd "$(dirname "$0")/.." && pwd)
work=$(mktemp -d)
trap 'rm -rf "$work"' EXIT
mkdir -p "$work/crates/encodings/src"
cp -r "$top/crates/target_base" "$top/crates/x64_encode" "$work/crates/"
cat > "$work/crates.txt" <<'EOF'
target_base:
x64_encode: target_base byteorder
encodings: target_base x64_encode
EOF
cat > "$work/crates/encodings/src/main.rt" <<'EOF'
//! Prints instructions beside their bytes, one a line.
#![tactic(auto)]

ghost use Rattle.std.specs.Prelude.{◌≤◌};

use std::io;
use x64_encode::{AluOp, Cc, Instr, Mem, Reg, ShiftOp, encode, has_row};

const NUMBERS: [i32; 9] = [0, 1, -1, 127, -128, 128, -129, 2147483647, -2147483648];
const WORDS: [i64; 4] = [2147483648, -2147483649, 9223372036854775807, -9223372036854775808];
const ALU: [AluOp; 7] = [AluOp::Add, AluOp::Or, AluOp::And, AluOp::Sub, AluOp::Xor, AluOp::Cmp, AluOp::Test];
const SHIFTS: [ShiftOp; 3] = [ShiftOp::Shl, ShiftOp::Shr, ShiftOp::Sar];
const CONDITIONS: [Cc; 14] = [
    Cc::O, Cc::No, Cc::B, Cc::Ae, Cc::E, Cc::Ne, Cc::Be, Cc::A, Cc::S, Cc::Ns, Cc::L, Cc::Ge, Cc::Le, Cc::G,
];

fn show(rt: &impl Print, instr: Instr) -> io::Result<()> {
    if !has_row(&instr) {
        return Ok(());
    }
    let mut bytes = [0; 16];
    let n = encode(&instr, &mut bytes);
    for byte in &bytes[..n] {
        print!(rt; "{byte:02x}")?;
    }
    println!(rt; " {instr:?}")
}

fn show_pairs(rt: &impl Print, a: Reg) -> io::Result<()> {
    for n in 0..16u8 {
        let b = Reg(n);
        show(rt, Instr::MovReg(a, b))?;
        show(rt, Instr::Imul(a, b))?;
        show(rt, Instr::Xchg(a, b))?;
        show(rt, Instr::Movzx(a, b))?;
        for op in ALU {
            show(rt, Instr::Alu(op, a, b))?;
        }
        for d in NUMBERS {
            show(rt, Instr::Lea(b, Mem::Item(a, b, d)))?;
        }
    }
    Ok(())
}

fn show_numbers(rt: &impl Print, a: Reg, b: Reg) -> io::Result<()> {
    for d in NUMBERS {
        show(rt, Instr::Load(b, Mem::At(a, d)))?;
        show(rt, Instr::Store(Mem::Item(b, a, d), b))?;
        show(rt, Instr::Lea(b, Mem::At(a, d)))?;
        show(rt, Instr::StoreImm(Mem::At(a, d), d))?;
        show(rt, Instr::StoreImm(Mem::Item(a, b, d), 7))?;
        show(rt, Instr::MovImm(a, i64::from(d)))?;
        for op in ALU {
            show(rt, Instr::AluImm(op, a, d))?;
        }
    }
    for v in WORDS {
        show(rt, Instr::MovImm(a, v))?;
    }
    Ok(())
}

fn show_singles(rt: &impl Print, a: Reg) -> io::Result<()> {
    show(rt, Instr::Not(a))?;
    show(rt, Instr::Neg(a))?;
    show(rt, Instr::CallReg(a))?;
    show(rt, Instr::JmpReg(a))?;
    for op in SHIFTS {
        show(rt, Instr::ShiftCl(op, a))?;
        show(rt, Instr::ShiftImm(op, a, a.0))?;
        show(rt, Instr::ShiftImm(op, a, 63))?;
    }
    for cond in CONDITIONS {
        show(rt, Instr::Set(cond, a))?;
    }
    Ok(())
}

fn show_jumps(rt: &impl Print) -> io::Result<()> {
    show(rt, Instr::Ret)?;
    for d in NUMBERS {
        show(rt, Instr::Jmp(d))?;
        for cond in CONDITIONS {
            show(rt, Instr::Jcc(cond, d))?;
        }
    }
    Ok(())
}

fn main(rt: HostRuntime) -> io::Result<()> {
    for n in 0..16u8 {
        show_pairs(&rt, Reg(n))?;
        show_numbers(&rt, Reg(n), Reg(15 - n))?;
        show_singles(&rt, Reg(n))?;
    }
    show_jumps(&rt)
}
EOF
cd "$work/crates/encodings"
rt run > "$work/encodings" 2>"$work/log" || { cat "$work/log" >&2; exit 1; }
cat > "$work/compare.py" <<'EOF'
import re, subprocess, sys
names = "rax rcx rdx rbx rsp rbp rsi rdi r8 r9 r10 r11 r12 r13 r14 r15".split()
low = "al cl dl bl spl bpl sil dil r8b r9b r10b r11b r12b r13b r14b r15b".split()
short = "eax ecx edx ebx esp ebp esi edi r8d r9d r10d r11d r12d r13d r14d r15d".split()

class R(int): pass
def word(v): return hex(v % 2**64)
def mem(m):
    kind, parts = m[0], m[1:]
    text = names[parts[0]]
    if kind == "Item":
        text += "+" + names[parts[1]] + "*8"
    return text, parts[-1]
# an operand in memory as (registers, displacement)
def place(text):
    m = re.fullmatch(r"(?:QWORD PTR )?\[(.*?)([+-]0x[0-9a-f]+)?\]", text)
    return m.group(1), int(m.group(2) or "0", 16)

def parse(text):
    text = re.sub(r"Reg\((\d+)\)", r"\1", text)
    text = re.sub(r"\b([A-Z][A-Za-z]*)\(", r"('\1',", text)
    text = re.sub(r"(?<!')\b([A-Z][A-Za-z]*)\b(?!')", r"'\1'", text)
    return eval(text if text.startswith("(") else "(" + text + ",)")

def wanted(i, end):
    k, a = i[0], i[1:]
    r = lambda n: names[n]
    if k == "MovReg": return "mov", [r(a[0]), r(a[1])]
    if k == "Load": return "mov", [r(a[0]), mem(a[1])]
    if k == "Store": return "mov", [mem(a[0]), r(a[1])]
    if k == "StoreImm": return "mov", [mem(a[0]), word(a[1])]
    if k == "MovImm": return ("mov" if -2**31 <= a[1] < 2**31 else "movabs"), [r(a[0]), word(a[1])]
    if k == "Alu": return a[0].lower(), [r(a[1]), r(a[2])]
    if k == "AluImm": return a[0].lower(), [r(a[1]), word(a[2])]
    if k == "Imul": return "imul", [r(a[0]), r(a[1])]
    if k in ("Not", "Neg"): return k.lower(), [r(a[0])]
    if k == "ShiftCl": return a[0].lower(), [r(a[1]), "cl"]
    if k == "ShiftImm": return a[0].lower(), [r(a[1]), word(a[2])]
    if k == "Lea": return "lea", [r(a[0]), mem(a[1])]
    if k == "Xchg": return "xchg", [r(a[0]), r(a[1])]
    if k == "Set": return "set" + a[0].lower(), [low[a[1]]]
    if k == "Movzx": return "movzx", [short[a[0]], low[a[1]]]
    if k == "Jcc": return "j" + a[0].lower(), [word(end + a[1])]
    if k == "Jmp": return "jmp", [word(end + a[0])]
    if k == "CallReg": return "call", [r(a[0])]
    if k == "JmpReg": return "jmp", [r(a[0])]
    if k == "Ret": return "ret", []
    raise SystemExit("unknown instruction " + repr(i))

lines = [l.split(" ", 1) for l in open(sys.argv[1]).read().splitlines()]
code = b"".join(bytes.fromhex(h) for h, _ in lines)
open(sys.argv[2], "wb").write(code)
out = subprocess.run(["objdump", "-D", "-b", "binary", "-m", "i386:x86-64", "-M", "intel", "-w", sys.argv[2]], capture_output=True, text=True, check=True).stdout
found = {}
for l in out.splitlines():
    m = re.match(r"\s*([0-9a-f]+):\t([0-9a-f ]+?)\s*(?:\t(.*))?$", l)
    if m:
        found[int(m.group(1), 16)] = (m.group(2).split(), (m.group(3) or "").strip())
at, bad, kinds = 0, 0, set()
for h, text in lines:
    n = len(h) // 2
    bytes_, asm = found.get(at, ([], "nothing"))
    i = parse(text)
    kinds.add(i[0])
    name, operands = wanted(i, at + n)
    parts = asm.split(None, 1)
    given = re.split(r",(?![^\[]*\])", parts[1]) if len(parts) > 1 else []
    norm = [place(o) if o.endswith("]") else (word(int(o, 16)) if re.fullmatch(r"-?0x[0-9a-f]+|\d+", o) else o) for o in given]
    if not parts or parts[0] != name or norm != operands or len(bytes_) != n:
        bad += 1
        if bad <= 10:
            print("differs:", h, text, "objdump says", asm, "in", len(bytes_), "bytes")
    at += n
print(len(lines), "encodings of", len(kinds), "forms,", bad, "differ")
sys.exit(1 if bad or len(kinds) != 21 or len(lines) < 2000 else 0)
EOF
python3 "$work/compare.py" "$work/encodings" "$work/code.bin"
