#!/bin/sh
# Times read_table on a large table and on comment lines, in a built program that stands in a copy.
set -e
here=$(cd "$(dirname "$0")/.." && pwd)
copy=$(mktemp -d)
trap 'rm -rf "$copy"' EXIT
mkdir -p "$copy/crates"
for name in trace_ops text_lines descr_table; do
    cp -r "$here/crates/$name" "$copy/crates/"
done
# the crates with what they stand on today, and the program
{
    grep -E '^(trace_ops|text_lines|descr_table):' "$here/crates.txt"
    echo 'bench_table: descr_table text_lines trace_ops'
} > "$copy/crates.txt"
mkdir -p "$copy/crates/bench_table/src" "$copy/crates/bench_table/specs" "$copy/crates/bench_table/proofs/answer"
touch "$copy/crates/bench_table/specs/Lib.antt" "$copy/crates/bench_table/proofs/Lib.antt"
cat > "$copy/crates/bench_table/src/main.rt" <<'RT'
#![tactic(auto)]

use descr_table::read_table;
use std::alloc::Global;
use std::io;
use std::io::Read;
use std::time::Instant;

fn answer(alloc: Global, text: &[u8]) -> &'static str {
    if text.len() > 1000000000 {
        return "long";
    }
    match read_table(alloc, text, 1) {
        Ok(_) => "read",
        Err(_) => "refused",
    }
}

fn main(rt: HostRuntime) -> io::Result<()> {
    let mut text = Vec::new(rt.alloc());
    let mut reader = rt.reader();
    reader.read_to_end(&mut text)?;
    let start = Instant::now(&rt)?;
    let said = answer(rt.alloc(), text.as_slice());
    let took = start.elapsed(&rt)?.as_millis();
    println!(rt; "{said} {took} ms")
}
RT
cat > "$copy/crates/bench_table/proofs/answer/Answers.antt" <<'ANTT'
use Rattle.std.proofs.Common.{arith}
use Rattle.text_lines.proofs.LineLaws.{length-lines}
use Rattle.bench_table.proofs.answer.Goals as goal

pub read_table-requires : goal.read_table-requires
read_table-requires c = omega (arith, length-lines c.args.text.now)
ANTT
python3 -c "
import sys
for s in range(1024):
    print('size size_number_%d' % s)
    for f in range(64):
        print('field a_field_of_it_%d_%d of size_number_%d i' % (s, f, s))
" > "$copy/table.txt"
python3 -c "print(('# ' + 'x' * 61 + '\n') * (16 * 1024 * 1024 // 64), end='')" > "$copy/comments.txt"
cd "$copy/crates/bench_table"
cp "$copy/table.txt" stdin
rt run > "$copy/log" 2>&1 || { cat "$copy/log" >&2; exit 1; }
for input in table comments; do
    printf '%s %s bytes: ' "$input" "$(wc -c < "$copy/$input.txt")"
    out/bench_table < "$copy/$input.txt"
done
