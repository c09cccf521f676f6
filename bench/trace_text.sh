#!/bin/sh
# Times read_set on 16 MiB of operation lines, on six traces of 8,192 operations and on one line of marks,
# and write_set on what was read, in a built program that stands in a copy.
set -e
here=$(cd "$(dirname "$0")/.." && pwd)
copy=$(mktemp -d)
trap 'rm -rf "$copy"' EXIT
mkdir -p "$copy/crates"
for name in trace_ops text_lines descr_table trace_text; do
    cp -r "$here/crates/$name" "$copy/crates/"
done
# the crates with what they stand on today, and the program
{
    grep -E '^(trace_ops|text_lines|descr_table|trace_text):' "$here/crates.txt"
    echo 'bench_traces: trace_text trace_ops text_lines descr_table'
} > "$copy/crates.txt"
mkdir -p "$copy/crates/bench_traces/src" "$copy/crates/bench_traces/specs" "$copy/crates/bench_traces/proofs/answer"
touch "$copy/crates/bench_traces/specs/Lib.antt" "$copy/crates/bench_traces/proofs/Lib.antt"
cat > "$copy/crates/bench_traces/src/main.rt" <<'RT'
#![tactic(auto)]

use std::alloc::Global;
use std::io;
use std::io::Read;
use std::time::Instant;
use trace_ops::TraceSet;
use trace_text::{read_set, write_set};

fn answer(alloc: Global, text: &[u8]) -> Option<TraceSet> {
    if text.len() > 1000000000 {
        return None;
    }
    match read_set(alloc, text) {
        Ok((set, _)) => Some(set),
        Err(_) => None,
    }
}

fn written(alloc: Global, set: &Option<TraceSet>) -> usize {
    match set {
        None => 0,
        Some(set) => match write_set(alloc, set) {
            Ok(text) => text.len(),
            Err(_) => 0,
        },
    }
}

fn main(rt: HostRuntime) -> io::Result<()> {
    let mut text = Vec::new(rt.alloc());
    let mut reader = rt.reader();
    reader.read_to_end(&mut text)?;
    let start = Instant::now(&rt)?;
    let set = answer(rt.alloc(), text.as_slice());
    let took = start.elapsed(&rt)?.as_millis();
    let said = if set.is_some() { "read" } else { "refused" };
    let start = Instant::now(&rt)?;
    let bytes = written(rt.alloc(), &set);
    let wrote = start.elapsed(&rt)?.as_millis();
    println!(rt; "{said} in {took} ms, {bytes} bytes written in {wrote} ms")
}
RT
cat > "$copy/crates/bench_traces/proofs/answer/Answers.antt" <<'ANTT'
use Rattle.std.proofs.Common.{arith}
use Rattle.text_lines.proofs.LineLaws.{length-lines}
use Rattle.bench_traces.proofs.answer.Goals as goal

pub read_set-requires : goal.read_set-requires
read_set-requires c = omega (arith, length-lines c.args.text.now)
ANTT
python3 - "$copy" <<'PY'
import sys
def trace(name, operations):
    lines = ['%%loop %s' % name, '[i0]']
    lines += ['i%d = int_add(i%d, 1)' % (k, k - 1) for k in range(1, operations)]
    return '\n'.join(lines + ['finish(i%d)' % (operations - 1), ''])
open(sys.argv[1] + '/six.txt', 'w').write(''.join(trace('L%d' % k, 8192) for k in range(6)))
text, k = '', 0
parts, size = [], 0
while size < 16 * 1024 * 1024 - 300000:
    parts.append(trace('L%d' % k, 8192))
    size += len(parts[-1])
    k += 1
open(sys.argv[1] + '/full.txt', 'w').write(''.join(parts))
open(sys.argv[1] + '/marks.txt', 'w').write('%loop L\n[]\nint_add(' + '1,' * (8 * 1024 * 1024 - 20) + '1)\n')
open(sys.argv[1] + '/one.txt', 'w').write(trace('L', 8192))
PY
cd "$copy/crates/bench_traces"
cp "$copy/one.txt" stdin
rt run > "$copy/log" 2>&1 || { cat "$copy/log" >&2; exit 1; }
for input in one six full marks; do
    printf '%s %s bytes: ' "$input" "$(wc -c < "$copy/$input.txt")"
    out/bench_traces < "$copy/$input.txt"
done
