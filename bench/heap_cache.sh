#!/bin/sh
# How many reads a second a cache with 10,000 known spots answers, on one core, in a built program.
# A copy of the two crates and a small program over them are made in a temporary folder, built by rt and run there.
# Needs rt. Usage: bench/heap_cache.sh [READS]
set -eu
reads=${1:-10000000}
top=$(cd "$(dirname "$0")/.." && pwd)
work=$(mktemp -d)
trap 'rm -rf "$work"' EXIT
mkdir -p "$work/crates/read_speed/src"
for crate in trace_ops heap_cache; do
    cp -r "$top/crates/$crate" "$work/crates/"
    rm -rf "$work/crates/$crate/must-fail"
done
cat > "$work/crates.txt" <<EOF
trace_ops: indexmap
heap_cache: trace_ops indexmap
read_speed: trace_ops heap_cache anyhow
EOF
cat > "$work/crates/read_speed/src/main.rt" <<'EOF'
//! Notes 10,000 spots, reads them over and over, and prints how long that took.
#![tactic(auto)]

use anyhow::Result;
use heap_cache::Cache;
use std::alloc::{AllocError, Global};
use std::time::Instant;
use trace_ops::{Arg, BoxId, Kind, Spot, Val};

fn base(n: u32) -> Arg {
    Arg::Of(BoxId {
        kind: Kind::Ref,
        number: n / 10,
    })
}

fn filled(alloc: Global) -> Result<Cache, AllocError> {
    let mut cache = Cache::new(alloc)?;
    for n in 0..10_000u32 {
        if cache.pending().is_empty() {
            cache.note(base(n), Spot::Field(n % 10), Val::Known(Arg::Const(n as i64)))?;
        }
    }
    Ok(cache)
}

fn read_all(cache: &Cache, reads: u32) -> i64 {
    let mut seen = 0;
    for k in 0..reads {
        let n = k % 10_000;
        if let Some(Val::Known(Arg::Const(w))) = cache.read(base(n), Spot::Field(n % 10)) {
            seen |= w;
        }
    }
    seen
}

fn main(rt: HostRuntime) -> Result<()> {
    let cache = filled(rt.alloc())?;
    let start = Instant::now(&rt)?;
    let seen = read_all(&cache, READS);
    let took = start.elapsed(&rt)?;
    println!(rt; "READS reads in {took:?}, seen {seen}")?;
    Ok(())
}
EOF
sed -i "s/READS/$reads/" "$work/crates/read_speed/src/main.rt"
cd "$work/crates/read_speed"
rt run 2>"$work/log" || { cat "$work/log" >&2; exit 1; }
