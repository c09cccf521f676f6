#!/bin/sh
# How fast a region takes code, and how fast places in it are found, on one core, in a built program.
# A copy of the two crates and a small program over them are made in a temporary folder, built by rt and run there.
# Needs rt. Usage: bench/code_region.sh
set -eu
top=$(cd "$(dirname "$0")/.." && pwd)
work=$(mktemp -d)
trap 'rm -rf "$work"' EXIT
mkdir -p "$work/crates/region_speed/src"
for crate in target_base code_region; do
    mkdir -p "$work/crates/$crate"
    for part in src specs proofs out; do
        if [ -d "$top/crates/$crate/$part" ]; then cp -r "$top/crates/$crate/$part" "$work/crates/$crate/"; fi
    done
done
cat > "$work/crates.txt" <<'EOF'
target_base:
code_region: target_base
region_speed: target_base code_region anyhow
EOF
cat > "$work/crates/region_speed/src/main.rt" <<'EOF'
//! Appends 40 MB in pieces of 100 bytes, fetches at a million places, and prints how long each took.
#![tactic(auto)]

ghost use Rattle.std.specs.Prelude.{◌+◌, ◌≤◌, ◌<◌, ◌^◌, length};

use anyhow::Result;
use code_region::Region;
use std::alloc::AllocError;
use std::time::Instant;
use target_base::Fetch;

const PIECES: u32 = 400_000;
const FETCHES: u32 = 1_000_000;

// Makes room by turns of 1 MB, as a caller that doesn't know how much is to come.
fn fill(region: &mut Region, piece: &[u8; 100]) -> Result<(), AllocError> {
    let mut room = 0;
    for _ in 0..PIECES {
        if room < 100 {
            if region.len() >= 1 << 30 {
                return Ok(());
            }
            region.reserve(1 << 20)?;
            room = 1 << 20;
        }
        append(region, piece)?;
        room -= 100;
    }
    Ok(())
}

// Room is asked for again, since a loop's count of it says nothing of the region's.
fn append(region: &mut Region, piece: &[u8; 100]) -> Result<(), AllocError> {
    if region.len() >= 1 << 30 {
        return Ok(());
    }
    region.reserve(100)?;
    let _ = region.append(piece);
    Ok(())
}

fn fetch_all(region: &Region) -> u64 {
    let len = region.len();
    let mut at = 12345u32;
    let mut sum = 0u64;
    let mut bytes = [0u8; 16];
    for _ in 0..FETCHES {
        at = at.wrapping_mul(1_664_525).wrapping_add(1_013_904_223);
        let n = region.fetch(if len == 0 { 0 } else { at % len }, &mut bytes);
        sum = sum.wrapping_add(n as u64).wrapping_add(u64::from(bytes[0]));
    }
    sum
}

fn main(rt: HostRuntime) -> Result<()> {
    let mut region = Region::new(rt.alloc())?;
    let piece = [0xC3u8; 100];
    let start = Instant::now(&rt)?;
    fill(&mut region, &piece)?;
    let took = start.elapsed(&rt)?;
    let len = region.len();
    println!(rt; "{len} bytes appended in {took:?}")?;
    let start = Instant::now(&rt)?;
    let sum = fetch_all(&region);
    let took = start.elapsed(&rt)?;
    println!(rt; "1000000 fetches in {took:?}, sum {sum}")?;
    Ok(())
}
EOF
cd "$work/crates/region_speed"
rt run 2>"$work/log" || { cat "$work/log" >&2; exit 1; }
