#!/usr/bin/env bash
# Times an opening and a checkpoint of a journal of small blocks, as they are compiled.
#
#   bench/checkpoint.sh [ROUNDS]
#
# For 12,500 to 100,000 blocks of one record of four bytes it prints the best of ROUNDS rounds (5)
# and the time of a block, which stays about the same where the time grows with the bytes. It
# asserts nothing.
set -euo pipefail

rounds=${1:-5}
repository=$(cd "$(dirname "$0")/.." && pwd)
scratch=$(mktemp -d)
trap 'rm -rf "$scratch"' EXIT

mkdir -p "$scratch/crates/checkpoint_bench/src"
for crate in dap_bytes dap_disk report_journal journal_checkpoint; do
    mkdir "$scratch/crates/$crate"
    cp -r "$repository/crates/$crate/"{src,specs,proofs} "$scratch/crates/$crate/"
done
cat >"$scratch/crates.txt" <<'END2'
dap_bytes:
dap_disk: dap_bytes
report_journal: dap_bytes dap_disk
journal_checkpoint: dap_bytes dap_disk report_journal
checkpoint_bench: dap_disk journal_checkpoint anyhow
END2
cat >"$scratch/crates/checkpoint_bench/src/main.rt" <<'END2'
//! Prints the nanoseconds of an opening and a checkpoint for several numbers of blocks.
#![tactic(auto)]

use anyhow::Error;
use dap_disk::MemDisk;
use journal_checkpoint::PairDisk;
use std::alloc::Global;
use std::time::Instant;

/// A journal of so many blocks of one record each.
fn journal(alloc: Global, blocks: u32) -> Result<Vec<u8>, Error> {
    let mut file = Vec::new(alloc);
    for i in 0..blocks {
        let [a, b, c, d] = i.to_be_bytes();
        file.extend_from_slice(&[1, 0, 0, 0, 8, 0, 0, 0, 4, a, b, c, d])?;
    }
    file.push(0)?;
    Ok(file)
}

fn main(rt: HostRuntime) -> Result<(), Error> {
    let alloc = rt.alloc();
    for blocks in [12500, 25000, 50000, 100000] {
        let first = MemDisk::new(alloc, journal(alloc, blocks)?, Vec::new(alloc), None);
        let second = MemDisk::new(alloc, Vec::new(alloc), Vec::new(alloc), None);
        let start = Instant::now(&rt)?;
        let Ok(pair) = PairDisk::open(first, second) else {
            println!(rt; "no pair")?;
            return Ok(());
        };
        let Ok((_, packed)) = pair.checkpoint(alloc, 64) else {
            println!(rt; "no checkpoint")?;
            return Ok(());
        };
        let nanos = start.elapsed(&rt)?.as_nanos();
        println!(rt; "{blocks} {nanos} {packed}")?;
    }
    Ok(())
}
END2

(cd "$scratch/crates/checkpoint_bench" && rt run >"$scratch/build.log" 2>&1) || {
    cat "$scratch/build.log"
    exit 1
}

for _ in $(seq "$rounds"); do
    "$scratch/crates/checkpoint_bench/out/checkpoint_bench" >>"$scratch/times"
done
awk '{ if (!($1 in best) || $2 < best[$1]) best[$1] = $2 }
    END { for (n in best) printf "%6d blocks %8.3f ms %7.1f ns a block\n", n, best[n] / 1e6, best[n] / n }' \
    "$scratch/times" | sort -n
