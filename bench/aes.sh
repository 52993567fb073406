#!/usr/bin/env bash
# Times `Key::encrypt` and the stream as they are compiled, beside a table AES in plain Rust.
#
#   bench/aes.sh [ROUNDS]
#
# The plain program is bench/peer/prio3.rs, whose `bench` prints a line `aes chained blocks N ns`. Both programs
# encrypt a chain of a million blocks, in turns; the best of ROUNDS rounds (5) counts. The script
# reports the times and their ratio, and asserts nothing.
set -euo pipefail

rounds=${1:-5}
repository=$(cd "$(dirname "$0")/.." && pwd)
scratch=$(mktemp -d)
trap 'rm -rf "$scratch"' EXIT

mkdir -p "$scratch/crates/aes_bench/src"
for crate in aes_block aes_cmac_prg field_laws; do
    mkdir "$scratch/crates/$crate"
    cp -r "$repository/crates/$crate/"{src,specs,proofs} "$scratch/crates/$crate/"
done
cat >"$scratch/crates.txt" <<'END'
aes_block:
field_laws:
aes_cmac_prg: aes_block field_laws thiserror
aes_bench: aes_block aes_cmac_prg
END
cat >"$scratch/crates/aes_bench/src/main.rt" <<'END'
//! Prints the nanoseconds of a million chained blocks, and of as many blocks of a stream.
#![tactic(auto)]

use aes_block::Key;
use aes_cmac_prg::Prg;
use std::io;
use std::time::Instant;

fn main(rt: HostRuntime) -> Result<(), io::Error> {
    let key = Key::new([1; 16]);
    let mut block = [0; 16];
    let start = Instant::now(&rt)?;
    for _ in 0..1000000u32 {
        let next = key.encrypt(block);
        block = next;
    }
    let chained = start.elapsed(&rt)?.as_nanos();

    let mut bytes = [0; 16000];
    let mut last = 0;
    let start = Instant::now(&rt)?;
    for i in 0..1000u64 {
        let mut stream = Prg::new(&[1; 16], &i.to_be_bytes());
        stream.next_bytes(&mut bytes);
        last ^= bytes[15999];
    }
    let stream = start.elapsed(&rt)?.as_nanos();
    println!(rt; "{chained} {stream} {} {last}", block[0])?;
    Ok(())
}
END

(cd "$scratch/crates/aes_bench" && rt run >"$scratch/build.log" 2>&1) || {
    cat "$scratch/build.log"
    exit 1
}
rustc -O "$repository/bench/peer/prio3.rs" -o "$scratch/peer" 2>/dev/null

for _ in $(seq "$rounds"); do
    "$scratch/crates/aes_bench/out/aes_bench" >>"$scratch/ours"
    "$scratch/peer" bench 1 | sed -n 's/^aes chained blocks \(.*\) ns$/\1/p' >>"$scratch/theirs"
done

awk -v theirs="$scratch/theirs" '
    { if (NR == 1 || $1 < chained) chained = $1; if (NR == 1 || $2 < stream) stream = $2 }
    END {
        while ((getline line <theirs) > 0) if (best == "" || line < best) best = line + 0
        printf "encrypt    %7.1f ns a block\n", chained / 1e6
        printf "stream     %7.1f ns a block\n", stream / 1e6
        printf "peer       %7.1f ns a block\n", best
        printf "ratio of encrypt to the peer %.2f\n", chained / 1e6 / best
    }' "$scratch/ours"
