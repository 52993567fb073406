#!/usr/bin/env bash
# Times `prove` and `query` in Field128 for circuits of 1, 16, 255 and 2,047 calls, as they are compiled.
#
#   bench/proofs.sh [BEFORE]
#
# BEFORE is a commit of this repository whose flp_proof is timed beside today's, as 028e44a, which interpolates by plain
# sums. Each time is the best of many rounds, in microseconds. The script asserts nothing.
set -euo pipefail

top=$(cd "$(dirname "$0")/.." && pwd)
scratch=$(mktemp -d)
trap 'rm -rf "$scratch"' EXIT

# Makes a repository with the crates as they are, and flp_proof as it was at a commit, if one is given.
prepare() {
    local into=$1 before=${2:-}
    mkdir -p "$into/crates/proofs/src"
    cp "$top/HANDLES" "$into/"
    for crate in field_laws field64 field128 poly_plain poly_ntt flp_circuits flp_proof flp_tests; do
        mkdir "$into/crates/$crate"
        for part in src specs proofs; do
            if [ -d "$top/crates/$crate/$part" ]; then
                cp -r "$top/crates/$crate/$part" "$into/crates/$crate/"
            fi
        done
    done
    if [ -n "$before" ]; then
        rm -r "$into/crates/flp_proof"
        git -C "$top" archive "$before" crates/flp_proof | tar -x -C "$into"
        rm -rf "$into/crates/flp_proof/must-fail"
    fi
    cat >"$into/crates.txt" <<'END'
field_laws:
field64: field_laws
field128: field_laws
poly_plain: field_laws
poly_ntt: field_laws
flp_circuits: field_laws thiserror
flp_proof: field_laws flp_circuits poly_plain poly_ntt thiserror
flp_tests: field_laws field64 field128 poly_plain poly_ntt flp_circuits flp_proof
proofs: field_laws field128 flp_circuits flp_proof flp_tests anyhow
END
    cat >"$into/crates/proofs/src/main.rt" <<'END'
//! Prints the best time of a proof and of a query, in nanoseconds, for each number of calls.
#![tactic(auto)]

use anyhow::Result;
use field_laws::Field;
use field128::Field128;
use flp_circuits::Circuit;
use flp_proof::{prove, proof_len, query};
use flp_tests::Wide;
use std::time::Instant;

const CALLS: [(usize, u32); 4] = [(1, 2000), (16, 500), (255, 100), (2047, 20)];

fn main(rt: HostRuntime) -> Result<()> {
    let alloc = rt.alloc();
    for (calls, rounds) in CALLS {
        if calls == 0 || calls > 2047 {
            continue;
        }
        let c = Wide::<Field128>::new(calls);
        let none = Vec::new(alloc);
        let mut seeds = Vec::new(alloc);
        seeds.push(Field128::of(11))?;
        let mut x = Vec::new(alloc);
        for _i in 0..calls {
            x.push(Field128::zero())?;
        }
        if x.len() != c.input_len() || seeds.len() != c.arity() || c.joint_len() != 0 {
            continue;
        }
        let mut best_proof = u128::MAX;
        let mut best_query = u128::MAX;
        for _i in 0..rounds {
            let start = Instant::now(&rt)?;
            let proof = prove(alloc, &c, &x, &seeds, &none)?;
            best_proof = best_proof.min(start.elapsed(&rt)?.as_nanos());
            if proof.len() != proof_len(&c) {
                continue;
            }
            let start = Instant::now(&rt)?;
            let share = query(alloc, &c, Field128::one(), &x, &proof, &none, Field128::of(17));
            best_query = best_query.min(start.elapsed(&rt)?.as_nanos());
            if share.is_err() {
                println!(rt; "no share")?;
            }
        }
        println!(rt; "time {calls} {best_proof} {best_query}")?;
    }
    Ok(())
}
END
    : >"$into/crates/proofs/stdout"
}

measure() {
    (cd "$1/crates/proofs" && rt run) >"$1/log" 2>&1 || { tail -n 20 "$1/log"; exit 1; }
    grep '^time ' "$1/log"
}

prepare "$scratch/now"
printf '%8s %12s %12s\n' calls 'prove, us' 'query, us'
measure "$scratch/now" | awk '{ printf "%8d %12.1f %12.1f\n", $2, $3 / 1000, $4 / 1000 }'
if [ $# -gt 0 ]; then
    prepare "$scratch/before" "$1"
    printf 'at %s:\n' "$1"
    measure "$scratch/before" | awk '{ printf "%8d %12.1f %12.1f\n", $2, $3 / 1000, $4 / 1000 }'
fi
