#!/usr/bin/env bash
# Times products of the two fields, by form and by doubling, beside plain Rust, in one sitting.
#   bench/products.sh
# The plain program is bench/peer/prio3.rs, whose fields are F64 and F128. The script writes a program in
# each language into a scratch folder, runs both, and prints nanoseconds per product. It asserts no time; it fails only
# where the two languages disagree on the last product of a chain. Needs rt and rustc.
set -eu
top=$(cd "$(dirname "$0")/.." && pwd)
scratch=$(mktemp -d)
trap 'rm -rf "$scratch"' EXIT

mkdir -p "$scratch/rattle/crates/products/src"
cp "$top/HANDLES" "$scratch/rattle/"
for crate in field_laws field64 field128; do
  mkdir "$scratch/rattle/crates/$crate"
  for part in src specs proofs; do
    cp -r "$top/crates/$crate/$part" "$scratch/rattle/crates/$crate/"
  done
done
cat > "$scratch/rattle/crates.txt" <<'TEXT'
field_laws:
field64: field_laws
field128: field_laws
products: field_laws field64 field128
TEXT
cat > "$scratch/rattle/crates/products/src/main.rt" <<'TEXT'
//! Chains of products in both fields, with the time of each.
#![tactic(auto)]

use field_laws::{Field, multiply_by_doubling};
use field64::Field64;
use field128::Field128;
use std::io;
use std::time::Instant;

const START: u128 = 0x0123_4567_89ab_cdef_0fed_cba9_8765_4321;

const FACTOR: u128 = 0xdead_beef_cafe_f00d_1357_9bdf_0246_8ace;

fn chain<F: Field>(count: u32) -> u128 {
    let factor = F::of(FACTOR);
    let mut x = F::of(START);
    for _ in 0..count {
        x = x.mul(factor);
    }
    x.value()
}

fn chain_by_doubling<F: Field>(count: u32) -> u128 {
    let factor = F::of(FACTOR);
    let mut x = F::of(START);
    for _ in 0..count {
        x = multiply_by_doubling(x, factor);
    }
    x.value()
}

fn main(rt: HostRuntime) -> io::Result<()> {
    let start = Instant::now(&rt)?;
    let last = chain::<Field64>(100_000_000);
    println!(rt; "Field64 form 100000000 {} {last}", start.elapsed(&rt)?.as_nanos())?;
    let start = Instant::now(&rt)?;
    let last = chain::<Field128>(100_000_000);
    println!(rt; "Field128 form 100000000 {} {last}", start.elapsed(&rt)?.as_nanos())?;
    let start = Instant::now(&rt)?;
    let last = chain_by_doubling::<Field64>(5_000_000);
    println!(rt; "Field64 doubling 5000000 {} {last}", start.elapsed(&rt)?.as_nanos())?;
    let start = Instant::now(&rt)?;
    let last = chain_by_doubling::<Field128>(5_000_000);
    println!(rt; "Field128 doubling 5000000 {} {last}", start.elapsed(&rt)?.as_nanos())
}
TEXT
: > "$scratch/rattle/crates/products/stdout"

sed 's/^fn main()/fn peer_main()/' "$top/bench/peer/prio3.rs" > "$scratch/products.rs"
cat >> "$scratch/products.rs" <<'TEXT'

/// The element of a number below p.
fn of<F: Field>(n: u128) -> F {
    F::read(&std::hint::black_box(n).to_le_bytes()[..F::BYTES]).unwrap()
}

/// The product by doubling and adding, the factor as a number.
fn doubling<F: Field>(a: F, b: u128) -> F {
    let (mut product, mut addend, mut rest) = (F::ZERO, a, b);
    while rest > 0 {
        if rest % 2 == 1 {
            product = product.add(addend);
        }
        addend = addend.add(addend);
        rest /= 2;
    }
    product
}

fn chain<F: Field>(name: &str, how: &str, p: u128, count: u32, step: impl Fn(F, F, u128) -> F) {
    let number = 0xdead_beef_cafe_f00d_1357_9bdf_0246_8ace % p;
    let factor = of::<F>(number);
    let start = std::time::Instant::now();
    let mut x = of::<F>(0x0123_4567_89ab_cdef_0fed_cba9_8765_4321 % p);
    for _ in 0..count {
        x = step(x, factor, number);
    }
    let last = x.value();
    println!("{name} {how} {count} {} {last}", start.elapsed().as_nanos());
}

fn main() {
    let p = P64 as u128;
    chain::<F64>("Field64", "form", p, 100_000_000, |x, f, _| x.mul(f));
    chain::<F128>("Field128", "form", P128, 100_000_000, |x, f, _| x.mul(f));
    chain::<F64>("Field64", "doubling", p, 5_000_000, |x, _, n| doubling(x, n));
    chain::<F128>("Field128", "doubling", P128, 5_000_000, |x, _, n| doubling(x, n));
}
TEXT
rustc -O -A warnings -o "$scratch/products" "$scratch/products.rs"

(cd "$scratch/rattle/crates/products" && rt run) > "$scratch/log" 2>&1 || { tail -n 20 "$scratch/log"; exit 1; }
grep -E '^Field(64|128) ' "$scratch/log" > "$scratch/ours"
"$scratch/products" > "$scratch/rust"

printf '%-9s %-9s %10s %10s\n' field product 'Rattle, ns' 'Rust, ns'
paste -d ' ' "$scratch/ours" "$scratch/rust" | awk '
  $5 != $10 { print "the last products differ: " $0; wrong = 1 }
  { printf "%-9s %-9s %10.1f %10.1f\n", $1, $2, $4 / $3, $9 / $8 }
  END { exit wrong }'
