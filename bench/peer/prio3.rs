//! The peer of the benches: Prio3 with two shares in this project's formats, for
//! count, sum and histogram. Plain Rust, std alone, no proofs.
//!
//!     rustc -O prio3.rs -o prio3
//!     ./prio3 test                known answers, round trips, tampering
//!     ./prio3 bench [N] [ni]      reports per second on one thread
//!     ./prio3 dump KIND M         one report's bytes (count, sum, hist)
//!
//! AES goes by four 1-KiB tables; `ni` takes the CPU's AES instructions.

#[allow(unused_imports)] // the 2015 edition, which plain rustc takes, has it not in its prelude
use std::convert::TryInto;
use std::hint::black_box;
use std::time::Instant;

type Block = [u8; 16];

// ---------------------------------------------------------------- AES-128

const fn xtime(b: u8) -> u8 {
    (b << 1) ^ (if b & 0x80 != 0 { 0x1b } else { 0 })
}

const fn gmul(mut a: u8, mut b: u8) -> u8 {
    let mut r = 0;
    while b != 0 {
        if b & 1 != 0 {
            r ^= a;
        }
        a = xtime(a);
        b >>= 1;
    }
    r
}

const fn make_sbox() -> [u8; 256] {
    let mut s = [0u8; 256];
    let mut i = 0;
    while i < 256 {
        // i^254 is the inverse, and 0 for 0
        let (mut inv, mut sq, mut k) = (1u8, i as u8, 0);
        while k < 7 {
            sq = gmul(sq, sq);
            inv = gmul(inv, sq);
            k += 1;
        }
        s[i] = inv
            ^ inv.rotate_left(1)
            ^ inv.rotate_left(2)
            ^ inv.rotate_left(3)
            ^ inv.rotate_left(4)
            ^ 0x63;
        i += 1;
    }
    s
}

const fn make_te(rot: u32) -> [u32; 256] {
    let mut t = [0u32; 256];
    let s = make_sbox();
    let mut i = 0;
    while i < 256 {
        let b = s[i];
        let w = u32::from_be_bytes([gmul(b, 2), b, b, gmul(b, 3)]);
        t[i] = w.rotate_right(rot);
        i += 1;
    }
    t
}

static SBOX: [u8; 256] = make_sbox();
static TE0: [u32; 256] = make_te(0);
static TE1: [u32; 256] = make_te(8);
static TE2: [u32; 256] = make_te(16);
static TE3: [u32; 256] = make_te(24);

trait Cipher {
    fn new(key: &Block) -> Self;
    fn encrypt(&self, block: &Block) -> Block;
}

struct TableAes {
    words: [u32; 44],
}

fn schedule(key: &Block) -> [u32; 44] {
    let sub = |w: u32| u32::from_be_bytes(w.to_be_bytes().map(|b| SBOX[b as usize]));
    let mut w = [0u32; 44];
    for i in 0..4 {
        w[i] = u32::from_be_bytes(key[4 * i..4 * i + 4].try_into().unwrap());
    }
    let mut rcon = 1u8;
    for i in 4..44 {
        let mut t = w[i - 1];
        if i % 4 == 0 {
            t = sub(t.rotate_left(8)) ^ ((rcon as u32) << 24);
            rcon = xtime(rcon);
        }
        w[i] = w[i - 4] ^ t;
    }
    w
}

impl Cipher for TableAes {
    fn new(key: &Block) -> Self {
        TableAes { words: schedule(key) }
    }

    fn encrypt(&self, block: &Block) -> Block {
        let w = &self.words;
        let mut s = [0u32; 4];
        for c in 0..4 {
            s[c] = u32::from_be_bytes(block[4 * c..4 * c + 4].try_into().unwrap()) ^ w[c];
        }
        for round in 1..10 {
            let mut t = [0u32; 4];
            for c in 0..4 {
                t[c] = TE0[(s[c] >> 24) as usize]
                    ^ TE1[(s[(c + 1) % 4] >> 16) as u8 as usize]
                    ^ TE2[(s[(c + 2) % 4] >> 8) as u8 as usize]
                    ^ TE3[s[(c + 3) % 4] as u8 as usize]
                    ^ w[4 * round + c];
            }
            s = t;
        }
        let mut out = [0u8; 16];
        for c in 0..4 {
            let t = u32::from_be_bytes([
                SBOX[(s[c] >> 24) as usize],
                SBOX[(s[(c + 1) % 4] >> 16) as u8 as usize],
                SBOX[(s[(c + 2) % 4] >> 8) as u8 as usize],
                SBOX[s[(c + 3) % 4] as u8 as usize],
            ]) ^ w[40 + c];
            out[4 * c..4 * c + 4].copy_from_slice(&t.to_be_bytes());
        }
        out
    }
}

#[cfg(target_arch = "x86_64")]
mod ni {
    use super::{schedule, Block, Cipher};
    use std::arch::x86_64::*;

    pub struct NiAes {
        keys: [__m128i; 11],
    }

    #[target_feature(enable = "aes,sse2")]
    unsafe fn enc(keys: &[__m128i; 11], block: &Block) -> Block {
        let mut s = _mm_xor_si128(_mm_loadu_si128(block.as_ptr() as *const __m128i), keys[0]);
        for k in &keys[1..10] {
            s = _mm_aesenc_si128(s, *k);
        }
        s = _mm_aesenclast_si128(s, keys[10]);
        let mut out = [0u8; 16];
        _mm_storeu_si128(out.as_mut_ptr() as *mut __m128i, s);
        out
    }

    impl Cipher for NiAes {
        fn new(key: &Block) -> Self {
            let w = schedule(key);
            let mut bytes = [0u8; 176];
            for i in 0..44 {
                bytes[4 * i..4 * i + 4].copy_from_slice(&w[i].to_be_bytes());
            }
            let mut keys = [unsafe { _mm_setzero_si128() }; 11];
            for (i, k) in keys.iter_mut().enumerate() {
                *k = unsafe { _mm_loadu_si128(bytes[16 * i..].as_ptr() as *const __m128i) };
            }
            NiAes { keys }
        }

        fn encrypt(&self, block: &Block) -> Block {
            // main takes this type only where the CPU has the instructions
            unsafe { enc(&self.keys, block) }
        }
    }
}

// ------------------------------------------------------- CMAC and streams

fn double(b: &Block) -> Block {
    let n = u128::from_be_bytes(*b);
    ((n << 1) ^ (if n >> 127 == 1 { 0x87 } else { 0 })).to_be_bytes()
}

fn xor(a: &Block, b: &Block) -> Block {
    (u128::from_ne_bytes(*a) ^ u128::from_ne_bytes(*b)).to_ne_bytes()
}

/// CMAC of the parts, one behind the other.
fn cmac<C: Cipher>(key: &Block, parts: &[&[u8]]) -> Block {
    let aes = C::new(key);
    let k1 = double(&aes.encrypt(&[0; 16]));
    let mut chain = [0u8; 16];
    let mut held = [0u8; 16];
    let mut n = 0;
    for part in parts {
        let mut rest = *part;
        while !rest.is_empty() {
            if n == 16 {
                chain = aes.encrypt(&xor(&chain, &held));
                n = 0;
            }
            let take = rest.len().min(16 - n);
            held[n..n + take].copy_from_slice(&rest[..take]);
            n += take;
            rest = &rest[take..];
        }
    }
    let last = if n == 16 {
        xor(&held, &k1)
    } else {
        held[n..].fill(0);
        held[n] = 0x80;
        xor(&held, &double(&k1))
    };
    aes.encrypt(&xor(&chain, &last))
}

struct Prg<C> {
    aes: C,
    next: u128,
}

impl<C: Cipher> Prg<C> {
    fn new(seed: &Block, kind: u8, usage: u8, rest: &[&[u8]]) -> Self {
        let head = [kind, usage];
        let mut parts: [&[u8]; 6] = [b"dap prio3", &head, &[], &[], &[], &[]];
        parts[2..2 + rest.len()].copy_from_slice(rest);
        Prg { aes: C::new(&cmac::<C>(seed, &parts)), next: 0 }
    }

    fn block(&mut self) -> Block {
        let b = self.aes.encrypt(&self.next.to_be_bytes());
        self.next += 1;
        b
    }

    /// None where the drawing is spent.
    fn draw<F: Field>(&mut self, n: usize) -> Option<Vec<F>> {
        let mut out = Vec::with_capacity(n);
        let mut skipped = 0;
        while out.len() < n {
            for piece in self.block().chunks_exact(F::BYTES) {
                if out.len() == n {
                    break;
                }
                match F::read(piece) {
                    Some(x) => out.push(x),
                    None => skipped += 1,
                }
                if skipped > 128 {
                    return None;
                }
            }
        }
        Some(out)
    }
}

// ----------------------------------------------------------------- Fields

trait Field: Copy + PartialEq + std::fmt::Debug {
    const BYTES: usize;
    const ORDER_LOG: u32;
    const ZERO: Self;
    const ONE: Self;
    fn generator() -> Self;
    fn half() -> Self;
    fn add(self, o: Self) -> Self;
    fn sub(self, o: Self) -> Self;
    fn mul(self, o: Self) -> Self;
    fn read(b: &[u8]) -> Option<Self>;
    fn put(self, out: &mut Vec<u8>);
    fn value(self) -> u128;

    fn power(self, mut e: u128) -> Self {
        let (mut r, mut b) = (Self::ONE, self);
        while e != 0 {
            if e & 1 == 1 {
                r = r.mul(b);
            }
            b = b.mul(b);
            e >>= 1;
        }
        r
    }

    fn root(log: u32) -> Self {
        let mut g = Self::generator();
        for _ in log..Self::ORDER_LOG {
            g = g.mul(g);
        }
        g
    }
}

#[derive(Clone, Copy, PartialEq, Debug)]
struct F64(u64);
const P64: u64 = 0xffff_ffff_0000_0001;

impl Field for F64 {
    const BYTES: usize = 8;
    const ORDER_LOG: u32 = 32;
    const ZERO: Self = F64(0);
    const ONE: Self = F64(1);
    fn generator() -> Self {
        F64(7).power(4294967295)
    }
    fn half() -> Self {
        F64(P64 / 2 + 1)
    }
    #[inline]
    fn add(self, o: Self) -> Self {
        let (s, carry) = self.0.overflowing_add(o.0);
        F64(if carry || s >= P64 { s.wrapping_sub(P64) } else { s })
    }
    #[inline]
    fn sub(self, o: Self) -> Self {
        let (s, borrow) = self.0.overflowing_sub(o.0);
        F64(if borrow { s.wrapping_add(P64) } else { s })
    }
    #[inline]
    fn mul(self, o: Self) -> Self {
        // 2^64 = 2^32 - 1 and 2^96 = -1
        let t = self.0 as u128 * o.0 as u128;
        let (lo, hi) = (t as u64, (t >> 64) as u64);
        let (mut r, borrow) = lo.overflowing_sub(hi >> 32);
        if borrow {
            r = r.wrapping_sub(0xffff_ffff);
        }
        let (s, carry) = r.overflowing_add((hi & 0xffff_ffff) * 0xffff_ffff);
        let s = if carry { s.wrapping_add(0xffff_ffff) } else { s };
        F64(if s >= P64 { s - P64 } else { s })
    }
    fn read(b: &[u8]) -> Option<Self> {
        let n = u64::from_le_bytes(b.try_into().ok()?);
        (n < P64).then_some(F64(n))
    }
    fn put(self, out: &mut Vec<u8>) {
        out.extend_from_slice(&self.0.to_le_bytes());
    }
    fn value(self) -> u128 {
        self.0 as u128
    }
}

/// Montgomery form with R = 2^128. p = (2^64 - 28) 2^64 + 1, so -1/p modulo
/// 2^64 is -1 and one step of the reduction takes one product.
#[derive(Clone, Copy, PartialEq, Debug)]
struct F128(u128);
const P128: u128 = 340282366920938462946865773367900766209;
const P128_HI: u64 = (P128 >> 64) as u64;
const R1: u128 = (u128::MAX % P128) + 1; // 2^128 mod p, not p itself
const R2: u128 = {
    let (mut r, mut i) = (R1, 0);
    while i < 128 {
        // r doubled modulo p
        r = if r >= P128 - r { r - (P128 - r) } else { r + r };
        i += 1;
    }
    r
};

#[inline]
fn wide(a: u64, b: u64) -> (u64, u64) {
    let t = a as u128 * b as u128;
    (t as u64, (t >> 64) as u64)
}

#[inline]
fn mac(acc: u64, a: u64, b: u64, carry: u64) -> (u64, u64) {
    let t = acc as u128 + a as u128 * b as u128 + carry as u128;
    (t as u64, (t >> 64) as u64)
}

#[inline]
fn mont(a: u128, b: u128) -> u128 {
    let (a0, a1) = (a as u64, (a >> 64) as u64);
    let (b0, b1) = (b as u64, (b >> 64) as u64);
    let (t0, c) = wide(a0, b0);
    let (t1, t2) = mac(0, a1, b0, c);
    // t + m p with m = -t0: the lowest word goes to 0
    let step = |t0: u64, t1: u64, t2: u64| {
        let m = t0.wrapping_neg();
        let c = (t0 != 0) as u64;
        let (u0, c) = mac(t1, m, P128_HI, c);
        let (u1, c) = t2.overflowing_add(c);
        (u0, u1, c as u64)
    };
    let (u0, u1, u2) = step(t0, t1, t2);
    let (t0, c) = mac(u0, a0, b1, 0);
    let (t1, c) = mac(u1, a1, b1, c);
    let t2 = u2 + c;
    // u2 + c stays below 2^64, the value below 2 p
    let (u0, u1, u2) = step(t0, t1, t2);
    let r = (u1 as u128) << 64 | u0 as u128;
    if u2 != 0 || r >= P128 {
        r.wrapping_sub(P128)
    } else {
        r
    }
}

impl Field for F128 {
    const BYTES: usize = 16;
    const ORDER_LOG: u32 = 66;
    const ZERO: Self = F128(0);
    const ONE: Self = F128(R1);
    fn generator() -> Self {
        F128(mont(7, R2)).power(4611686018427387897)
    }
    fn half() -> Self {
        F128(mont(P128 / 2 + 1, R2))
    }
    #[inline]
    fn add(self, o: Self) -> Self {
        let (s, carry) = self.0.overflowing_add(o.0);
        F128(if carry || s >= P128 { s.wrapping_sub(P128) } else { s })
    }
    #[inline]
    fn sub(self, o: Self) -> Self {
        let (s, borrow) = self.0.overflowing_sub(o.0);
        F128(if borrow { s.wrapping_add(P128) } else { s })
    }
    #[inline]
    fn mul(self, o: Self) -> Self {
        F128(mont(self.0, o.0))
    }
    fn read(b: &[u8]) -> Option<Self> {
        let n = u128::from_le_bytes(b.try_into().ok()?);
        (n < P128).then(|| F128(mont(n, R2)))
    }
    fn put(self, out: &mut Vec<u8>) {
        out.extend_from_slice(&self.value().to_le_bytes());
    }
    fn value(self) -> u128 {
        mont(self.0, 1)
    }
}

fn add_vec<F: Field>(a: &[F], b: &[F]) -> Vec<F> {
    a.iter().zip(b).map(|(x, y)| x.add(*y)).collect()
}

fn sub_vec<F: Field>(a: &[F], b: &[F]) -> Vec<F> {
    a.iter().zip(b).map(|(x, y)| x.sub(*y)).collect()
}

fn to_bytes<F: Field>(v: &[F], out: &mut Vec<u8>) {
    for x in v {
        x.put(out);
    }
}

fn from_bytes<F: Field>(b: &[u8]) -> Option<Vec<F>> {
    b.chunks(F::BYTES).map(F::read).collect()
}

// ------------------------------------------------------------ Polynomials

/// Powers of a root for lengths up to 2^log, and what interpolation needs.
struct Ntt<F> {
    powers: Vec<F>,
    halves: Vec<F>,
}

impl<F: Field> Ntt<F> {
    fn new(log: u32) -> Self {
        let w = F::root(log);
        let mut powers = vec![F::ONE];
        for i in 1..1usize << log {
            powers.push(powers[i - 1].mul(w));
        }
        let mut halves = vec![F::ONE];
        for i in 0..log as usize {
            halves.push(halves[i].mul(F::half()));
        }
        Ntt { powers, halves }
    }

    fn transform(&self, v: &mut [F], back: bool) {
        let n = v.len();
        let log = n.trailing_zeros();
        for i in 0..n {
            let j = i.reverse_bits() >> (usize::BITS - log).min(usize::BITS - 1);
            if log > 0 && i < j {
                v.swap(i, j);
            }
        }
        let full = self.powers.len();
        let mut len = 2;
        while len <= n {
            let stride = full / len;
            for part in v.chunks_exact_mut(len) {
                let (lo, hi) = part.split_at_mut(len / 2);
                for (k, (a, b)) in lo.iter_mut().zip(hi).enumerate() {
                    let e = k * stride;
                    let w = self.powers[if back && e > 0 { full - e } else { e }];
                    let t = b.mul(w);
                    *b = a.sub(t);
                    *a = a.add(t);
                }
            }
            len *= 2;
        }
        if back {
            let scale = self.halves[log as usize];
            for x in v {
                *x = x.mul(scale);
            }
        }
    }
}

fn at<F: Field>(poly: &[F], t: F) -> F {
    poly.iter().rev().fold(F::ZERO, |acc, c| acc.mul(t).add(*c))
}

// --------------------------------------------------------------- Circuits

#[derive(Clone, Debug)]
enum Kind {
    Count,
    Sum(usize),
    Hist(Vec<u64>),
}

struct Prio3<F> {
    kind: Kind,
    input: usize,
    arity: usize,
    joint: usize,
    p: usize,
    ntt: Ntt<F>,
}

struct Report {
    public: Vec<u8>,
    leader: Vec<u8>,
    helper: Vec<u8>,
}

struct State<F> {
    out: Vec<F>,
    joint: Option<Block>,
}

impl<F: Field> Prio3<F> {
    fn new(kind: Kind) -> Self {
        let (input, arity, joint) = match &kind {
            Kind::Count => (1, 2, 0),
            Kind::Sum(bits) => (*bits, 1, 1),
            Kind::Hist(bounds) => (bounds.len() + 1, 1, 2),
        };
        let p = (input + 1).next_power_of_two();
        let ntt = Ntt::new(p.trailing_zeros() + 1);
        Prio3 { kind, input, arity, joint, p, ntt }
    }

    fn byte(&self) -> u8 {
        match self.kind {
            Kind::Count => 0,
            Kind::Sum(_) => 1,
            Kind::Hist(_) => 2,
        }
    }

    fn proof_len(&self) -> usize {
        self.arity + 2 * self.p - 1
    }

    fn encode(&self, m: u64) -> Option<Vec<F>> {
        let bit = |b: bool| if b { F::ONE } else { F::ZERO };
        match &self.kind {
            Kind::Count => (m < 2).then(|| vec![bit(m == 1)]),
            Kind::Sum(bits) => (*bits >= 64 || m >> bits == 0)
                .then(|| (0..*bits).map(|i| bit(i < 64 && m >> i & 1 == 1)).collect()),
            Kind::Hist(bounds) => {
                let bucket = bounds.iter().position(|b| m <= *b).unwrap_or(bounds.len());
                Some((0..self.input).map(|i| bit(i == bucket)).collect())
            }
        }
    }

    fn gadget(&self, w: &[F]) -> F {
        match self.kind {
            Kind::Count => w[0].mul(w[1]),
            _ => w[0].mul(w[0]).sub(w[0]),
        }
    }

    /// `g` is the results of the calls, from 1.
    fn validity(&self, x: &[F], r: &[F], g: &[F], one: F) -> F {
        if let Kind::Count = self.kind {
            return g[0].sub(x[0]);
        }
        let (mut power, mut a) = (r[0], F::ZERO);
        for v in g {
            a = a.add(power.mul(*v));
            power = power.mul(r[0]);
        }
        if self.joint == 1 {
            return a;
        }
        let b = x.iter().fold(F::ZERO, |s, v| s.add(*v)).sub(one);
        r[1].mul(a).add(r[1].mul(r[1]).mul(b))
    }

    fn out(&self, x: &[F]) -> Vec<F> {
        match self.kind {
            Kind::Sum(_) => vec![x.iter().rev().fold(F::ZERO, |s, v| s.add(s).add(*v))],
            _ => x.to_vec(),
        }
    }

    /// The wire polynomials' coefficients.
    fn wires(&self, x: &[F], seeds: &[F]) -> Vec<Vec<F>> {
        seeds
            .iter()
            .map(|seed| {
                let mut w = vec![F::ZERO; self.p];
                w[0] = *seed;
                w[1..=self.input].copy_from_slice(x);
                self.ntt.transform(&mut w, true);
                w
            })
            .collect()
    }

    fn prove(&self, x: &[F], seeds: Vec<F>) -> Vec<F> {
        let mut wires = self.wires(x, &seeds);
        for w in &mut wires {
            w.resize(2 * self.p, F::ZERO);
            self.ntt.transform(w, false);
        }
        let mut args = vec![F::ZERO; self.arity];
        let mut g: Vec<F> = (0..2 * self.p)
            .map(|i| {
                for (a, w) in args.iter_mut().zip(&wires) {
                    *a = w[i];
                }
                self.gadget(&args)
            })
            .collect();
        self.ntt.transform(&mut g, true);
        let mut proof = seeds;
        proof.extend_from_slice(&g[..2 * self.p - 1]);
        proof
    }

    fn query(&self, x: &[F], proof: &[F], r: &[F], t: F, one: F) -> Option<Vec<F>> {
        let mut tp = t;
        for _ in 0..self.p.trailing_zeros() {
            tp = tp.mul(tp);
        }
        if tp == F::ONE {
            return None;
        }
        let (seeds, poly) = proof.split_at(self.arity);
        // at the roots of order P, x^P is 1
        let mut g = poly[..self.p].to_vec();
        for (a, b) in g.iter_mut().zip(&poly[self.p..]) {
            *a = a.add(*b);
        }
        self.ntt.transform(&mut g, false);
        let mut verifier = vec![self.validity(x, r, &g[1..=self.input], one)];
        verifier.extend(self.wires(x, seeds).iter().map(|w| at(w, t)));
        verifier.push(at(poly, t));
        Some(verifier)
    }

    fn decide(&self, v: &[F]) -> bool {
        v[0] == F::ZERO && self.gadget(&v[1..=self.arity]) == v[self.arity + 1]
    }

    // ----------------------------------------------------------- Prio3

    fn part<C: Cipher>(&self, blind: &Block, role: u8, id: &Block, x: &[u8]) -> Block {
        Prg::<C>::new(blind, self.byte(), 2, &[&[role], id, x]).block()
    }

    fn joint_seed<C: Cipher>(&self, parts: &[u8]) -> Block {
        Prg::<C>::new(&[0; 16], self.byte(), 3, &[parts]).block()
    }

    fn joint_rand<C: Cipher>(&self, seed: &Block) -> Option<Vec<F>> {
        Prg::<C>::new(seed, self.byte(), 4, &[]).draw(self.joint)
    }

    fn shard<C: Cipher>(&self, m: u64, id: &Block, seed: &Block) -> Option<Report> {
        let kind = self.byte();
        let mut keys = Prg::<C>::new(seed, kind, 0, &[]);
        let [k_meas, k_proof, k_prove, blind_l, blind_h] = [(); 5].map(|_| keys.block());
        let x = self.encode(m)?;
        let x_h = Prg::<C>::new(&k_meas, kind, 1, &[]).draw(self.input)?;
        let x_l = sub_vec(&x, &x_h);
        let mut leader = Vec::with_capacity((self.input + self.proof_len()) * F::BYTES + 16);
        to_bytes(&x_l, &mut leader);
        let mut public = Vec::new();
        if self.joint > 0 {
            let mut bytes_h = Vec::with_capacity(self.input * F::BYTES);
            to_bytes(&x_h, &mut bytes_h);
            public.extend_from_slice(&self.part::<C>(&blind_l, 0, id, &leader));
            public.extend_from_slice(&self.part::<C>(&blind_h, 1, id, &bytes_h));
            // the proof itself takes no joint randomness in these circuits,
            // but a spent drawing leaves sharding without a value
            self.joint_rand::<C>(&self.joint_seed::<C>(&public))?;
        }
        let seeds = Prg::<C>::new(&k_prove, kind, 5, &[]).draw(self.arity)?;
        let proof = self.prove(&x, seeds);
        let proof_h = Prg::<C>::new(&k_proof, kind, 6, &[]).draw(self.proof_len())?;
        to_bytes(&sub_vec(&proof, &proof_h), &mut leader);
        let mut helper = [k_meas, k_proof].concat();
        if self.joint > 0 {
            leader.extend_from_slice(&blind_l);
            helper.extend_from_slice(&blind_h);
        }
        Some(Report { public, leader, helper })
    }

    /// The state and the prep share. `role` is 0 for the leader.
    fn init<C: Cipher>(
        &self,
        verify: &Block,
        role: u8,
        id: &Block,
        public: &[u8],
        share: &[u8],
    ) -> Option<(State<F>, Vec<u8>)> {
        let kind = self.byte();
        let blind_len = if self.joint > 0 { 16 } else { 0 };
        if public.len() != 2 * blind_len {
            return None;
        }
        let cut = share.len().checked_sub(blind_len)?;
        let (body, blind) = share.split_at(cut);
        let (x, proof): (Vec<F>, Vec<F>);
        let drawn;
        let x_bytes: &[u8];
        if role == 0 {
            if cut != (self.input + self.proof_len()) * F::BYTES {
                return None;
            }
            let (a, b) = body.split_at(self.input * F::BYTES);
            (x, proof) = (from_bytes(a)?, from_bytes(b)?);
            x_bytes = a;
        } else {
            if cut != 32 {
                return None;
            }
            let k_meas: Block = body[..16].try_into().unwrap();
            let k_proof: Block = body[16..].try_into().unwrap();
            x = Prg::<C>::new(&k_meas, kind, 1, &[]).draw(self.input)?;
            proof = Prg::<C>::new(&k_proof, kind, 6, &[]).draw(self.proof_len())?;
            let mut b = Vec::with_capacity(self.input * F::BYTES);
            if self.joint > 0 {
                to_bytes(&x, &mut b);
            }
            drawn = b;
            x_bytes = &drawn;
        }
        let t = Prg::<C>::new(verify, kind, 7, &[id]).draw::<F>(1)?[0];
        let (mut r, mut joint, mut own) = (Vec::new(), None, None);
        if self.joint > 0 {
            let mine = self.part::<C>(blind.try_into().unwrap(), role, id, x_bytes);
            let mut parts: [u8; 32] = public.try_into().unwrap();
            parts[16 * role as usize..][..16].copy_from_slice(&mine);
            let seed = self.joint_seed::<C>(&parts);
            r = self.joint_rand::<C>(&seed)?;
            joint = Some(seed);
            own = Some(mine);
        }
        let verifier = self.query(&x, &proof, &r, t, F::half())?;
        let mut prep = Vec::with_capacity(verifier.len() * F::BYTES + 16);
        to_bytes(&verifier, &mut prep);
        if let Some(p) = own {
            prep.extend_from_slice(&p);
        }
        Some((State { out: self.out(&x), joint }, prep))
    }

    fn combine<C: Cipher>(&self, leader: &[u8], helper: &[u8]) -> Option<Vec<u8>> {
        let cut = (self.arity + 2) * F::BYTES;
        let len = cut + if self.joint > 0 { 16 } else { 0 };
        if leader.len() != len || helper.len() != len {
            return None;
        }
        let sum = add_vec::<F>(&from_bytes(&leader[..cut])?, &from_bytes(&helper[..cut])?);
        if !self.decide(&sum) {
            return None;
        }
        if self.joint == 0 {
            return Some(Vec::new());
        }
        let parts = [&leader[cut..], &helper[cut..]].concat();
        Some(self.joint_seed::<C>(&parts).to_vec())
    }

    fn finish(&self, state: State<F>, message: &[u8]) -> Option<Vec<F>> {
        let want: &[u8] = state.joint.as_ref().map_or(&[], |s| s);
        (want == message).then_some(state.out)
    }

    /// Both nodes' work on one report: the sum of the two out shares.
    fn prepare<C: Cipher>(&self, verify: &Block, id: &Block, rep: &Report) -> Option<Vec<F>> {
        let (st_h, prep_h) = self.init::<C>(verify, 1, id, &rep.public, &rep.helper)?;
        let (st_l, prep_l) = self.init::<C>(verify, 0, id, &rep.public, &rep.leader)?;
        let message = self.combine::<C>(&prep_l, &prep_h)?;
        Some(add_vec(&self.finish(st_l, &message)?, &self.finish(st_h, &message)?))
    }
}

// ----------------------------------------------------------- The program

const VERIFY: Block = [7; 16];

fn id_of(i: u64) -> Block {
    ((i as u128) << 64 | (i as u128 * 0x9e37_79b9_7f4a_7c15)).to_be_bytes()
}

fn bench<F: Field, C: Cipher>(name: &str, kind: Kind, n: u64) {
    let vdaf = Prio3::<F>::new(kind.clone());
    let measure = |i: u64| match kind {
        Kind::Count => i & 1,
        Kind::Sum(_) => i * i % 65536,
        Kind::Hist(_) => i % 40,
    };
    // each phase's best of five rounds: other work on the machine only slows
    let mut best = [f64::MAX; 4];
    let mut worst = 0f64;
    let mut total = Vec::new();
    for _ in 0..5 {
        let begin = Instant::now();
        let reports: Vec<Report> = (0..n)
            .map(|i| vdaf.shard::<C>(measure(i), &id_of(i), &(i as u128).to_be_bytes()).unwrap())
            .collect();
        let shard = begin.elapsed().as_secs_f64();

        let begin = Instant::now();
        total = vdaf.out(&vec![F::ZERO; vdaf.input]);
        for (i, rep) in reports.iter().enumerate() {
            let out = vdaf.prepare::<C>(&VERIFY, &id_of(i as u64), rep).unwrap();
            total = add_vec(&total, &out);
        }
        let prepare = begin.elapsed().as_secs_f64();

        let begin = Instant::now();
        for (i, rep) in reports.iter().enumerate() {
            black_box(vdaf.init::<C>(&VERIFY, 0, &id_of(i as u64), &rep.public, &rep.leader));
        }
        let leader = begin.elapsed().as_secs_f64();

        let begin = Instant::now();
        for (i, rep) in reports.iter().enumerate() {
            black_box(vdaf.init::<C>(&VERIFY, 1, &id_of(i as u64), &rep.public, &rep.helper));
        }
        let helper = begin.elapsed().as_secs_f64();
        for (b, t) in best.iter_mut().zip([shard, leader, helper, prepare].iter()) {
            *b = b.min(*t);
        }
        worst = worst.max(shard + prepare);
    }
    let [shard, leader, helper, prepare] = best;

    let want: Vec<u128> = match &kind {
        Kind::Hist(bounds) => {
            let mut v = vec![0; bounds.len() + 1];
            for i in 0..n {
                let m = measure(i);
                v[bounds.iter().position(|b| m <= *b).unwrap_or(bounds.len())] += 1;
            }
            v
        }
        _ => vec![(0..n).map(|i| measure(i) as u128).sum()],
    };
    let got: Vec<u128> = total.iter().map(|x| x.value()).collect();
    assert_eq!(got, want);
    let rate = |s: f64| (n as f64 / s) as u64;
    println!(
        "{name:10} shard {:7}/s  init leader {:7}/s  init helper {:7}/s  prepare both {:7}/s  all {:7}/s  worst round {:7}/s",
        rate(shard),
        rate(leader),
        rate(helper),
        rate(prepare),
        rate(shard + prepare),
        rate(worst)
    );
}

fn bench_all<C: Cipher>(n: u64) {
    let begin = Instant::now();
    let aes = C::new(&[1; 16]);
    let mut b = [0; 16];
    for _ in 0..1_000_000 {
        b = aes.encrypt(&b);
    }
    black_box(b);
    println!("aes chained blocks {:.1} ns", begin.elapsed().as_secs_f64() * 1e3);
    let begin = Instant::now();
    let mut x = F128(mont(12345678901234567890, R2));
    for _ in 0..10_000_000 {
        x = x.mul(x);
    }
    black_box(x);
    println!("field128 chained products {:.2} ns", begin.elapsed().as_secs_f64() * 1e2);
    let begin = Instant::now();
    let mut x = F64(1234567890123456789);
    for _ in 0..10_000_000 {
        x = x.mul(x);
    }
    black_box(x);
    println!("field64 chained products {:.2} ns", begin.elapsed().as_secs_f64() * 1e2);
    bench::<F64, C>("count", Kind::Count, n);
    bench::<F128, C>("sum16", Kind::Sum(16), n);
    bench::<F128, C>("histogram4", Kind::Hist(vec![10, 20, 30]), n);
}

/// The keys of a sealed half: encryption, tag.
const KEYS: [[Block; 2]; 2] = [[[1; 16], [2; 16]], [[3; 16], [4; 16]]];

/// The text whose tag seals a half, and the stream that hides it.
fn seal_parts<C: Cipher>(role: u8, id: &Block, bytes: &mut [u8]) {
    let mut aes = Prg::<C> {
        aes: C::new(&cmac::<C>(&KEYS[role as usize][0], &[b"dap seal", &[role], id])),
        next: 0,
    };
    for piece in bytes.chunks_mut(16) {
        let block = aes.block();
        for (b, k) in piece.iter_mut().zip(block) {
            *b ^= k;
        }
    }
}

fn tag_of<C: Cipher>(role: u8, id: &Block, time: u64, public: &[u8], hidden: &[u8]) -> Block {
    let len = (public.len() as u32).to_be_bytes();
    cmac::<C>(&KEYS[role as usize][1], &[&[role], b"\x04load", id, &time.to_be_bytes(), &len, public, hidden])
}

fn seal<C: Cipher>(role: u8, id: &Block, time: u64, public: &[u8], plain: &[u8]) -> Vec<u8> {
    let mut sealed = plain.to_vec();
    seal_parts::<C>(role, id, &mut sealed);
    let tag = tag_of::<C>(role, id, time, public, &sealed);
    sealed.extend_from_slice(&tag);
    sealed
}

fn open<C: Cipher>(role: u8, id: &Block, time: u64, public: &[u8], sealed: &[u8]) -> Option<Vec<u8>> {
    let (hidden, tag) = sealed.split_at(sealed.len().checked_sub(16)?);
    if tag_of::<C>(role, id, time, public, hidden) != tag {
        return None;
    }
    let mut plain = hidden.to_vec();
    seal_parts::<C>(role, id, &mut plain);
    Some(plain)
}

/// The work of a whole report, once: shard, seal both halves, spell the report, cut it up again, open both halves, prepare
/// both, add both out shares to their sums.
fn whole<F: Field, C: Cipher>(name: &str, kind: Kind, n: u64) {
    let vdaf = Prio3::<F>::new(kind.clone());
    let measure = |i: u64| match kind {
        Kind::Count => i % 2,
        Kind::Sum(_) => (i * i + 1) % 65536,
        Kind::Hist(_) => i % 40,
    };
    let begin = Instant::now();
    let mut total = vdaf.out(&vec![F::ZERO; vdaf.input]);
    for i in 0..n {
        let (id, time) = (id_of(i), i % 7200);
        let plain = vdaf.shard::<C>(measure(i), &id, &(i as u128 + (1 << 64)).to_be_bytes()).unwrap();
        let halves = [
            seal::<C>(0, &id, time, &plain.public, &plain.leader),
            seal::<C>(1, &id, time, &plain.public, &plain.helper),
        ];
        let mut bytes = Vec::new();
        for part in [&plain.public, &halves[0], &halves[1]] {
            bytes.extend_from_slice(&(part.len() as u32).to_be_bytes());
            bytes.extend_from_slice(part);
        }
        let mut rest = black_box(&bytes[..]);
        let mut next = || {
            let len = u32::from_be_bytes(rest[..4].try_into().unwrap()) as usize;
            let part = &rest[4..4 + len];
            rest = &rest[4 + len..];
            part
        };
        let public = next().to_vec();
        let leader = open::<C>(0, &id, time, &public, next()).unwrap();
        let helper = open::<C>(1, &id, time, &public, next()).unwrap();
        let out = vdaf.prepare::<C>(&VERIFY, &id, &Report { public, leader, helper }).unwrap();
        total = add_vec(&total, &out);
    }
    let spent = begin.elapsed().as_secs_f64();
    println!("{name:10} whole {:7}/s  {:?}", (n as f64 / spent) as u64, total.iter().map(|x| x.value()).collect::<Vec<_>>());
}

fn hex(b: &[u8]) -> String {
    b.iter().map(|x| format!("{x:02x}")).collect()
}

fn unhex(s: &str) -> Vec<u8> {
    (0..s.len() / 2).map(|i| u8::from_str_radix(&s[2 * i..2 * i + 2], 16).unwrap()).collect()
}

fn dump<F: Field>(kind: Kind, m: u64) {
    type C = TableAes;
    let vdaf = Prio3::<F>::new(kind);
    let (id, seed) = (id_of(3), 5u128.to_be_bytes());
    let rep = vdaf.shard::<C>(m, &id, &seed).expect("no value");
    println!("public {}", hex(&rep.public));
    println!("leader {}", hex(&rep.leader));
    println!("helper {}", hex(&rep.helper));
    let (sl, pl) = vdaf.init::<C>(&VERIFY, 0, &id, &rep.public, &rep.leader).unwrap();
    let (sh, ph) = vdaf.init::<C>(&VERIFY, 1, &id, &rep.public, &rep.helper).unwrap();
    println!("prep leader {}", hex(&pl));
    println!("prep helper {}", hex(&ph));
    let message = vdaf.combine::<C>(&pl, &ph).unwrap();
    println!("message {}", hex(&message));
    let out = add_vec(&vdaf.finish(sl, &message).unwrap(), &vdaf.finish(sh, &message).unwrap());
    println!("out {:?}", out.iter().map(|x| x.value()).collect::<Vec<_>>());
}

fn test_kind<F: Field, C: Cipher>(kind: Kind, values: &[u64], bad: &[u64]) {
    let vdaf = Prio3::<F>::new(kind);
    for m in bad {
        assert!(vdaf.shard::<C>(*m, &id_of(1), &[1; 16]).is_none());
    }
    for (i, m) in values.iter().enumerate() {
        let (id, seed) = (id_of(i as u64), [i as u8; 16]);
        let rep = vdaf.shard::<C>(*m, &id, &seed).unwrap();
        let out = vdaf.prepare::<C>(&VERIFY, &id, &rep).unwrap();
        assert_eq!(out, vdaf.out(&vdaf.encode(*m).unwrap()));
        assert!(vdaf.joint == 0 || vdaf.prepare::<C>(&VERIFY, &id_of(99), &rep).is_none());
        // each flipped bit of a share is noticed
        for part in 0..3 {
            let len = [&rep.public, &rep.leader, &rep.helper][part].len();
            for at in 0..len {
                let mut bad = Report {
                    public: rep.public.clone(),
                    leader: rep.leader.clone(),
                    helper: rep.helper.clone(),
                };
                [&mut bad.public, &mut bad.leader, &mut bad.helper][part][at] ^= 1;
                assert!(vdaf.prepare::<C>(&VERIFY, &id, &bad).is_none());
            }
        }
        let mut short = rep;
        short.leader.pop();
        assert!(vdaf.prepare::<C>(&VERIFY, &id, &short).is_none());
    }
}

fn test<C: Cipher>() {
    let b = |s: &str| -> Block { unhex(s).try_into().unwrap() };
    // FIPS 197, C.1
    let aes = C::new(&b("000102030405060708090a0b0c0d0e0f"));
    let block = aes.encrypt(&b("00112233445566778899aabbccddeeff"));
    assert_eq!(hex(&block), "69c4e0d86a7b0430d8cdb78070b4c55a");
    // RFC 4493
    let key = b("2b7e151628aed2a6abf7158809cf4f3c");
    let text = unhex(
        "6bc1bee22e409f96e93d7e117393172aae2d8a571e03ac9c9eb76fac45af8e51\
         30c81c46a35ce411e5fbc1191a0a52eff69f2445df4f9b17ad2b417be66c3710",
    );
    for (len, tag) in [
        (0, "bb1d6929e95937287fa37d129b756746"),
        (16, "070a16b46b4d4144f79bdd9dd04a287c"),
        (40, "dfa66747de9ae63030ca32611497c827"),
        (64, "51f0bebf7e3b9d92fc49741779363cfe"),
    ] {
        assert_eq!(hex(&cmac::<C>(&key, &[&text[..len]])), tag);
        assert_eq!(hex(&cmac::<C>(&key, &[&text[..len / 3], &text[len / 3..len]])), tag);
    }
    // the generators' orders, and half
    assert_eq!(F64::generator().power(1 << 31).value(), P64 as u128 - 1);
    assert_eq!(F128::generator().power(1 << 65).value(), P128 - 1);
    assert_eq!(F64::half().add(F64::half()), F64::ONE);
    assert_eq!(F128::half().add(F128::half()), F128::ONE);
    test_kind::<F64, C>(Kind::Count, &[0, 1], &[2, u64::MAX]);
    test_kind::<F128, C>(Kind::Sum(16), &[0, 1, 65535, 4660], &[65536]);
    test_kind::<F128, C>(Kind::Sum(1), &[0, 1], &[2]);
    test_kind::<F128, C>(Kind::Sum(64), &[u64::MAX], &[]);
    test_kind::<F128, C>(Kind::Hist(vec![10, 20, 30]), &[0, 10, 11, 30, 31, u64::MAX], &[]);
}

#[cfg(target_arch = "x86_64")]
fn with_ni() -> bool {
    is_x86_feature_detected!("aes")
}

fn main() {
    let args: Vec<String> = std::env::args().collect();
    let arg = |i: usize| args.get(i).map_or("", |s| s.as_str());
    match arg(1) {
        "test" => {
            test::<TableAes>();
            #[cfg(target_arch = "x86_64")]
            if with_ni() {
                test::<ni::NiAes>();
            }
            println!("ok");
        }
        "bench" => {
            let n = arg(2).parse().unwrap_or(20000);
            #[cfg(target_arch = "x86_64")]
            if arg(3) == "ni" && with_ni() {
                return bench_all::<ni::NiAes>(n);
            }
            bench_all::<TableAes>(n);
        }
        "whole" => {
            let n = arg(3).parse().unwrap_or(1000);
            match arg(2) {
                "count" => whole::<F64, TableAes>("count", Kind::Count, n),
                "sum" => whole::<F128, TableAes>("sum16", Kind::Sum(16), n),
                _ => whole::<F128, TableAes>("histogram4", Kind::Hist(vec![10, 20, 30]), n),
            }
        }
        "dump" => {
            let m = arg(3).parse().unwrap_or(1);
            match arg(2) {
                "count" => dump::<F64>(Kind::Count, m),
                "sum" => dump::<F128>(Kind::Sum(16), m),
                _ => dump::<F128>(Kind::Hist(vec![10, 20, 30]), m),
            }
        }
        _ => eprintln!("test | bench [N] [ni] | whole KIND N | dump KIND M"),
    }
}
