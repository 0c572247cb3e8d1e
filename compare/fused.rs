//! The fused multiply-add against `f64::mul_add`.
//!
//! Expected bits come from `f64::mul_add` with the processor's own instruction: the program refuses to run without
//! it. A NaN equals every NaN; all else is compared bit for bit.

use crate::random::Random;
use crate::rows::{least, print_time, same_bits, Count};
use crate::trials;
use std::hint::black_box;
use tezvorup::raw::spline_mul_add;

type Triple = (f64, f64, f64);

impl Random {
    fn sign(&mut self) -> f64 {
        if self.below(2) == 0 {
            1.0
        } else {
            -1.0
        }
    }
    /// ± a significand times 2^e, subnormal or zero or infinite where e is out of range. Half of the
    /// significands end in zeros, so that sums meet ties and cancel exactly.
    fn at(&mut self, e: i64) -> f64 {
        let digits = self.bits() & !0 >> 12;
        let cut = if self.below(2) == 0 { 0 } else { self.below(53) };
        let m = 1u64 << 52 | digits >> cut << cut;
        self.sign() * scaled(m as f64, e - 52)
    }
    fn pattern(&mut self) -> f64 {
        f64::from_bits(self.bits())
    }
}

/// x * 2^e, where x is a whole number below 2^53. Only the last factor can round.
fn scaled(x: f64, e: i64) -> f64 {
    let first = e.clamp(-900, 900);
    let rest = e - first;
    assert!(rest.abs() <= 1000);
    x * power(first) * power(rest)
}

fn power(e: i64) -> f64 {
    f64::from_bits(((1023 + e) as u64) << 52)
}

fn specials() -> Vec<f64> {
    let tiny = f64::from_bits(1);
    let subnormal = f64::from_bits((1 << 52) - 1);
    let one_up = 1.0 + f64::EPSILON;
    let one_down = 1.0 - f64::EPSILON / 2.0;
    let mut all = vec![f64::NAN, f64::INFINITY, f64::NEG_INFINITY];
    for x in [0.0, tiny, subnormal, f64::MIN_POSITIVE, 0.5, one_down, 1.0, one_up, 3.0, power(-537), power(511), f64::MAX / 2.0, f64::MAX] {
        all.push(x);
        all.push(-x);
    }
    all.push(power(-1022) * 1.5);
    all
}

const FAMILIES: [&str; 8] =
    ["query", "ties", "cancellation", "subnormal results", "subnormal operands", "near overflow", "exponent gaps", "random patterns"];

/// The nth triple of a family.
fn triple(family: usize, n: u64, random: &mut Random) -> Triple {
    match FAMILIES[family] {
        "query" => {
            let e = random.between(-30, 29);
            query(random, e)
        }
        // c * 2^0 and half a unit of its last place, or next to half
        "ties" => {
            let e = random.between(-1000, 900);
            let c = random.at(e);
            let odd = (2 * random.below(1 << 40) + 1) as f64;
            let a = match random.below(4) {
                0 => f64::from_bits(odd.to_bits() + 1),
                1 => f64::from_bits(odd.to_bits() - 1),
                _ => odd,
            };
            (a * random.sign(), scaled(1.0, e - 53), c)
        }
        "cancellation" => {
            let (ea, eb) = (random.between(-500, 500), random.between(-500, 500));
            let (a, b) = (random.at(ea), random.at(eb));
            let c = -(a * b);
            (a, b, f64::from_bits(c.to_bits().wrapping_add(random.below(9)).wrapping_sub(4)))
        }
        "subnormal results" => {
            let e = random.between(-1000, -15);
            let (sum, ec) = (random.between(-1140, -1015), random.between(-1100, -1018));
            (random.at(e), random.at(sum - e), random.at(ec))
        }
        "subnormal operands" => {
            let e = random.between(-1074, -1023);
            let (eb, ec) = (random.between(-60, 1023), random.between(-1074, 0));
            let (a, b, c) = (random.at(e), random.at(eb), random.at(ec));
            if random.below(2) == 0 {
                (a, b, c)
            } else {
                (b, a, c)
            }
        }
        "near overflow" => {
            let e = random.between(-20, 1020);
            let (sum, ec) = (random.between(1020, 1026), random.between(960, 1023));
            (random.at(e), random.at(sum - e), random.at(ec))
        }
        // the addend lies n % 2101 places below or above the product
        "exponent gaps" => {
            let gap = (n % 2101) as i64;
            let above = random.below(2) == 0;
            let ec = if above { random.between(-1074, 1023.min(2046 - gap)) } else { random.between((-1074).max(gap - 2148), 1023) };
            let sum = if above { ec + gap } else { ec - gap };
            let e = random.between((-1074).max(sum - 1023), 1023.min(sum + 1074));
            (random.at(e), random.at(sum - e), random.at(ec))
        }
        _ => (random.pattern(), random.pattern(), random.pattern()),
    }
}

/// A step as a query has it: tau in [0, 1), and two numbers of one magnitude, whose exponent is within ±30.
fn query(random: &mut Random, e: i64) -> Triple {
    let tau = (random.bits() >> 11) as f64 * power(-53);
    let (i, j) = (random.between(0, 1), random.between(0, 1));
    (full(random, e + i), tau, full(random, e + j))
}

/// Steps as queries have them: eight of one magnitude, then eight of another.
fn queries(random: &mut Random, count: usize) -> Vec<Triple> {
    let mut e = 0;
    let mut all = Vec::new();
    for n in 0..count {
        if n % 8 == 0 {
            e = random.between(-30, 29);
        }
        all.push(query(random, e));
    }
    all
}

/// All exponents within ±30, each by itself.
fn spread(random: &mut Random) -> Triple {
    let (i, j, k) = (random.between(-30, 30), random.between(-30, 30), random.between(-30, 30));
    (full(random, i), full(random, j), full(random, k))
}

fn full(random: &mut Random, e: i64) -> f64 {
    random.sign() * f64::from_bits(((1023 + e) as u64) << 52 | random.bits() >> 12)
}

#[target_feature(enable = "fma")]
fn expected(a: f64, b: f64, c: f64) -> f64 {
    a.mul_add(b, c)
}

/// So that `expected` may be called.
fn look_at_the_processor() {
    assert!(is_x86_feature_detected!("fma"), "a processor without a fused multiply-add");
}

/// The triples of crates/test_fused, each with the processor's result.
fn trial(name: &str, triples: &[Triple]) {
    trials::name(name);
    trials::whole("triples", triples.len());
    for &(a, b, c) in triples {
        // SAFETY: the processor has the instruction, as `trials` has seen.
        let r = unsafe { expected(a, b, c) };
        trials::floats(&[a, b, c, r], 4);
    }
}

pub fn trials() {
    look_at_the_processor();
    trials::remark("Fused multiply-adds, as crates/test_fused makes them, with the");
    trials::remark("results of a processor: all of it is printed by compare/run");
    trials::remark("SPLINE_RS fused trials. A family is its name, how many triples");
    trials::remark("it has, and a line for each: a, b, c and a * b + c, by the 16");
    trials::remark("hexadecimal digits of their bits. Places count: a name and a");
    trials::remark("remark have 67 characters, a field 33, a float 16.");
    let special = specials();
    let pairs = special.iter().flat_map(|&a| special.iter().map(move |&b| (a, b)));
    let triples: Vec<Triple> = pairs.flat_map(|(a, b)| special.iter().map(move |&c| (a, b, c))).collect();
    trial("special operands", &triples);
    let mut random = Random(0x9e37_79b9_7f4a_7c15);
    for (family, name) in FAMILIES.iter().enumerate() {
        let triples: Vec<Triple> = (0..2101).map(|n| triple(family, n, &mut random)).collect();
        trial(name, &triples);
    }
}

pub fn compare(count: u64) {
    look_at_the_processor();
    let mut all = Count::default();
    for (family, name) in FAMILIES.iter().enumerate() {
        let mut random = Random(0x1234_5678_9abc_def1 + family as u64);
        for n in 0..count / FAMILIES.len() as u64 {
            let (a, b, c) = triple(family, n, &mut random);
            // SAFETY: as in `trial`; the library's function takes any floats.
            let (r, e) = unsafe { (spline_mul_add(a, b, c), expected(a, b, c)) };
            all.calls += 1;
            if !same_bits(r, e) {
                all.unlike += 1;
                if all.unlike <= 5 {
                    eprintln!("unlike, {name}: {a:e} {b:e} {c:e}: {r:e}, expected {e:e}");
                }
            }
        }
    }
    all.numbers = all.calls;
    all.print(&format!("fused multiply-adds, {} families in equal parts", FAMILIES.len()), "the processor's instruction");
}

/// Nanoseconds a call: the best of many rounds, each over more triples than a branch predictor learns.
#[inline(always)]
fn per_call(triples: &[Triple], round: impl FnMut()) -> f64 {
    least(round) * 1e9 / triples.len() as f64
}

/// In a chain each result is the next call's factor.
#[inline(always)]
fn chain(triples: &[Triple], f: impl Fn(f64, f64, f64) -> f64) -> f64 {
    per_call(triples, || {
        let mut r = 1.0;
        for &(_, b, c) in triples {
            r = f(r, b, c);
        }
        black_box(r);
    })
}

/// A chain for triples whose results are infinite or NaN at times: each result's sign is the next factor's.
#[inline(always)]
fn sign_chain(triples: &[Triple], f: impl Fn(f64, f64, f64) -> f64) -> f64 {
    per_call(triples, || {
        let mut r: f64 = 1.0;
        for &(a, b, c) in triples {
            r = f(f64::from_bits(a.to_bits() ^ r.to_bits() & 1 << 63), b, c);
        }
        black_box(r);
    })
}

#[inline(always)]
fn independent(triples: &[Triple], f: impl Fn(f64, f64, f64) -> f64) -> f64 {
    per_call(triples, || {
        let mut sum = 0;
        for &(a, b, c) in triples {
            sum ^= f(a, b, c).to_bits();
        }
        black_box(sum);
    })
}

#[target_feature(enable = "fma")]
fn native(triples: &[Triple], plain: bool) -> (f64, f64) {
    let f = |a: f64, b: f64, c: f64| a.mul_add(b, c);
    (if plain { chain(triples, f) } else { sign_chain(triples, f) }, independent(triples, f))
}

pub fn time() {
    look_at_the_processor();
    const N: usize = 1 << 17;
    let mut random = Random(0x0dd0_5eed_0dd0_5eed);
    let sets: [(&str, bool, Vec<Triple>); 3] = [
        ("as a query has them", true, queries(&mut random, N)),
        ("each exponent within ±30", false, (0..N).map(|_| spread(&mut random)).collect()),
        ("hard mix", false, (0..N).map(|n| triple(n % FAMILIES.len(), n as u64, &mut random)).collect()),
    ];
    for (name, plain, triples) in &sets {
        // SAFETY: as in `compare`.
        let ours = |a, b, c| unsafe { spline_mul_add(a, b, c) };
        let default = |a: f64, b: f64, c: f64| a.mul_add(b, c);
        let (oi, di) = (independent(triples, ours), independent(triples, default));
        let (oc, dc) = if *plain {
            (chain(triples, ours), chain(triples, default))
        } else {
            (sign_chain(triples, ours), sign_chain(triples, default))
        };
        let (nc, ni) = unsafe { native(triples, *plain) };
        for (how, ours, default, native) in [("independent", oi, di, ni), ("in a chain", oc, dc, nc)] {
            print_time(&format!("fused, {name}, {how}"), ours, default);
            print_time(&format!("fused, {name}, {how}, Rust built for this processor"), ours, native);
        }
    }
}
