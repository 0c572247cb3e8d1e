//! The query against the Rust text of copp.
//!
//! A query's expected numbers come from the Rust text, over a path of the same record and table. It does
//! not look whether s is in the range: in Clamp it is given the nearest end, as document 01 says. A
//! refusal's expected number comes from document 01's questions as plain tests (`Query::number` of
//! query.rs). NaNs are alike, and the two zeros are alike, though those of another sign are counted; all
//! else is compared bit for bit.

use crate::input::{range, Build, HUGE, NOT_FINITE};
use crate::query::Query;
use crate::random::Random;
use crate::rows::{alike, best, counted, guarded, kept, lent, print_time, same_bits, Count, Refusals, GUARD};
use crate::spline::{coefficients, eval_poly, path_of, segment_tau, SplinePath};
use crate::trials;
use std::hint::black_box;
use tezvorup::raw::{spline_path, spline_query};

/// The four buffers: positions, first, second and third derivatives.
type Buffers<T> = [T; 4];

/// The path's record as the library takes it.
fn record_of(query: &Query, mode: u8) -> spline_path {
    let &Query { order, segments, axes, s_min, s_max, inv_ds, .. } = query;
    spline_path { order, segments, axes, s_min, s_max, inv_ds, mode }
}

fn ours(record: spline_path, query: &Query, table: &[f64], [q, dq, ddq, dddq]: Buffers<&mut [f64]>) -> u32 {
    // SAFETY: each pointer comes with the length of its list, the lists that are written are borrowed as
    // mutable and so lie apart from the others, and the function takes any numbers.
    unsafe {
        spline_query(
            record,
            table.as_ptr(),
            table.len(),
            query.s,
            query.level as u8,
            q.as_mut_ptr(),
            q.len(),
            dq.as_mut_ptr(),
            dq.len(),
            ddq.as_mut_ptr(),
            ddq.len(),
            dddq.as_mut_ptr(),
            dddq.len(),
        )
    }
}

/// The Rust's query, of a level that is chosen as it is called.
#[inline(never)]
fn theirs(path: &SplinePath, s: f64, level: usize, [q, dq, ddq, dddq]: Buffers<&mut [f64]>) {
    let axes = q.len();
    match level {
        0 => path.eval_at::<0>(s, axes, q, dq, ddq, dddq),
        2 => path.eval_at::<2>(s, axes, q, dq, ddq, dddq),
        _ => path.eval_at::<3>(s, axes, q, dq, ddq, dddq),
    }
}

fn in_rust(q: &Query, table: &[f64]) -> SplinePath {
    path_of(q.order, q.segments, q.s_min, q.s_max, q.inv_ds, table.to_vec())
}

/// Whether a level writes derivative k.
fn writes(level: usize, k: usize) -> bool {
    k <= level
}

// ---- what is asked

const ORDERS: [usize; 3] = [3, 5, 7];
const LEVELS: [usize; 3] = [0, 2, 3];
/// Kinds of coefficients: magnitudes of 1/16 to 16; of 2^-32 to 2^31; of any exponent; whole numbers within 20; and
/// magnitudes as the first have them with NaNs, infinities, zeros, the greatest and the least among them.
const KINDS: u64 = 5;

/// The coefficient that 62 binary digits stand for.
fn coefficient(kind: u64, digits: u64) -> f64 {
    let of = |exponent: u64| f64::from_bits((digits & 1) << 63 | exponent << 52 | digits >> 4 & !0 >> 12);
    let ordinary = of(1019 + digits / 2 % 8);
    match kind {
        0 => ordinary,
        1 => of(991 + (digits >> 56)),
        2 => of((digits >> 50) % 2047),
        3 => (digits % 41) as f64 - 20.0,
        _ => match digits >> 56 {
            0 => f64::NAN,
            1 => f64::INFINITY,
            2 => f64::NEG_INFINITY,
            3 => 0.0,
            4 => -0.0,
            5 => f64::MAX,
            6 => 5e-324,
            _ => ordinary,
        },
    }
}

/// A range that question 8 lets pass: plain, of the magnitude of coordinates, or far off in size.
fn ends(random: &mut Random, segments: usize) -> (f64, f64) {
    let (low, high) = match random.below(8) {
        0 => (0.0, 1.0),
        1 => (0.0, segments as f64),
        2 => (0.0, 49.0),
        3 => random.pick(&[(-0.0, 1e-300), (-8e307, 9e307), (1.0, 1.0 + f64::EPSILON), (-3e-308, 1e-307), (1e15, 1e15 + 1.0)]),
        4 => (-1.0, 1.0),
        _ => random.ends(),
    };
    if range(segments, low, high).is_some() {
        (low, high)
    } else {
        (0.0, 1.0)
    }
}

const PLACES: u64 = 8;

/// An end, a joint or the place beside it, a place within the range, a zero, and one beyond the range.
fn place(random: &mut Random, q: &Query, which: u64) -> f64 {
    let (lo, hi) = (q.s_min, q.s_max);
    let joint = lo + random.below(q.segments as u64 + 1) as f64 / q.inv_ds;
    match which {
        0 => random.pick(&[lo, hi]),
        1 => joint,
        2 => joint.next_up(),
        3 => joint.next_down(),
        4 | 5 => lo + random.unit() * (hi - lo),
        6 => random.pick(&[0.0, -0.0]),
        _ => {
            let far = random.pick(&[1.0, 60.0, f64::MAX, f64::INFINITY]);
            random.pick(&[lo - far, hi + far, hi.next_up(), lo.next_down()])
        }
    }
}

/// The s that document 01's lookup takes in Clamp.
fn nearest(q: &Query, s: f64) -> f64 {
    s.clamp(q.s_min, q.s_max)
}

/// Counts and lengths that match.
fn matching(random: &mut Random, order: usize, segments: usize, axes: usize) -> Query {
    let (s_min, s_max) = ends(random, segments.max(1));
    let level = random.pick(&LEVELS);
    let any = |random: &mut Random| random.below(12) as usize;
    let lengths = [0, 1, 2, 3].map(|k| if writes(level, k) { axes } else { any(random) });
    Query {
        order,
        segments,
        axes,
        s_min,
        s_max,
        inv_ds: segments as f64 / (s_max - s_min),
        clamp: random.one_in(2),
        cells: axes * segments * (order + 1),
        s: s_min,
        level,
        lengths,
    }
}

/// A served query: mostly of few segments, one in eight of any number up to the greatest, and one in eight at a limit.
fn served(random: &mut Random) -> Query {
    let segments = match random.below(8) {
        0 => 1 + random.below(256) as usize,
        1 => random.pick(&[1, 255, 256]),
        _ => 1 + random.below(6) as usize,
    };
    let (order, axes) = (random.pick(&ORDERS), 1 + random.below(8) as usize);
    let mut q = matching(random, order, segments, axes);
    let which = random.below(PLACES);
    q.s = place(random, &q, which);
    if !q.clamp {
        q.s = nearest(&q, q.s);
    }
    q
}

// ---- trials

/// The table of a path, which crates/test_query makes too: from the seed on each number is 48271 times the
/// last one, modulo 2^31 - 1, and two of them in turn are the digits of a coefficient.
fn stated(kind: u64, seed: u64, cells: usize) -> Vec<f64> {
    let mut x = seed;
    let mut next = || {
        x = x * 48271 % 0x7fff_ffff;
        x
    };
    let mut pair = || next() << 31 | next();
    (0..cells).map(|_| coefficient(kind, pair())).collect()
}

/// The Rust's numbers, derivative by derivative: of level 3, after it was seen that the other levels' are the same,
/// and that they are the evaluation of the segment and tau that the lookup gives.
fn numbers(path: &SplinePath, q: &Query, s: f64) -> Buffers<Vec<f64>> {
    let mut all = LEVELS.map(|level| {
        let mut out: Buffers<Vec<f64>> = [0, 1, 2, 3].map(|_| vec![0.0; q.axes]);
        theirs(path, s, level, out.each_mut().map(|list| &mut list[..]));
        (level, out)
    });
    let (_, full) = all[2].clone();
    let (segment, tau) = segment_tau(path, s);
    for axis in 0..q.axes {
        for (level, out) in &mut all {
            for k in (0..4).filter(|&k| writes(*level, k)) {
                assert!(same_bits(out[k][axis], full[k][axis]));
            }
        }
        let from = (axis * q.segments + segment) * (q.order + 1);
        let (x, dx, ddx, dddx) = eval_poly(&coefficients(path)[from..=from + q.order], tau);
        let squared = q.inv_ds * q.inv_ds;
        let by_parts = [x, dx * q.inv_ds, ddx * squared, dddx * (squared * q.inv_ds)];
        assert!((0..4).all(|k| same_bits(by_parts[k], full[k][axis])));
    }
    full
}

/// The last trials of crates/test_query: so many queries at least. Under a path stand eight places, each with a query of
/// every level.
pub fn trials(count: u64) {
    let mut random = Random(0x3c6e_f372_fe94_f82b);
    trials::remark("From here on printed by compare/run SPLINE_RS queries trials:");
    trials::remark("the answers are the Rust's.");
    for n in 0..count.div_ceil(LEVELS.len() as u64 * PLACES) {
        let (order, kind, seed) = (ORDERS[n as usize % 3], n / 3 % KINDS, 1 + random.below(0x7fff_fffe));
        let few = 1 + random.below(8) as usize;
        let segments = random.pick(&[1, 2, few, few, few, 16 * few, 255, 256]);
        let axes = 1 + random.below(8) as usize;
        let mut q = matching(&mut random, order, segments, axes);
        // piece m
        if n == 0 {
            (q.segments, q.s_min, q.s_max, q.inv_ds) = (1, 0.0, 49.0, 1.0 / 49.0);
        }
        let path = in_rust(&q, &stated(kind, seed, q.axes * q.segments * (q.order + 1)));
        trials::name(&format!("path {n}"));
        trials::whole("order", order);
        trials::whole("segments", q.segments);
        trials::whole("axes", axes);
        trials::float("s_min", q.s_min);
        trials::float("s_max", q.s_max);
        trials::float("inv_ds", q.inv_ds);
        trials::whole("mode", q.clamp.into());
        trials::whole("coefficients", coefficients(&path).len());
        trials::whole("kind", kind as usize);
        trials::whole("seed", seed as usize);
        trials::whole("queries", LEVELS.len() * PLACES as usize);
        for which in 0..PLACES {
            let s = place(&mut random, &q, which);
            let s = if q.clamp { s } else { nearest(&q, s) };
            let found = numbers(&path, &q, nearest(&q, s));
            for level in LEVELS {
                let written = [0, 1, 2, 3].map(|k| if writes(level, k) { axes } else { 0 });
                // entry point eval_at, level, how many cells each buffer has, number, how many are written
                let line = [&[0, level], &[axes; 4][..], &[0], &written].concat();
                println!("{} {}", trials::bits(s), line.iter().map(|n| format!("{n:>3}")).collect::<Vec<_>>().join(" "));
                found.iter().zip(written).for_each(|(list, n)| trials::floats(&list[..n], n));
            }
        }
    }
}

// ---- compare

const COUNTS: u64 = 9;

fn count_of(q: &mut Query, which: u64) -> &mut usize {
    match which {
        0 => &mut q.order,
        1 => &mut q.segments,
        2 => &mut q.axes,
        3 => &mut q.cells,
        4 => &mut q.level,
        k => &mut q.lengths[k as usize - 5],
    }
}

/// One more or less of what is counted, or some.
fn step(random: &mut Random, q: &mut Query, which: u64) {
    let (up, by) = (random.one_in(2), random.pick(&[1, 1, 2, 3, 8]));
    let count = count_of(q, which);
    *count = if up { *count + by } else { count.saturating_sub(by) };
    q.level = q.level.min(255); // it travels as a byte
}

/// Something that is to be refused; some of it is served all the same, and counts as a query.
fn doubtful(random: &mut Random) -> Query {
    let mut q = served(random);
    match random.below(9) {
        // round the limits, the lists as long as they would have to be
        0 | 1 => {
            let order = random.below(11) as usize;
            let segments = random.pick(&[0, 1, 2, 255, 256, 257, 258, 264]);
            let axes = random.pick(&[0, 1, 2, 7, 8, 9, 10]);
            q = matching(random, order, segments, axes);
        }
        2 | 3 => {
            let which = random.below(COUNTS);
            step(random, &mut q, which);
        }
        // any lengths at all
        4 => {
            q.lengths = q.lengths.map(|n| if random.one_in(3) { random.below(12) as usize } else { n });
            q.level = random.pick(&[0, 1, 2, 3, 4, 255]);
        }
        5 => {
            let which = random.below(PLACES);
            q.s = place(random, &q, which);
            if random.one_in(3) {
                q.s = random.pick(&NOT_FINITE);
            }
        }
        6 => q.damage(random.below(Query::DAMAGES as u64) as usize),
        // order, segments or axes
        7 => *count_of(&mut q, random.below(3)) = random.pick(&HUGE),
        // two things at once: the earlier question's number has to come
        _ => {
            q.damage(random.below(Query::DAMAGES as u64) as usize);
            if random.one_in(2) {
                let which = random.below(COUNTS);
                step(random, &mut q, which);
            } else {
                q.damage(random.below(Query::DAMAGES as u64) as usize);
            }
        }
    }
    q
}

/// As many coefficients as are asked for, at times those of a path that the Rust builds.
fn table(random: &mut Random, q: &Query) -> Vec<f64> {
    let kind = random.below(KINDS + 1);
    if kind < KINDS || q.number() != 0 {
        return (0..q.cells).map(|_| coefficient(kind % KINDS, random.bits() >> 2)).collect();
    }
    coefficients(&Build::random(random, q.order, q.segments + 1, q.axes).path().expect("the Rust builds it")).to_vec()
}

/// A call of ours: its number, the buffers with their guard cells before and after it, and whether the table is as it was.
fn run(q: &Query, mode: u8, table: &[f64]) -> (u32, Buffers<Vec<f64>>, Buffers<Vec<f64>>, bool) {
    let given = table.to_vec();
    let before = [0, 1, 2, 3].map(|k| guarded(k, q.lengths[k]));
    let mut after = before.clone();
    let number = ours(record_of(q, mode), q, table, after.each_mut().map(|list| lent(list)));
    (number, before, after, kept(&given, table))
}

/// Counts a call that is served: every number that the level writes, and every other cell.
fn count_query(count: &mut Count, q: &Query, mode: u8, table: &[f64]) -> bool {
    let (number, mut expected, after, table_kept) = run(q, mode, table);
    let inner = GUARD..GUARD + q.axes;
    let mut found: Buffers<Vec<f64>> = [0, 1, 2, 3].map(|_| vec![0.0; q.axes]);
    theirs(&in_rust(q, table), nearest(q, q.s), q.level, found.each_mut().map(|list| &mut list[..]));
    for k in (0..4).filter(|&k| writes(q.level, k)) {
        expected[k][inner.clone()].copy_from_slice(&found[k]);
        count.numbers += q.axes as u64;
    }
    let pairs = || expected.iter().flatten().zip(after.iter().flatten());
    count.zeros += pairs().filter(|(&x, &y)| x == y && !same_bits(x, y)).count() as u64;
    number == 0 && table_kept && pairs().all(|(&x, &y)| alike(x, y))
}

fn count_refusal(count: &mut Count, q: &Query, mode: u8, table: &[f64], expected: u32) -> bool {
    let (number, before, after, table_kept) = run(q, mode, table);
    count.numbers += (table.len() + after.iter().map(|list| list.len()).sum::<usize>()) as u64;
    number == expected && table_kept && before.iter().zip(&after).all(|(before, after)| kept(before, after))
}

fn describe(q: &Query) -> String {
    format!(
        "order {}, {} segments, {} axes, range {:e} to {:e}, inv_ds {:e}, clamp {}, {} coefficients, s {:e}, level {}, buffers {:?}",
        q.order, q.segments, q.axes, q.s_min, q.s_max, q.inv_ds, q.clamp, q.cells, q.s, q.level, q.lengths
    )
}

/// So many calls at random, half of them to be refused.
pub fn compare(count: u64) {
    let mut random = Random(0xa54f_f53a_5f1d_36f1);
    let mut queries = ORDERS.map(|_| Count::default());
    let mut refusals = Refusals::default();
    let mut shown = 0;
    for trial in 0..count {
        let q = if trial % 2 == 0 { served(&mut random) } else { doubtful(&mut random) };
        let table = table(&mut random, &q);
        // every number but 1 is Error
        let mode = if q.clamp { 1 } else { random.pick(&[0, 0, 0, 2, 255]) };
        let expected = q.number();
        let (entry, like) = if expected == 0 {
            let entry = &mut queries[(q.order - 3) / 2];
            let like = count_query(entry, &q, mode, &table);
            (entry, like)
        } else {
            let entry = refusals.of(expected);
            let like = count_refusal(entry, &q, mode, &table, expected);
            (entry, like)
        };
        entry.calls += 1;
        if !like {
            entry.unlike += 1;
            shown += 1;
            if shown <= 5 {
                eprintln!("unlike: expected {expected}, {} from {}", run(&q, mode, &table).0, describe(&q));
            }
        }
    }
    for (order, count) in ORDERS.iter().zip(&queries) {
        count.print_zeros(&format!("queries, order {order}"), "the Rust's own eval_at");
    }
    refusals.print("refused queries", "document 01's questions as plain tests");
}

// ---- time

/// 64 segments, s at random in the range. Ours is given a record that was there before, as a build hands it over.
pub fn time() {
    let mut random = Random(0x510e_527f_ade6_82d1);
    for order in ORDERS {
        for level in LEVELS {
            for axes in [1, 8] {
                let mut q = matching(&mut random, order, 64, axes);
                (q.s_min, q.s_max, q.inv_ds, q.clamp, q.level, q.lengths) = (0.0, 1.0, 64.0, false, level, [axes; 4]);
                let table: Vec<f64> = (0..q.cells).map(|_| coefficient(0, random.bits() >> 2)).collect();
                let (record, path) = (record_of(&q, 0), in_rust(&q, &table));
                let places: Vec<f64> = (0..1 << 12).map(|_| random.unit()).collect();
                let mut out: Buffers<Vec<f64>> = [0, 1, 2, 3].map(|_| vec![0.0; axes]);
                let mut other = out.clone();
                let here = |i: usize| {
                    q.s = black_box(places[i]);
                    assert_eq!(ours(*black_box(&record), black_box(&q), &table, out.each_mut().map(|list| &mut list[..])), 0);
                };
                let there =
                    |i: usize| theirs(black_box(&path), black_box(places[i]), black_box(level), other.each_mut().map(|list| &mut list[..]));
                let (here, there) = best(places.len(), here, there);
                assert!(out.iter().flatten().zip(other.iter().flatten()).all(|(&x, &y)| same_bits(x, y)));
                print_time(&format!("query, order {order}, level {level}, {}", counted(axes, "axis", "axes")), here, there);
            }
        }
    }
}
