//! The preview against the build, each on a copy of everything, and against document 01's questions as plain tests
//! (`Build::number` of input.rs). A length that no buffer here has is held to the tests alone.

use crate::builds::{
    config, describe, doubtful, every, lists, mode_of, ours, print_answer, print_call, record, same_record, served, FIELDS,
};
use crate::input::{range, Build, State, HUGE};
use crate::random::Random;
use crate::rows::{best, counted, kept, print_time, Refusals};
use crate::trials;
use std::hint::black_box;
use tezvorup::raw::{spline_answer, spline_path, spline_preview};

/// The build's cells are the length that the preview is told.
fn told(b: &Build, mode: u8) -> spline_answer {
    // SAFETY: each pointer comes with the length of its list, and the function takes any numbers and writes nothing.
    unsafe {
        spline_preview(
            config(b, mode),
            b.points,
            b.axes,
            b.waypoints.as_ptr(),
            b.waypoints.len(),
            b.start.numbers.as_ptr(),
            b.start.numbers.len(),
            b.end.numbers.as_ptr(),
            b.end.numbers.len(),
            b.cells,
        )
    }
}

/// Number and record by the questions as plain tests.
fn expected(b: &Build) -> (u32, spline_path) {
    match (b.number(), range(b.points.saturating_sub(1), b.s_min, b.s_max)) {
        (0, Some(inv_ds)) => (0, record(b, inv_ds)),
        (number, _) => (number, spline_path::default()),
    }
}

// ---- compare

/// A buffer of a build has no more cells here; the longest table has 16,384.
const CELLS: usize = 1 << 16;

fn same(answer: &spline_answer, number: u32, path: &spline_path) -> bool {
    answer.number == number && same_record(&answer.path, path)
}

/// Whether a preview says what is expected and a build says the same, and both leave what they were lent to be read.
fn like(b: &Build, mode: u8) -> bool {
    let (given, copy) = (b.clone(), b.clone());
    let answer = told(&given, mode);
    let (number, path) = expected(b);
    let mut buffer = vec![0.5; if b.cells <= CELLS { b.cells } else { 0 }];
    let built = buffer.len() != b.cells || same(&ours(&copy, mode, &mut buffer), answer.number, &answer.path);
    let kept = |other: &Build| lists(b).iter().zip(lists(other)).all(|(before, after)| kept(before, after));
    same(&answer, number, &path) && built && kept(&given) && kept(&copy)
}

/// Lengths round the table's and far beyond it; the table's is the product of the counts modulo 2^64.
fn lengths(b: &Build) -> Vec<usize> {
    let product = b.axes.wrapping_mul(b.points.wrapping_sub(1)).wrapping_mul(b.order.wrapping_add(1));
    let round = (0..=6).map(|k| product.wrapping_sub(3).wrapping_add(k));
    round.chain([0, 1, b.cells, product.wrapping_mul(2), product.wrapping_add(1 << 32), product.wrapping_neg()]).chain(HUGE).collect()
}

/// Every order with every count of points and axes, then so many calls at random, half of them to be refused; one in ten of
/// all is asked about with many lengths, and three with every length up to 20,000.
pub fn compare(count: u64) {
    let (mut random, mut modes) = (Random(0x3c6e_f372_fe94_f82b), Random(0x6295_9a15_2d4a_6b1d));
    let (mut beside, mut beyond) = (Refusals::default(), Refusals::default());
    let mut shown = 0;
    let mut ask = |b: &Build, mode: u8| {
        let entry = (if b.cells <= CELLS { &mut beside } else { &mut beyond }).of(expected(b).0);
        entry.calls += 1;
        entry.numbers += (1 + FIELDS) as u64;
        if !like(b, mode) {
            entry.unlike += 1;
            shown += 1;
            if shown <= 5 {
                eprintln!("unlike: expected {:?}, {:?} from {}, mode {mode}", expected(b), told(b, mode), describe(b));
            }
        }
    };
    let mut trial = 0;
    let mut call = |mut b: Build| {
        let mode = mode_of(&b, &mut modes);
        ask(&b, mode);
        trial += 1;
        if trial % 10 == 0 {
            for cells in lengths(&b) {
                b.cells = cells;
                ask(&b, mode);
            }
        }
    };
    every(&mut random, &mut call);
    for trial in 0..count {
        call(if trial % 2 == 0 { served(&mut random) } else { doubtful(&mut random) });
    }
    for (order, points, axes) in [(3, 2, 1), (5, 16, 2), (7, 257, 8)] {
        let mut b = Build::random(&mut random, order, points, axes);
        for cells in 0..=20_000 {
            b.cells = cells;
            ask(&b, b.clamp.into());
        }
    }
    beside.print("previews", "the build's own answer on copies, and document 01's questions as plain tests");
    beyond.print("previews told a length that no buffer here has", "document 01's questions as plain tests");
}

// ---- time

/// A preview beside the build with the same lists: both accepted, or both refused by the last question or by the first.
pub fn time() {
    let mut random = Random(0xa54f_f53a_5f1d_36f1);
    for points in [2, 16, 257] {
        for axes in [1, 8] {
            let mut b = Build::random(&mut random, 5, points, axes);
            b.start = State { given: Some((axes, 2, false)), numbers: random.coordinates(axes * 2) };
            b.end = b.start.clone();
            let what = format!("order 5, {points} points, {}", counted(axes, "axis", "axes"));
            beside(&format!("accepted, {what}"), &b, 0);
            *b.end.numbers.last_mut().expect("a state has numbers") = f64::NAN;
            beside(&format!("refused by the last question, {what}"), &b, 4);
            b.order = 4;
            beside(&format!("refused by the first question, {what}"), &b, 302);
        }
    }
}

fn beside(what: &str, b: &Build, number: u32) {
    assert_eq!(b.number(), number);
    let mut cells = vec![0.0; b.cells];
    let calls = 40_000 / b.waypoints.len();
    let preview = |_| assert_eq!(told(black_box(b), 0).number, number);
    let (preview, build) = best(calls, preview, |_| assert_eq!(ours(black_box(b), 0, &mut cells).number, number));
    print_time(what, preview, build);
}

// ---- trials

fn trial(name: &str, b: &Build) {
    let (number, path) = expected(b);
    print_call(name, b);
    print_answer(number, &path);
}

/// A damage for each question, as `Build::damage` counts them, with what it does.
const QUESTIONS: [(usize, &str); 10] = [
    (3, "order 4"),
    (8, "1 point"),
    (9, "258 points"),
    (11, "no axes"),
    (13, "a waypoint fewer"),
    (15, "a row more of the start"),
    (18, "a row more of the end"),
    (21, "a cell more"),
    (24, "a backward range"),
    (30, "a NaN"),
];

/// The calls of crates/test_preview.
pub fn trials() {
    for text in [
        "Previews with their answers, as crates/test_preview asks them,",
        "printed by compare/run SPLINE_RS previews trials. A call is",
        "written as in crates/test_build/stdin: its name, 16 fields and",
        "three lists; here cells is a length alone, and any number.",
        "Behind '=' is what is to come out, number and record, by",
        "document 01's questions as plain tests.",
    ] {
        trials::remark(text);
    }
    let mut random = Random(0x510e_527f_ade6_82d1);
    let mut made = |order: usize, points: usize, axes: usize| {
        let mut b = Build::random(&mut random, order, points, axes);
        b.start = State { given: Some((axes, order / 2, false)), numbers: random.coordinates(axes * (order / 2)) };
        b.end = State { given: Some((axes, order / 2, true)), numbers: random.coordinates(axes * (order / 2)) };
        // the mode asked for is Clamp, so that the Error of a refusal's record is seen to be its own
        Build { s_min: -1.0, s_max: 2.0, clamp: true, ..b }
    };
    trials::remark("Accepted: the record is the build's, and nothing is built.");
    for (order, points, axes) in [(3, 2, 1), (5, 3, 2), (7, 4, 8), (3, 257, 1)] {
        trial(&format!("order {order}, {points} points, {}", counted(axes, "axis", "axes")), &made(order, points, axes));
    }
    let base = made(5, 3, 2);
    trial("mode Error", &Build { clamp: false, ..base.clone() });
    let beside = State { given: None, numbers: vec![f64::NAN; 2] };
    trial("no states, NaN beside them", &Build { start: beside.clone(), end: beside, ..base.clone() });
    trials::remark("A no to each question, and to each two neighbouring ones: the");
    trials::remark("first one's number has to come.");
    for (k, &(damage, what)) in QUESTIONS.iter().enumerate() {
        let mut b = base.clone();
        b.damage(damage);
        trial(what, &b);
        // no count of points is both too small and too large
        if let Some(&(next, and)) = QUESTIONS.get(k + 1).filter(|_| k != 1) {
            let mut both = base.clone();
            both.damage(next);
            both.damage(damage);
            trial(&format!("{what}, {and}"), &both);
        }
    }
    trials::remark("A length that is not the table's, also one that no buffer has.");
    let product = base.cells;
    let near = [0, 1, product - 1, product + 1, 16_384, 16_400, (1 << 32) + product, product.wrapping_neg()];
    for cells in near.into_iter().chain(HUGE) {
        trial(&counted(cells, "cell", "cells"), &Build { cells, ..base.clone() });
    }
}
