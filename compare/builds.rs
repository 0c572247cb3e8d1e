//! The build against the Rust text of copp.
//!
//! A build's expected coefficients and inv_ds come from the Rust text. At order 3, and with two points at
//! any order, it computes them by itself; at orders 5 and 7 with three or more points it factors and
//! solves over the stand-in for nalgebra, which follows document 01. The rest of the record that comes back is what
//! was given. A refusal's expected number comes from document 01's questions as plain tests (`Build::number` of
//! input.rs), and its record is all zero; where the Rust refuses too, its own kind of refusal has to be the same.
//! NaNs are alike, and the two zeros are alike in coefficients, though those of another sign are counted; all else is
//! compared bit for bit.

use crate::diag::PathError;
use crate::input::{Build, State, HUGE, NOT_FINITE};
use crate::random::Random;
use crate::rows::{alike, best, counted, guarded, kept, lent, print_time, same_bits, Count, Refusals};
use crate::spline::{coefficients, inv_ds, SplinePath};
use crate::trials;
use std::hint::black_box;
use std::time::Instant;
use tezvorup::raw::{spline_answer, spline_build, spline_config, spline_path, spline_state};

/// A state as the library takes it. Rows that no list has stand for a kind that does not exist, which no shape fits.
pub fn shape(state: &State, axes: usize, m: usize) -> spline_state {
    match state.given {
        None => spline_state { kind: 0, rows: axes, columns: m },
        Some((usize::MAX, _, marked)) => spline_state { kind: if marked { 255 } else { 3 }, rows: axes, columns: m },
        Some((rows, columns, marked)) => spline_state { kind: 1 + marked as u8, rows, columns },
    }
}

/// What the library is told beside points and lists.
pub fn config(b: &Build, mode: u8) -> spline_config {
    let m = b.order / 2;
    let (start, end) = (shape(&b.start, b.axes, m), shape(&b.end, b.axes, m));
    spline_config { order: b.order, s_min: b.s_min, s_max: b.s_max, mode, start, end }
}

pub fn ours(b: &Build, mode: u8, cells: &mut [f64]) -> spline_answer {
    // SAFETY: each pointer comes with the length of its list, the lists that are written are borrowed as
    // mutable and so lie apart from the others, and the function takes any numbers.
    unsafe {
        spline_build(
            config(b, mode),
            b.points,
            b.axes,
            b.waypoints.as_ptr(),
            b.waypoints.len(),
            b.start.numbers.as_ptr(),
            b.start.numbers.len(),
            b.end.numbers.as_ptr(),
            b.end.numbers.len(),
            cells.as_mut_ptr(),
            cells.len(),
        )
    }
}

// ---- compare

/// What the Rust says to a call that it can be given, by document 01's numbers: to one that gets a number of a question
/// that the Rust asks too, where none that it does not ask comes before.
fn rust_number(b: &Build, number: u32) -> Option<u32> {
    let asked = match number {
        302 => b.order < 3 || b.order.is_multiple_of(2),
        303 | 304 => true,
        _ => false,
    };
    let matches = |s: &State| s.given.is_none_or(|(rows, columns, _)| rows.checked_mul(columns) == Some(s.numbers.len()));
    if !asked || b.axes.checked_mul(b.points) != Some(b.waypoints.len()) || !matches(&b.start) || !matches(&b.end) {
        return None;
    }
    Some(match b.path() {
        Ok(_) => 0,
        Err(PathError::InvalidOrder { .. }) => 302,
        Err(PathError::NotEnoughWaypoints { .. }) => 304,
        Err(PathError::DimensionMismatch) => 303,
        // no pivot is zero: a number that the library never answers, so that it would be unlike
        Err(PathError::SingularSystem) => u32::MAX,
    })
}

const LENGTHS: u64 = 11;

/// One more or less of what is counted, or some.
fn step(random: &mut Random, b: &mut Build, which: usize) {
    let (up, by) = (random.one_in(2), random.pick(&[1, 1, 2, 3, 8]));
    let moved = |n: usize| if up { n + by } else { n.saturating_sub(by) };
    let list = |l: &mut Vec<f64>| l.resize(moved(l.len()), 0.5);
    let state = if which < 7 { &mut b.start } else { &mut b.end };
    match which {
        0 => b.order = moved(b.order),
        1 => b.points = moved(b.points),
        2 => b.axes = moved(b.axes),
        3 => list(&mut b.waypoints),
        10 => b.cells = moved(b.cells),
        4 | 7 => state.given.iter_mut().for_each(|(rows, _, _)| *rows = moved(*rows)),
        5 | 8 => state.given.iter_mut().for_each(|(_, columns, _)| *columns = moved(*columns)),
        _ => list(&mut state.numbers),
    }
}

/// A count that no list has.
fn enlarge(random: &mut Random, b: &mut Build) {
    let huge = random.pick(&HUGE);
    match random.below(5) {
        0 => b.order = huge,
        1 => b.points = huge,
        2 => b.axes = huge,
        which => {
            let state = if random.one_in(2) { &mut b.start } else { &mut b.end };
            let numbers = state.numbers.len();
            state.given = Some(if which == 3 { (huge, numbers, false) } else { (numbers, huge, true) });
        }
    }
}

/// A served build: mostly short, and one in eight of any length up to the greatest.
pub fn served(random: &mut Random) -> Build {
    let order = random.pick(&[3, 5, 7]);
    let points = match random.below(8) {
        0 => 2 + random.below(256) as usize,
        1 => random.pick(&[2, 2, 3, 256, 257]),
        _ => 2 + random.below(14) as usize,
    };
    let axes = 1 + random.below(8) as usize;
    let mut b = Build::random(random, order, points, axes);
    // finite numbers of any size, whose sums overflow at times
    if random.one_in(16) {
        let any = |random: &mut Random| Some(f64::from_bits(random.bits())).filter(|x| x.is_finite()).unwrap_or(1.0);
        b.waypoints.iter_mut().for_each(|x| *x = any(random));
    }
    b
}

/// Something that is to be refused; some of it is served all the same, and counts as a build.
pub fn doubtful(random: &mut Random) -> Build {
    let mut b = served(random);
    match random.below(9) {
        // round the limits, the lists as long as they would have to be
        0 | 1 => {
            let order = random.below(11) as usize;
            let points = random.pick(&[0, 1, 2, 3, 256, 257, 258, 259, 265]);
            let axes = random.pick(&[0, 1, 2, 7, 8, 9, 10]);
            b = Build::random(random, order, points, axes);
        }
        2 | 3 => {
            let which = random.below(LENGTHS) as usize;
            step(random, &mut b, which);
        }
        4 => {
            let lists = [&mut b.waypoints, &mut b.start.numbers, &mut b.end.numbers];
            let list = lists.into_iter().nth(random.below(3) as usize).unwrap();
            if !list.is_empty() {
                let at = random.below(list.len() as u64) as usize;
                list[at] = random.pick(&NOT_FINITE);
            }
        }
        5 => {
            let state = if random.one_in(2) { &mut b.start } else { &mut b.end };
            state.given = Some((usize::MAX, usize::MAX, random.one_in(2)));
        }
        6 => b.damage(random.below(Build::DAMAGES as u64) as usize),
        7 => enlarge(random, &mut b),
        // two things at once: the earlier question's number has to come
        _ => {
            b.damage(random.below(Build::DAMAGES as u64) as usize);
            let which = random.below(LENGTHS) as usize;
            step(random, &mut b, which);
        }
    }
    b
}

/// How many numbers a path's record has.
pub const FIELDS: usize = 7;

/// The same record, field by field and bit by bit. (What is expected has no NaN.)
pub fn same_record(x: &spline_path, y: &spline_path) -> bool {
    let wholes = |path: &spline_path| (path.order, path.segments, path.axes, path.mode);
    let floats = |path: &spline_path| [path.s_min, path.s_max, path.inv_ds].map(f64::to_bits);
    wholes(x) == wholes(y) && floats(x) == floats(y)
}

/// The record of a build that is served: what was given, the mode as one of the two that there are, and an inv_ds.
pub fn record(b: &Build, inv_ds: f64) -> spline_path {
    spline_path { order: b.order, segments: b.points - 1, axes: b.axes, s_min: b.s_min, s_max: b.s_max, inv_ds, mode: b.clamp.into() }
}

/// A call of ours: its answer, the buffer with its guard cells after it and before it, and whether the lists that were lent
/// to be read are as they were.
fn run(b: &Build, mode: u8) -> (spline_answer, Vec<f64>, Vec<f64>, bool) {
    let given = lists(b).map(|list| list.to_vec());
    let before = guarded(0, b.cells);
    let mut after = before.clone();
    let answer = ours(b, mode, lent(&mut after));
    let all_kept = given.iter().zip(lists(b)).all(|(before, after)| kept(before, after));
    (answer, after, before, all_kept)
}

pub fn lists(b: &Build) -> [&[f64]; 3] {
    [&b.waypoints, &b.start.numbers, &b.end.numbers]
}

fn count_build(count: &mut Count, b: &Build, mode: u8) -> bool {
    let (answer, after, mut expected, all_kept) = run(b, mode);
    // what passes the questions the Rust builds, too: a SingularSystem of its own would be unlike
    let Some(path) = b.path().ok().filter(|path| coefficients(path).len() == b.cells) else {
        return false;
    };
    lent(&mut expected).copy_from_slice(coefficients(&path));
    let pairs = || after.iter().zip(&expected);
    count.numbers += (b.cells + FIELDS) as u64;
    count.zeros += pairs().filter(|(&x, &y)| x == y && !same_bits(x, y)).count() as u64;
    answer.number == 0 && all_kept && same_record(&answer.path, &record(b, inv_ds(&path))) && pairs().all(|(&x, &y)| alike(x, y))
}

fn count_refusal(count: &mut Count, b: &Build, mode: u8, expected: u32) -> bool {
    let (answer, after, before, all_kept) = run(b, mode);
    count.numbers += (after.len() + FIELDS + lists(b).iter().map(|list| list.len()).sum::<usize>()) as u64;
    answer.number == expected && all_kept && same_record(&answer.path, &spline_path::default()) && kept(&before, &after)
}

pub fn describe(b: &Build) -> String {
    let state = |s: &State| format!("{:?} with {} numbers", s.given, s.numbers.len());
    format!(
        "order {}, {} points, {} axes, {} waypoints, start {}, end {}, range {:e} to {:e}, {} cells",
        b.order,
        b.points,
        b.axes,
        b.waypoints.len(),
        state(&b.start),
        state(&b.end),
        b.s_min,
        b.s_max,
        b.cells
    )
}

/// What a build's expected numbers rest on.
const SOURCES: [(&str, &str); 3] = [
    ("builds, order 3", "the Rust text, where solving is one division"),
    ("builds, orders 5 and 7, two points", "the Rust text"),
    ("builds, orders 5 and 7, more points", "the Rust text, solving as document 01 has it"),
];

/// A build at random of every order with every count of points and axes.
pub fn every(random: &mut Random, mut call: impl FnMut(Build)) {
    for order in [3, 5, 7] {
        for points in 2..=257 {
            for axes in 1..=8 {
                call(Build::random(random, order, points, axes));
            }
        }
    }
}

/// A mode as the library is given it: every number but 1 is Error.
pub fn mode_of(b: &Build, modes: &mut Random) -> u8 {
    if b.clamp {
        1
    } else {
        modes.pick(&[0, 0, 0, 2, 255])
    }
}

/// Every order with every count of points and axes; then so many calls at random, half of them to be refused.
pub fn compare(count: u64) {
    let (mut random, mut modes) = (Random(0x6a09_e667_f3bc_c909), Random(0xcbbb_9d5d_c105_9ed8));
    let mut builds = SOURCES.map(|_| Count::default());
    let (mut refusals, mut by_rust) = (Refusals::default(), Count::default());
    let mut shown = 0;
    let mut call = |b: Build| {
        let expected = b.number();
        if let Some(number) = rust_number(&b, expected) {
            by_rust.calls += 1;
            by_rust.unlike += u64::from(number != expected);
        }
        let entry = match (expected, b.order, b.points) {
            (0, 3, _) => &mut builds[0],
            (0, _, 2) => &mut builds[1],
            (0, _, _) => &mut builds[2],
            _ => refusals.of(expected),
        };
        entry.calls += 1;
        let mode = mode_of(&b, &mut modes);
        let like = if expected == 0 { count_build(entry, &b, mode) } else { count_refusal(entry, &b, mode, expected) };
        if !like {
            entry.unlike += 1;
            shown += 1;
            if shown <= 5 {
                eprintln!("unlike: expected {expected}, {:?} from {}, mode {mode}", run(&b, mode).0, describe(&b));
            }
        }
    };
    every(&mut random, &mut call);
    for trial in 0..count {
        call(if trial % 2 == 0 { served(&mut random) } else { doubtful(&mut random) });
    }
    for ((what, against), count) in SOURCES.iter().zip(&builds) {
        count.print_zeros(what, against);
    }
    refusals.print("refused builds", "document 01's questions as plain tests");
    by_rust.print("refused builds that the Rust refuses too", "the Rust's own errors");
}

// ---- time

pub fn time() {
    let mut random = Random(0xbb67_ae85_84ca_a73b);
    for order in [3, 5, 7] {
        for points in [2, 16, 257] {
            for axes in [1, 8] {
                let mut b = Build::random(&mut random, order, points, axes);
                let numbers = random.coordinates(axes * (order / 2));
                b.start = State { given: Some((axes, order / 2, false)), numbers };
                b.end = b.start.clone();
                assert_eq!(b.number(), 0);
                let mut cells = vec![0.0; b.cells];
                let mut here = |_| assert_eq!(ours(black_box(&b), b.clamp.into(), &mut cells).number, 0);
                let (waypoints, config) = b.in_rust();
                let there = |_| drop(black_box(SplinePath::from_waypoints(black_box(&waypoints), &config)));
                // as many calls a round as take the Rust some two milliseconds
                let start = Instant::now();
                there(0);
                let calls = (2e-3 / start.elapsed().as_secs_f64()).clamp(1.0, 20000.0) as usize;
                here(0);
                let (here, there) = best(calls, here, there);
                print_time(&format!("build, order {order}, {points} points, {}", counted(axes, "axis", "axes")), here, there);
            }
        }
    }
}

// ---- trials

/// A call of crates/test_build or crates/test_preview.
pub fn print_call(name: &str, b: &Build) {
    trials::name(name);
    trials::whole("order", b.order);
    trials::float("s_min", b.s_min);
    trials::float("s_max", b.s_max);
    trials::whole("mode", b.clamp.into());
    for (end, state) in [("start", &b.start), ("end", &b.end)] {
        let spline_state { kind, rows, columns } = shape(state, b.axes, b.order / 2);
        trials::whole(&format!("{end} kind"), kind.into());
        trials::whole(&format!("{end} rows"), rows);
        trials::whole(&format!("{end} columns"), columns);
    }
    trials::whole("points", b.points);
    trials::whole("axes", b.axes);
    for (list, length) in ["waypoints", "start", "end"].iter().zip(lists(b)) {
        trials::whole(list, length.len());
    }
    trials::whole("cells", b.cells);
    for (list, on_a_line) in lists(b).into_iter().zip([b.axes, b.start.numbers.len(), b.end.numbers.len()]) {
        trials::floats(list, on_a_line);
    }
}

/// Its number and record.
pub fn print_answer(number: u32, path: &spline_path) {
    trials::whole("= number", number as usize);
    trials::whole("= order", path.order);
    trials::whole("= segments", path.segments);
    trials::whole("= axes", path.axes);
    trials::float("= s_min", path.s_min);
    trials::float("= s_max", path.s_max);
    trials::float("= inv_ds", path.inv_ds);
    trials::whole("= mode", path.mode.into());
}

/// A build of crates/test_build: the call, and what the Rust makes of it.
fn trial(name: &str, b: &Build) {
    assert_eq!(b.number(), 0);
    let path = b.path().expect("the Rust builds it");
    print_call(name, b);
    print_answer(0, &record(b, inv_ds(&path)));
    trials::whole("= cells", b.cells);
    trials::floats(coefficients(&path), b.order + 1);
}

/// The last trials of crates/test_build: trial pieces m, n and o of document 01 and four more, by the Rust.
pub fn trials() {
    let none = |beside: &[f64]| State { given: None, numbers: beside.to_vec() };
    let given =
        |axes: usize, marked: bool, numbers: &[f64]| State { given: Some((axes, numbers.len() / axes, marked)), numbers: numbers.to_vec() };
    let piece = |name: &str, order: usize, axes: usize, waypoints: &[f64], start: State, end: State, s_max: f64| {
        let points = waypoints.len() / axes;
        let cells = axes * (points - 1) * (order + 1);
        trial(name, &Build { order, points, axes, waypoints: waypoints.to_vec(), start, end, s_min: 0.0, s_max, clamp: true, cells });
    };
    let (unit, seven) = ([0.0, 1.0], [7.0]);
    trials::remark("From here on printed by compare/run SPLINE_RS builds trials:");
    trials::remark("the answers are the Rust's.");
    trials::remark("Range 0 to 49. The coefficients are piece a's: no state, so the");
    trials::remark("range does not count.");
    piece("m", 3, 1, &unit, none(&seven), none(&seven), 49.0);
    trials::remark("Range 0 to 2, start 3 per unit of s: \"coefficient 1 is 6\". The");
    trials::remark("last two by table H of document 01: 3 - 2 * 6 and -2 + 6.");
    piece("n", 3, 1, &unit, given(1, true, &[3.0]), none(&[3.0]), 2.0);
    trials::remark("Axis one is piece f. Axis two has the points 0 0 0, start 48 0");
    trials::remark("and end 0 24: B u = -A start - C end gives the inner node");
    trials::remark("-18 36, and table H the rest.");
    let waypoints = [0.0, 0.0, 3.0, 0.0, 0.0, 0.0];
    piece("two axes, order 5", 5, 2, &waypoints, given(2, false, &[0.0, 48.0, 0.0, 0.0]), given(2, false, &[0.0, 0.0, 0.0, 24.0]), 1.0);
    trials::remark("Range 0 to 4, so inv_ds is 1/4; start 3 5 per unit of s: the");
    trials::remark("first is divided once and is 12, the second twice and is 80.");
    trials::remark("The rest by table H.");
    piece("per unit of s, order 5", 5, 1, &unit, given(1, true, &[3.0, 5.0]), none(&[3.0, 5.0]), 4.0);
    trials::remark("Range 0 to 49, start 3 3 3 per unit of s. 1/49 is no float, and");
    trials::remark("dividing 3 by its square or its cube gives other bits than \"one");
    trials::remark("division after another\". The Rust is given the quotients.");
    piece("divided in turn, order 7", 7, 1, &unit, given(1, true, &[3.0, 3.0, 3.0]), none(&seven), 49.0);
    trials::remark("A state that is none has zeros, whatever stands in the list");
    trials::remark("beside it. The coefficients are piece b's.");
    piece("NaN beside none, order 5", 5, 1, &unit, none(&[f64::NAN; 3]), none(&[f64::NAN; 3]), 1.0);
    trials::remark("\"The points 0, 1, .. 256 are accepted\". Orders 5 and 7 are the");
    trials::remark("Rust's over the stand-in for nalgebra's factoring and solving.");
    let line: Vec<f64> = (0..257).map(f64::from).collect();
    for order in [3, 5, 7] {
        piece(&format!("o, 257 points, order {order}"), order, 1, &line, none(&seven), none(&seven), 1.0);
    }
}
