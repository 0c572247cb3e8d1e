//! The master check against exact whole numbers.
//!
//! The Rust of copp has no such check. An expected answer comes from document 01's questions and equations as plain tests
//! over i128 (`Set::answer` of set.rs). A set that is to be good is made in one of three ways, and its table is then solved
//! for anew from its points and states, in exact arithmetic by document 01's tables (exact.rs): it has to come out the same.

use crate::asked::first_no;
use crate::exact;
use crate::random::Random;
use crate::rows::{best, counted, print_time, Count, Refusals, GUARD};
use crate::set::{binomial, Set, LIMIT};
use crate::trials;
use std::hint::black_box;
use tezvorup::raw::{spline_check, spline_check_master};

fn ours(order: usize, [waypoints, start, end, table]: [&[i64]; 4]) -> spline_check {
    // SAFETY: each pointer comes with the length of its list, and the function takes any numbers and writes nothing.
    unsafe {
        spline_check_master(
            order,
            waypoints.as_ptr(),
            waypoints.len(),
            start.as_ptr(),
            start.len(),
            end.as_ptr(),
            end.len(),
            table.as_ptr(),
            table.len(),
        )
    }
}

/// The record for an answer as `Set::answer` has it. (No refusal's number is 1.)
fn record(answer: u32) -> spline_check {
    spline_check { number: if answer == 1 { 0 } else { answer }, good: u8::from(answer == 1) }
}

const ORDERS: [usize; 3] = [3, 5, 7];

// ---- good sets

/// Coefficient r, on its piece k, of the B-spline of degree n with whole knots, times n!: by its truncated powers.
fn piece(n: usize, k: usize, r: usize) -> i128 {
    let term = |j: usize| (1 - 2 * (j as i128 % 2)) * binomial(n + 1, j) * ((k - j) as i128).pow((n - r) as u32);
    binomial(n, r) * (0..=k).map(term).sum::<i128>()
}

/// A sum of B-splines with whole factors within `most`: its numbers do not grow from segment to segment.
fn bumps(random: &mut Random, n: usize, segments: usize, most: i64) -> Set {
    let sparse = random.one_in(4);
    let factors: Vec<i64> = (0..segments + n).map(|_| if sparse && !random.one_in(9) { 0 } else { random.between(-most, most) }).collect();
    let pieces: Vec<Vec<i128>> = (0..=n).map(|k| (0..=n).map(|r| piece(n, k, r)).collect()).collect();
    let cell = |i: usize, r: usize| (0..=n).map(|k| pieces[k][r] * i128::from(factors[i + n - k])).sum::<i128>() as i64;
    Set::of_table(n, (0..segments).flat_map(|i| (0..=n).map(move |r| (i, r))).map(|(i, r)| cell(i, r)).collect())
}

/// Random points and states, all times the least common denominator of their table.
fn scaled(random: &mut Random, order: usize, segments: usize, most: i64) -> Option<Set> {
    let mut list = |n: usize| -> Vec<i64> { (0..n).map(|_| random.between(-most, most)).collect() };
    let m = (order - 1) / 2;
    let given = [list(segments + 1), list(m), list(m)];
    let factor = exact::denominator(&given[0], &given[1], &given[2])?;
    let [waypoints, start, end] = given.map(|numbers| numbers.iter().map(|z| z * factor).collect::<Vec<i64>>());
    let table = exact::table(&waypoints, &start, &end);
    Some(Set { order, waypoints, start, end, table })
}

/// A good set of so many segments, in one of three ways: a sum of B-splines at any count, and at few segments also random
/// points and states, and a table that goes on from segment to segment. Its numbers are small, or as large as they may be.
fn good(random: &mut Random, order: usize, segments: usize) -> Set {
    let mut most = random.pick(&[1, 9, 1000, LIMIT / 4]);
    loop {
        let set = match random.below(4) {
            0 if segments <= 5 => scaled(random, order, segments, most),
            1 if segments <= 6 => Some(Set::continued(random, order, segments, most)),
            _ => Some(bumps(random, order, segments, most)),
        };
        if let Some(set) = set.filter(|set| set.number() == 0) {
            assert!(set.is_good());
            assert!(exact::table(&set.waypoints, &set.start, &set.end) == set.table);
            return set;
        }
        most = (most / 2).max(1);
    }
}

/// A table that meets its points and states and is smooth to the eye: joints agree to r = m, and no further but by chance.
fn smooth(random: &mut Random, order: usize, segments: usize) -> Set {
    let most = random.pick(&[1, 9, 1000, 1 << 20]);
    let mut list = |n: usize| -> Vec<i64> { (0..n).map(|_| random.between(-most, most)).collect() };
    let waypoints = list(segments + 1);
    let nodes: Vec<Vec<i64>> = (0..=segments).map(|_| list((order - 1) / 2)).collect();
    let table = exact::through(&waypoints, &nodes);
    Set { order, waypoints, start: nodes[0].clone(), end: nodes[segments].clone(), table }
}

/// The number at a place, counted through all four lists.
fn cell(set: &mut Set, mut place: usize) -> &mut i64 {
    for list in set.lists_mut() {
        if place < list.len() {
            return &mut list[place];
        }
        place -= list.len();
    }
    panic!("no such place")
}

fn size(set: &Set) -> usize {
    set.lists().iter().map(|list| list.len()).sum()
}

// ---- trials

/// A set of crates/test_master with its answer, and changes, each of which is made to the set as it was: a place among its
/// numbers, what stands there then, and the answer.
fn trial(random: &mut Random, name: &str, set: &Set) {
    let (points, m) = (set.waypoints.len(), set.start.len());
    let all = size(set);
    let ends = [0, points - 1, points, points + m - 1, points + m, points + 2 * m - 1, points + 2 * m, all - 1];
    let some: Vec<usize> = (0..16).map(|_| random.below(all as u64) as usize).collect();
    let places: Vec<usize> = if points <= 5 { (0..all).collect() } else { [&ends[..], &some].concat() };
    let mut changes: Vec<(usize, i64)> = Vec::new();
    let mut copy = set.clone();
    for place in places {
        let z = *cell(&mut copy, place);
        changes.push((place, z + random.pick(&[-40, -1, 1, 7])));
    }
    for z in [LIMIT, -LIMIT, LIMIT + 1, -LIMIT - 1] {
        changes.push((random.below(all as u64) as usize, z));
    }
    trials::name(name);
    trials::whole("order", set.order);
    for (what, list) in ["waypoints", "start", "end", "table"].iter().zip(set.lists()) {
        trials::whole(what, list.len());
    }
    for (list, on_a_line) in set.lists().into_iter().zip([8, m, m, set.order + 1]) {
        trials::integers(list, on_a_line);
    }
    trials::whole("= answer", set.answer() as usize);
    trials::whole("changes", changes.len());
    for (place, z) in changes {
        let mut changed = set.clone();
        *cell(&mut changed, place) = z;
        trials::integers(&[place as i64, z, changed.answer().into()], 3);
    }
}

/// The last trials of crates/test_master: sets made in exact arithmetic, good ones and some that are smooth to r = m alone.
pub fn trials() {
    let mut random = Random(0x9b05_688c_2b3e_6c1f);
    trials::remark("From here on printed by compare/run SPLINE_RS masters trials:");
    trials::remark("the answers are document 01's equations over exact numbers.");
    for order in ORDERS {
        for points in [2, 2, 3, 3, 3, 4, 4, 5, 5, 6, 7, 9, 16, 33, 64, 129, 255, 256, 257] {
            let set = good(&mut random, order, points - 1);
            trial(&mut random, &format!("good, order {order}, {points} points"), &set);
        }
        for points in [3, 4, 5, 17] {
            let set = smooth(&mut random, order, points - 1);
            trial(&mut random, &format!("smooth to the eye, order {order}, {points} points"), &set);
        }
    }
}

// ---- compare

const CHANGES: u64 = 16;

/// One more or less, or some.
fn change_length(random: &mut Random, list: &mut Vec<i64>) {
    let by = random.pick(&[1, 1, 2, 3, 8]);
    let length = if random.one_in(2) { list.len() + by } else { list.len().saturating_sub(by) };
    list.resize_with(length, || random.between(-9, 9));
}

/// Something in a set is changed. What the answer then is, is not said here.
fn change(random: &mut Random, set: &mut Set, which: u64) {
    let all = size(set);
    let place = random.below(all.max(1) as u64) as usize;
    let which = if all == 0 { 8 } else { which };
    match which {
        0 => *cell(set, place) += random.pick(&[-1, 1]),
        1 => *cell(set, place) ^= 1 << random.below(40),
        2 => *cell(set, place) = random.pick(&[0, 1, LIMIT, -LIMIT]),
        3 => *cell(set, place) = random.pick(&[LIMIT + 1, -LIMIT - 1, i64::MIN, i64::MAX, 1 << 62]),
        // a state's number; and one of the table
        4 => {
            let first = set.waypoints.len();
            let states = (set.start.len() + set.end.len()).max(1) as u64;
            *cell(set, (first + random.below(states) as usize).min(all - 1)) += 1;
        }
        5 if !set.table.is_empty() => {
            let at = random.below(set.table.len() as u64) as usize;
            set.table[at] += random.pick(&[-1, 1, 1000]);
        }
        // two neighbours change places
        6 => {
            let next = (place + 1).min(all - 1);
            let (a, b) = (*cell(set, place), *cell(set, next));
            (*cell(set, place), *cell(set, next)) = (b, a);
        }
        // the whole curve is moved: still good
        7 => {
            let by = random.between(-1000, 1000);
            set.waypoints.iter_mut().for_each(|z| *z += by);
            set.table.iter_mut().step_by(set.order.saturating_add(1)).for_each(|z| *z += by);
        }
        8 => set.order = random.pick(&[0, 1, 2, 3, 4, 5, 6, 7, 8, 9, usize::MAX]),
        9 => change_length(random, &mut set.waypoints),
        10 => change_length(random, &mut set.start),
        11 => change_length(random, &mut set.end),
        12 => change_length(random, &mut set.table),
        // at a limit of the points or one beyond, the table as long as it would have to be
        13 => {
            let points = random.pick(&[0, 1, 2, 3, 255, 256, 257, 258, 259, 300]);
            set.waypoints.resize(points, 0);
            let cells = points.saturating_sub(1).saturating_mul(set.order.saturating_add(1)).min(4096);
            set.table.resize(cells, 0);
        }
        // any lengths at all
        14 => set.lists_mut().into_iter().for_each(|list| list.truncate(random.below(list.len() as u64 + 1) as usize)),
        // backwards, or all of the other sign: the latter is still good
        _ => {
            if random.one_in(2) {
                set.waypoints.reverse();
            } else {
                set.lists_mut().into_iter().flatten().for_each(|z| *z = z.wrapping_neg());
            }
        }
    }
}

/// A list with numbers on both sides of it, which no rule would take for its own.
fn guarded(list: &[i64]) -> Vec<i64> {
    let guard = [0x4bad_cafe_4bad_cafe; GUARD];
    [&guard, list, &guard].concat()
}

/// The answer, if nothing was written to the lists or beside them.
fn checked(set: &Set) -> Option<spline_check> {
    let before = set.lists().map(|list| guarded(list));
    let lent = before.clone();
    let answer = ours(set.order, lent.each_ref().map(|list| &list[GUARD..list.len() - GUARD]));
    (before == lent).then_some(answer)
}

pub fn compare(count: u64) {
    let mut random = Random(0x1f83_d9ab_fb41_bd6b);
    let (mut no, mut yes, mut refusals) = (Count::default(), Count::default(), Refusals::default());
    let mut base = good(&mut random, 3, 1);
    for trial in 0..count {
        if trial % 32 == 0 {
            let segments = match random.below(8) {
                0 => random.between(1, 256) as usize,
                1 => random.pick(&[1, 2, 254, 255, 256]),
                _ => random.between(1, 6) as usize,
            };
            let order = random.pick(&ORDERS);
            base = if random.one_in(8) { smooth(&mut random, order, segments) } else { good(&mut random, order, segments) };
        }
        let mut set = base.clone();
        // as it is; one change; and at times a second one, where the first no has to give its number
        if trial % 8 > 0 {
            let which = random.below(CHANGES);
            change(&mut random, &mut set, which);
        }
        if trial % 8 > 5 {
            let which = random.below(CHANGES);
            change(&mut random, &mut set, which);
        }
        let expected = set.answer();
        let answer = checked(&set);
        let entry = match expected {
            0 => &mut no,
            1 => &mut yes,
            number => refusals.of(number),
        };
        entry.calls += 1;
        // whether it is good; and of a refusal every cell of the four lists and of those beside them
        entry.numbers += if expected < 2 { 1 } else { (1 + size(&set) + 8 * GUARD) as u64 };
        if answer != Some(record(expected)) {
            entry.unlike += 1;
            if entry.unlike <= 5 {
                let lengths = set.lists().map(|list| list.len());
                eprintln!("unlike: expected {expected}, {answer:?} from order {}, lengths {lengths:?}, {:?}", set.order, &set.lists()[..3]);
            }
        }
    }
    yes.print("master checks that say yes", "document 01's equations over exact whole numbers");
    no.print("master checks that say no", "document 01's equations over exact whole numbers");
    refusals.print("refused master checks", "document 01's questions as plain tests");
}

// ---- time

/// C(k,r) by r and k.
const BINOMIALS: [[i64; 8]; 7] = [
    [1, 1, 1, 1, 1, 1, 1, 1],
    [0, 1, 2, 3, 4, 5, 6, 7],
    [0, 0, 1, 3, 6, 10, 15, 21],
    [0, 0, 0, 1, 4, 10, 20, 35],
    [0, 0, 0, 0, 1, 5, 15, 35],
    [0, 0, 0, 0, 0, 1, 6, 21],
    [0, 0, 0, 0, 0, 0, 1, 7],
];

/// The check as one would write it in Rust, with a constant order.
fn plain<const CELLS: usize>([waypoints, start, end, table]: [&[i64]; 4]) -> u32 {
    let m = CELLS / 2 - 1;
    let within = |list: &[i64]| list.iter().all(|z| (-LIMIT..=LIMIT).contains(z));
    let questions = [
        (waypoints.len() >= 2, 304),
        (waypoints.len() <= 257, 2),
        (start.len() == m && end.len() == m, 303),
        (table.len() == waypoints.len().saturating_sub(1) * CELLS, 2),
    ];
    let number = first_no(&questions);
    if number != 0 {
        return number;
    }
    if !(within(waypoints) && within(start) && within(end) && within(table)) {
        return 4;
    }
    let sum = |segment: &[i64], r: usize| -> i64 { (0..CELLS).map(|k| BINOMIALS[r][k] * segment[k]).sum() };
    let mut segments = table.chunks_exact(CELLS).zip(waypoints.windows(2)).peekable();
    let mut good = table[1..=m] == *start;
    while let Some((segment, ends)) = segments.next() {
        good &= segment[0] == ends[0] && sum(segment, 0) == ends[1];
        good &= match segments.peek() {
            Some((next, _)) => (1..=2 * m).all(|r| sum(segment, r) == next[r]),
            None => (1..=m).all(|r| sum(segment, r) == end[r - 1]),
        };
    }
    good.into()
}

#[inline(never)]
fn in_rust(order: usize, lists: [&[i64]; 4]) -> u32 {
    match order {
        3 => plain::<4>(lists),
        5 => plain::<6>(lists),
        7 => plain::<8>(lists),
        _ => 302,
    }
}

pub fn time() {
    let mut random = Random(0x5be0_cd19_137e_2179);
    for order in ORDERS {
        for segments in [1, 16, 64, 256] {
            let set = good(&mut random, order, segments);
            let lists = set.lists().map(|list| &list[..]);
            let here = |_| assert_eq!(ours(order, black_box(lists)), record(1));
            let there = |_| assert_eq!(in_rust(black_box(order), black_box(lists)), 1);
            let (here, there) = best(1 + 20_000 / segments, here, there);
            print_time(&format!("check, order {order}, {}", counted(segments, "segment", "segments")), here, there);
        }
    }
}
