//! Job sheets against a second reader (sheet.rs), which was written from documents 02 and 03 alone.
//!
//! A sheet is typed at random and then damaged; both readers are to give the same number and place.
//! A sheet that is built has the coefficients of the Rust text, as builds.rs has them, here bit for bit, zeros included.
//! The program is given the same sheets, and what it writes is compared whole.

use crate::builds::same_record;
use crate::random::Random;
use crate::rows::{best, guarded, kept, lent, print_time, Count, Refusals};
use crate::sheet::{self, Refusal, Sheet, HEAD, LONGEST, PRINTED, SHEET};
use crate::spline::{coefficients, inv_ds};
use crate::typed::{damage, damaged_near_the_limit, every_damage, fourfold, long, padded, random_bytes, repeated, typed, walk};
use std::hint::black_box;
use std::io::Write;
use std::process::{Command, Stdio};
use std::time::Duration;
use tezvorup::raw::spline_path;

// ---- the library and the program

#[repr(C)]
#[derive(Clone, Copy, Debug)]
#[allow(non_camel_case_types)]
struct spline_place {
    number: u32,
    at: usize,
}

#[repr(C)]
#[derive(Clone, Copy, Debug)]
#[allow(non_camel_case_types)]
struct spline_sheet {
    number: u32,
    at: usize,
    path: spline_path,
}

extern "C" {
    fn spline_read_sheet(text: *const u8, text_count: usize) -> spline_place;
    fn spline_build_sheet(text: *const u8, text_count: usize, coefficients: *mut f64, coefficient_count: usize) -> spline_sheet;
}

fn ours(text: &[u8]) -> Refusal {
    // SAFETY: the pointer comes with the length of its list, and the function takes any bytes and writes nothing.
    let spline_place { number, at } = unsafe { spline_read_sheet(text.as_ptr(), text.len()) };
    (number, at)
}

fn our_build(text: &[u8], cells: &mut [f64]) -> spline_sheet {
    // SAFETY: each pointer comes with the length of its list, the cells are borrowed as mutable and so lie apart from the text,
    // and the function takes any bytes.
    unsafe { spline_build_sheet(text.as_ptr(), text.len(), cells.as_mut_ptr(), cells.len()) }
}

const PROGRAM: &str = "target/bin/job_sheet";

/// What the program writes. It is handed the text in two pieces, the second one after a moment if there is a pause.
fn program(text: &[u8], pause: Option<Duration>) -> Vec<u8> {
    let child = Command::new(PROGRAM).stdin(Stdio::piped()).stdout(Stdio::piped()).stderr(Stdio::null()).spawn();
    let mut child = child.unwrap_or_else(|error| panic!("{PROGRAM} does not start: {error}"));
    let mut input = child.stdin.take().expect("it is piped");
    let output = std::thread::scope(|scope| {
        // a program that has seen enough may stop reading
        scope.spawn(move || {
            let (first, second) = text.split_at(text.len() / 2);
            let _ = input.write_all(first);
            pause.into_iter().for_each(std::thread::sleep);
            let _ = input.write_all(second);
        });
        child.wait_with_output()
    });
    output.expect("the program ends").stdout
}

// ---- what is expected

/// The Rust's table of a sheet that no question refuses, and its inv_ds.
pub fn table(sheet: &Sheet) -> (Vec<f64>, f64) {
    let build = sheet.build();
    assert_eq!(build.number(), 0);
    let path = build.path().expect("the Rust builds it");
    (coefficients(&path).to_vec(), inv_ds(&path))
}

/// All that the program is to write.
pub fn written(text: &[u8]) -> Vec<u8> {
    match sheet::judged(text, usize::MAX) {
        ((0, _), Some(sheet)) => sheet.printed(&table(&sheet).0),
        (refusal, _) => sheet::refused(refusal),
    }
}

/// The record that a build hands over.
fn record(sheet: &Sheet, inv_ds: f64) -> spline_path {
    spline_path {
        order: sheet.order as usize,
        segments: sheet.points() - 1,
        axes: sheet.axes.len(),
        s_min: sheet.range.0 as f64,
        s_max: sheet.range.1 as f64,
        inv_ds,
        mode: 0,
    }
}

// ---- compare

/// A text as it is shown: the part round a place where it is long.
fn shown(text: &[u8], place: usize) -> String {
    let (from, to) = (place.saturating_sub(200).min(text.len()), (place + 50).min(text.len()));
    format!("{} bytes, from {from} on {}", text.len(), text[from..to].escape_ascii())
}

/// Texts that were judged, by the number that was expected.
#[derive(Default)]
struct Judged {
    all: Refusals,
    unlike: u64,
}

impl Judged {
    fn judge(&mut self, text: &[u8]) {
        let (expected, found) = (sheet::judge(text), ours(text));
        let entry = self.all.of(expected.0);
        entry.calls += 1;
        entry.numbers += 2;
        if expected != found {
            entry.unlike += 1;
            self.unlike += 1;
            if self.unlike <= 5 {
                eprintln!("unlike: expected {expected:?}, {found:?} from {}", shown(text, expected.1.min(found.1)));
            }
        }
    }
}

const AGAINST: &str = "a second reader, from documents 02 and 03 alone";

/// So many judgements, some more to end a round.
fn compare_reading(count: u64) {
    let mut random = Random(0xd728_ae22_428a_2f98);
    let [mut plain, mut one, mut more, mut near] = [(); 4].map(|_| Judged::default());
    let mut calls = 0;
    let mut round = 0;
    while calls < count {
        let mut text = Vec::new();
        for _ in 0..8 {
            text = typed(&mut random);
            plain.judge(&text);
        }
        for _ in 0..16 {
            let mut copy = text.clone();
            damage(&mut random, &mut copy);
            one.judge(&copy);
            damage(&mut random, &mut copy);
            more.judge(&copy);
        }
        more.judge(&random_bytes(&mut random));
        if round % 4 == 0 {
            walk(&mut random, |text| more.judge(text));
            let mut text = long(&mut random);
            near.judge(&text);
            for _ in 0..2 {
                damaged_near_the_limit(&mut random, &mut text);
                near.judge(&text);
            }
        }
        if round % 64 == 0 {
            let short = (0..).map(|_| typed(&mut random)).find(|text| text.len() < 200).expect("there is always another one");
            every_damage(&short, |text| one.judge(text));
        }
        round += 1;
        calls = [&plain, &one, &more, &near].iter().map(|judged| judged.all.calls()).sum();
    }
    plain.all.print("sheets as typed", AGAINST);
    one.all.print("sheets with one damage", AGAINST);
    more.all.print("sheets with two damages, random bytes, walks through the grammar", AGAINST);
    near.all.print("sheets near 32768 bytes, and longer", AGAINST);
}

/// The examples of the papers: number and place.
fn compare_examples() {
    let [mut second, mut here] = [(); 2].map(|_| Count::default());
    for (text, number, place) in sheet::examples() {
        for (count, found) in [(&mut second, sheet::judge(&text)), (&mut here, ours(&text))] {
            count.calls += 1;
            count.numbers += 2;
            if found != (number, place) {
                count.unlike += 1;
                eprintln!("unlike: expected {number} at {place}, {found:?} from {}", shown(&text, place));
            }
        }
    }
    assert_eq!(written(SHEET.as_bytes()), PRINTED.as_bytes());
    here.print("the examples of documents 02 and 03", "their numbers and places");
    second.print("the same by the second reader", "their numbers and places");
}

/// How many numbers a path's record has, with number and place.
const FIELDS: u64 = 9;

/// The length of a buffer that is lent: the table's own, a longer or a shorter one.
fn buffer(random: &mut Random, cells: usize) -> usize {
    match random.below(8) {
        0 => cells.saturating_sub(1),
        1 => random.below(cells as u64 + 1) as usize,
        2 => cells + 1,
        3 => cells + random.below(40) as usize,
        _ => cells,
    }
}

/// A text that is to be built: as typed, with a damage, or a long one.
fn to_build(random: &mut Random) -> Vec<u8> {
    if random.one_in(64) {
        return long(random);
    }
    let mut text = typed(random);
    if random.one_in(4) {
        damage(random, &mut text);
    }
    text
}

/// A sheet's build with a buffer of so many cells: whether number, place, record and every cell are as they should be.
fn built(count: &mut Count, text: &[u8], expected: Refusal, sheet: Option<&Sheet>, length: usize) -> bool {
    let given = text.to_vec();
    let mut cells = guarded(0, length);
    let mut after = cells.clone();
    let answer = our_build(text, lent(&mut after));
    let mut path = spline_path::default();
    if let (0, Some(sheet)) = (expected.0, sheet) {
        let (table, inv_ds) = table(sheet);
        lent(&mut cells)[..table.len()].copy_from_slice(&table);
        count.zeros += table.iter().filter(|x| x.to_bits() == (-0.0f64).to_bits()).count() as u64;
        path = record(sheet, inv_ds);
    }
    count.calls += 1;
    count.numbers += FIELDS + after.len() as u64;
    let like = (answer.number, answer.at) == expected && same_record(&answer.path, &path) && kept(&cells, &after) && given == text;
    if !like {
        count.unlike += 1;
        if count.unlike <= 5 {
            let cell = cells.iter().zip(&after).position(|(x, y)| x.to_bits() != y.to_bits());
            eprintln!("unlike: expected {expected:?} {path:?}, {answer:?} with {length} cells, {cell:?} differs, from {}", shown(text, 0));
        }
    }
    like
}

/// The examples, and so many others.
fn compare_building(count: u64) {
    let mut random = Random(0x7137_4491_23ef_65cd);
    let (mut served, mut refusals) = (Count::default(), Refusals::default());
    let mut texts: Vec<Vec<u8>> = sheet::examples().into_iter().map(|(text, _, _)| text).collect();
    for _ in 0..count {
        let text = texts.pop().unwrap_or_else(|| to_build(&mut random));
        let (_, sheet) = sheet::judged(&text, usize::MAX);
        // a table that there cannot be is as long as some other
        let cells = sheet.as_ref().map_or(24, |sheet| sheet.cells().clamp(0, 1 << 14) as usize);
        let length = buffer(&mut random, cells);
        let (expected, _) = sheet::judged(&text, length);
        let entry = if expected.0 == 0 { &mut served } else { refusals.of(expected.0) };
        built(entry, &text, expected, sheet.as_ref(), length);
    }
    let what = format!("sheets built, number, place, record and every cell ({} zeros with a minus)", served.zeros);
    served.print(&what, "the second reader, and the Rust text as at builds, to the bit");
    refusals.print("sheets whose build is refused, every cell", AGAINST);
}

/// The examples, and so many others, through the program.
fn compare_program(count: u64) {
    let mut random = Random(0xb5c0_fbcf_ec4d_3b2f);
    let mut all = Refusals::default();
    let mut texts: Vec<Vec<u8>> = sheet::examples().into_iter().map(|(text, _, _)| text).collect();
    let mut unlike = 0;
    for trial in 0..count {
        let text = texts.pop().unwrap_or_else(|| match trial % 8 {
            0 => random_bytes(&mut random),
            _ => to_build(&mut random),
        });
        let pause = (trial % 16 == 0).then_some(Duration::from_millis(2));
        let (expected, found) = (written(&text), program(&text, pause));
        let entry = all.of(sheet::judge(&text).0);
        entry.calls += 1;
        entry.numbers += expected.len() as u64;
        if expected != found {
            entry.unlike += 1;
            unlike += 1;
            if unlike <= 5 {
                let place = expected.iter().zip(&found).position(|(x, y)| x != y).unwrap_or(expected.len().min(found.len()));
                eprintln!("unlike: expected {}\n  found {}\n  from {}", shown(&expected, place), shown(&found, place), shown(&text, 0));
            }
        }
    }
    all.print("the program job_sheet, its whole output, in bytes", "what the second reader prints");
}

/// So much stack has a thread that reads and builds the longest sheets.
const STACK: usize = 256 * 1024;

/// Sheets of 32,768 bytes, nested and plain, that can be built and that cannot.
fn longest() -> Vec<Vec<u8>> {
    let mut random = Random(0xe9b5_dba5_8189_dbbc);
    let nested = |inner: &str| format!("{HEAD}(axis (points {}) (start 0) (end 0))\n", fourfold(64, inner));
    let room = LONGEST - nested("").len();
    let deep = nested(&("10"[room % 2..].to_string() + &" 0".repeat((room - 1) / 2)));
    assert_eq!(deep.len(), LONGEST);
    vec![
        padded(&mut random, LONGEST, 8, 257, 0),
        padded(&mut random, LONGEST, 8, 76, 100),
        sheet::filled(LONGEST, &[]),
        repeated(&fourfold(64, "0"), LONGEST),
        deep.into_bytes(),
        "(again 1 ".repeat(LONGEST / 9).into_bytes(),
        format!("{HEAD}(axis (points {}", "(again 1 ".repeat(LONGEST / 9)).into_bytes(),
        vec![b'('; LONGEST],
        format!("{HEAD}(axis (points {}", "9".repeat(LONGEST)).into_bytes(),
    ]
}

/// Reads and builds them in such a thread. It fails where an answer is unlike, and dies where the stack does not do.
pub fn stack() {
    let texts: Vec<(Vec<u8>, Refusal)> = longest().into_iter().map(|text| (text.clone(), sheet::judge(&text))).collect();
    let mut cells = vec![0.0; 1 << 14];
    let thread = std::thread::Builder::new().stack_size(STACK).spawn(move || {
        for (text, expected) in texts {
            assert_eq!(ours(&text), expected);
            let answer = our_build(&text, &mut cells);
            assert_eq!((answer.number, answer.at), expected);
        }
    });
    thread.expect("a thread").join().expect("all alike");
}

/// The same in a process of its own, since it would die with this one.
fn compare_stack() {
    let myself = std::env::current_exe().expect("the path of this program");
    let status = Command::new(myself).args(["sheets", "stack"]).status().expect("this program");
    let calls = 2 * longest().len() as u64;
    let count = Count { calls, numbers: 2 * calls, unlike: u64::from(!status.success()), zeros: 0 };
    count.print("the longest sheets, nested and plain, read and built with 256 KB of stack", AGAINST);
}

/// Reads and builds so many texts, each in a block of its own length, with cells in another, for valgrind to watch.
pub fn watch(count: u64) {
    let mut random = Random(0x923f_82a4_af19_4f9b);
    for trial in 0..count {
        let text = if trial % 8 == 0 { random_bytes(&mut random) } else { to_build(&mut random) }.into_boxed_slice();
        let (expected, sheet) = sheet::judged(&text, usize::MAX);
        let cells = sheet.map_or(24, |sheet| sheet.cells().clamp(0, 1 << 14) as usize);
        let mut cells = vec![0.0; buffer(&mut random, cells)].into_boxed_slice();
        assert_eq!(ours(&text), expected);
        let answer = our_build(&text, &mut cells);
        assert_eq!((answer.number, answer.at), sheet::judged(&text, cells.len()).0);
    }
}

/// So many judgements; one in thirty as many builds, and one in four hundred through the program.
pub fn compare(count: u64) {
    compare_examples();
    compare_reading(count);
    compare_building(count / 30);
    compare_stack();
    compare_program(count / 400);
}

// ---- time

/// Document 02's sheet, and sheets of four lengths that can be built, of two kinds.
pub fn time() {
    let mut random = Random(0x3956_c25b_f348_b538);
    time_one(&format!("sheet read, document 02's, {} bytes", SHEET.len()), SHEET.as_bytes());
    for (kind, points, percent) in [("257 points an axis", 257, 0), ("76 points an axis, within four again", 76, 100)] {
        for axes in [1, 2, 4, 8] {
            let text = padded(&mut random, axes * LONGEST / 8, axes, points, percent);
            time_one(&format!("sheet read, {} bytes, {kind}", text.len()), &text);
        }
    }
}

fn time_one(what: &str, text: &[u8]) {
    let expected = (0, text.len());
    let here = |_| assert_eq!(ours(black_box(text)), expected);
    let there = |_| assert_eq!(sheet::judge(black_box(text)), expected);
    let (here, there) = best(1 + 200_000 / text.len(), here, there);
    print_time(what, here, there);
}
