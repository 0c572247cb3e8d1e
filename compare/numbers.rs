//! Numbers of a sheet whose bytes come in pieces, against a second reading of document 03's words, which has all bytes at once.
//!
//! Each text is cut at every two places, and what is kept and said after each piece is what the bytes up to there make. Records that no
//! reading makes are held to what document 03 says of every record.

use crate::random::Random;
use crate::rows::{best, print_time, Count};
use crate::trials;
use std::hint::black_box;
use std::io::Write;
use tezvorup::raw::{spline_begin_number, spline_continue_number, spline_finish_number, spline_number, spline_whole};

// ---- the library

fn begin(at: usize) -> spline_number {
    // SAFETY: the function takes any number.
    unsafe { spline_begin_number(at) }
}

fn go_on(number: spline_number, bytes: &[u8]) -> spline_number {
    // SAFETY: the pointer comes with the length of its list, and the function takes any bytes and any record and writes nothing.
    unsafe { spline_continue_number(number, bytes.as_ptr(), bytes.len()) }
}

fn finish(number: spline_number) -> spline_whole {
    // SAFETY: the function takes any record.
    unsafe { spline_finish_number(number) }
}

// ---- document 03

const LIMIT: u128 = 1 << 40;

/// The worth of digits, or more than any limit.
fn worth(digits: &[u8]) -> u128 {
    digits.iter().fold(0, |n, digit| (n * 10 + u128::from(digit - b'0')).min(1 << 100))
}

/// The digits of a number with or without a minus, up to the first byte that is none.
fn digits(bytes: &[u8]) -> &[u8] {
    let bytes = bytes.strip_prefix(b"-").unwrap_or(bytes);
    &bytes[..bytes.iter().take_while(|byte| byte.is_ascii_digit()).count()]
}

/// What the routine answers for the bytes from a place on.
fn said(at: usize, bytes: &[u8]) -> spline_whole {
    let refused = |number, at| spline_whole { number, at, value: 0 };
    let minus = usize::from(bytes.first() == Some(&b'-'));
    let run = digits(bytes);
    match (minus, run.first()) {
        (0, Some(b'0')) => spline_whole { number: 0, at: at.wrapping_add(1), value: 0 },
        (_, None | Some(b'0')) => refused(600, at.wrapping_add(minus)),
        _ if worth(run) > LIMIT => refused(4, at),
        _ => {
            let size = worth(run) as i64;
            spline_whole { number: 0, at: at.wrapping_add(minus + run.len()), value: if minus == 1 { -size } else { size } }
        }
    }
}

const FRESH: u8 = 0;
const MINUS: u8 = 1;
const ZERO: u8 = 2;
const DIGITS: u8 = 3;
const ENDED: u8 = 4;
const FAULTED: u8 = 5;
const LARGE: u8 = 6;

/// What is kept of the bytes from a place on.
fn kept(at: usize, bytes: &[u8]) -> spline_number {
    let minus = u8::from(bytes.first() == Some(&b'-'));
    let signed = usize::from(minus);
    let run = digits(bytes);
    // how many digits belong to the number: of more than 2^40 those before the one that takes it there
    let (count, stage) = match (minus, run.first()) {
        (0, Some(b'0')) => (1, if bytes.len() == 1 { ZERO } else { ENDED }),
        (_, None | Some(b'0')) if bytes.len() > signed => (0, FAULTED),
        (_, None | Some(b'0')) => (0, if minus == 1 { MINUS } else { FRESH }),
        _ => match (1..=run.len()).find(|&count| worth(&run[..count]) > LIMIT) {
            Some(count) => (count - 1, LARGE),
            None => (run.len(), if bytes.len() == signed + run.len() { DIGITS } else { ENDED }),
        },
    };
    spline_number { start: at, next: at.wrapping_add(signed + count), size: worth(&run[..count]) as u64, stage, minus }
}

// ---- texts

/// Digits of so many, without a leading zero.
fn some_digits(random: &mut Random, count: u64) -> Vec<u8> {
    (0..count).map(|k| b'0' + random.between(i64::from(k == 0), 9) as u8).collect()
}

/// A number, near the limit at times, or what is nearly one; then what comes after it.
fn text(random: &mut Random) -> Vec<u8> {
    let mut text = if random.one_in(3) { b"-".to_vec() } else { Vec::new() };
    let count = random.below(13) + 1;
    match random.below(10) {
        0 => text.push(b'0'),
        1 => text.extend(format!("{}", (1i64 << 40) + random.between(-2, 2)).bytes()),
        2 => text.extend(format!("0{}", random.below(100)).bytes()),
        3 => text.extend((0..random.below(3)).map(|_| random.below(256) as u8)),
        4 => text.extend(some_digits(random, count + 8)),
        _ => text.extend(some_digits(random, count)),
    }
    let after = random.below(4);
    text.extend((0..after).map(|_| if random.one_in(3) { random.below(256) as u8 } else { random.pick(b" )(-0123456789\nx") }));
    text
}

/// Places near 0, and near the greatest.
fn place(random: &mut Random, length: usize) -> usize {
    match random.below(4) {
        0 => 0,
        1 => random.below(40_000) as usize,
        2 => usize::MAX - length - random.below(3) as usize,
        _ => random.bits() as usize / 2,
    }
}

// ---- compare

fn show(count: &Count, what: &str, at: usize, pieces: &[&[u8]]) {
    if count.unlike <= 5 {
        let pieces: Vec<String> = pieces.iter().map(|piece| piece.escape_ascii().to_string()).collect();
        eprintln!("unlike, {what}: at {at}, {}", pieces.join(" | "));
    }
}

/// Every text with every cut in three: what is kept and said after each piece.
fn compare_cuts(texts: u64) {
    let mut random = Random(0x1f83_d9ab_fb41_bd6b);
    let (mut count, mut numbers) = (Count::default(), [0u64; 3]);
    for _ in 0..texts {
        let text = text(&mut random);
        let at = place(&mut random, text.len());
        let expected: Vec<_> = (0..=text.len()).map(|end| (kept(at, &text[..end]), said(at, &text[..end]))).collect();
        numbers[match expected[text.len()].1.number {
            0 => 0,
            4 => 1,
            _ => 2,
        }] += 1;
        for second in 0..=text.len() {
            for first in 0..=second {
                let pieces = [&text[..first], &text[first..second], &text[second..]];
                let (mut number, mut end, mut like) = (begin(at), 0, true);
                for piece in pieces {
                    number = go_on(number, piece);
                    end += piece.len();
                    like &= (number, finish(number)) == expected[end];
                }
                count.calls += 7;
                count.numbers += 3 * 8;
                if !like {
                    count.unlike += 1;
                    show(&count, "a cut in three", at, &pieces);
                }
            }
        }
    }
    let [read, large, faults] = numbers;
    let what = format!("numbers of a sheet in three pieces, every cut of {texts} texts (0: {read}, 4: {large}, 600: {faults})");
    count.print(&what, "document 03's words, with all bytes at once");
}

/// A record that a caller can make: any stage, any sign, any size.
fn forged(random: &mut Random) -> spline_number {
    let size = match random.below(5) {
        0 => 0,
        1 => random.below(1000),
        2 => (1 << 40) - 1 + random.below(3),
        3 => random.bits() >> random.below(60),
        _ => random.pick(&[u64::MAX, 1 << 63, 1 << 41]),
    };
    let stage = if random.one_in(4) { random.below(256) as u8 } else { random.below(8) as u8 };
    let minus = if random.one_in(6) { random.below(256) as u8 } else { random.below(2) as u8 };
    let mut place = || if random.one_in(4) { usize::MAX - random.below(3) as usize } else { random.bits() as usize >> random.below(64) };
    spline_number { start: place(), next: place(), size, stage, minus }
}

/// Records that no reading makes, with bytes in two pieces: nothing changes nothing, the cut does not matter, over is over, digits go on,
/// and what cannot be says 600 at its place.
fn compare_forged(records: u64) {
    let mut random = Random(0x5be0_cd19_137e_2179);
    let mut count = Count::default();
    for _ in 0..records {
        let record = forged(&mut random);
        let text = if random.one_in(3) { text(&mut random) } else { (0..8).map(|_| random.pick(b"-0123456789 ")).collect() };
        let cut = random.below(text.len() as u64 + 1) as usize;
        let whole = go_on(record, &text);
        let known = !is_sound(&record) || record.stage > DIGITS || record.stage == DIGITS && record.size > 0;
        let like = go_on(record, b"") == record
            && go_on(go_on(record, &text[..cut]), &text[cut..]) == whole
            && (!known || whole == after(record, &text))
            && finish(record) == says(&record)
            && whole.start == record.start
            && (!is_sound(&record) || is_sound(&whole));
        count.calls += 5;
        count.numbers += 4 * 5 + 3;
        if !like {
            count.unlike += 1;
            show(&count, &format!("{record:?}"), record.next, &[&text[..cut], &text[cut..]]);
        }
    }
    count.print("records that no reading makes, with bytes in two pieces", "what document 03 says of every record");
}

/// So many texts, and as many records.
pub fn compare(count: u64) {
    compare_cuts(count);
    compare_forged(10 * count);
}

// ---- trials

/// A sign and a size that a reading can have made.
fn is_sound(record: &spline_number) -> bool {
    record.minus <= 1 && record.size <= 1 << 40
}

/// What a record makes of bytes that is over, or that no reading makes, or that stands for digits which were read before it.
fn after(record: spline_number, bytes: &[u8]) -> spline_number {
    if !is_sound(&record) || record.stage > DIGITS {
        return record;
    }
    assert!(record.stage == DIGITS && record.size > 0, "no digits stand for {record:?}");
    let read = format!("{}{}", if record.minus == 1 { "-" } else { "" }, record.size);
    spline_number { start: record.start, ..kept(record.next.wrapping_sub(read.len()), &[read.as_bytes(), bytes].concat()) }
}

/// What a record says: the number, its size with its sign, or a fault's place.
fn says(record: &spline_number) -> spline_whole {
    let value = if record.minus == 1 { -(record.size as i64) } else { record.size as i64 };
    match record.stage {
        ZERO | DIGITS | ENDED if is_sound(record) => spline_whole { number: 0, at: record.next, value },
        LARGE if is_sound(record) => spline_whole { number: 4, at: record.start, value: 0 },
        _ => spline_whole { number: 600, at: record.next, value: 0 },
    }
}

fn print_record(n: &spline_number) {
    println!("{:>20} {:>20} {:>20} {:>20} {:>20}", n.start, n.next, n.size, n.stage, n.minus);
}

/// A trial's pieces, with what is kept and said after so many bytes.
fn print_pieces(pieces: &[&[u8]], expected: impl Fn(&[u8]) -> (spline_number, spline_whole)) {
    trials::whole("pieces", pieces.len());
    let mut text = Vec::new();
    for piece in pieces {
        trials::whole("bytes", piece.len());
        let out = &mut std::io::stdout().lock();
        out.write_all(piece).and_then(|()| out.write_all(b"\n")).expect("standard output takes it");
        text.extend(*piece);
        let (number, whole) = expected(&text);
        print_record(&number);
        println!("{:>20} {:>20} {:>20}", whole.number, whole.at, whole.value);
    }
}

/// A number that is read from a place on: kept and said as document 03 has it.
fn print_reading(at: usize, pieces: &[&[u8]]) {
    trials::whole("begun", 1);
    print_record(&kept(at, b""));
    print_pieces(pieces, |text| (kept(at, text), said(at, text)));
}

/// Document 03's words, every kind of cut, the limits, and records that no reading makes.
pub fn trials() {
    let texts: [&[u8]; 20] = [
        b"0",
        b"05",
        b"0)",
        b"7 8",
        b"-45)",
        b"-",
        b"-0",
        b"-x",
        b"x",
        b"+1",
        b"",
        b"1099511627776",
        b"1099511627777",
        b"1099511627777x",
        b"-1099511627776 ",
        b"-1099511627777",
        b"10995116277760",
        b"99999999999999999999999999999999",
        b"123456789012 3",
        b"1\xff",
    ];
    for (k, text) in texts.iter().enumerate() {
        let at = [0, 36, 32_768, usize::MAX - 40][k % 4];
        trials::name(&format!("{k}: whole"));
        print_reading(at, &[text]);
        trials::name(&format!("{k}: byte by byte"));
        print_reading(at, &text.chunks(1).collect::<Vec<_>>());
        trials::name(&format!("{k}: in three, one of them empty"));
        print_reading(at, &[&text[..text.len() / 2], b"", &text[text.len() / 2..]]);
    }
    let digits = spline_number { start: 3, next: 9, size: 12, stage: DIGITS, minus: 0 };
    let records = [
        spline_number { size: (1 << 40) + 1, ..digits },
        spline_number { size: u64::MAX, minus: 1, ..digits },
        spline_number { stage: 7, ..digits },
        spline_number { stage: 255, ..digits },
        spline_number { minus: 2, ..digits },
        spline_number { stage: ENDED, ..digits },
        spline_number { stage: ENDED, minus: 2, ..digits },
        spline_number { stage: FAULTED, ..digits },
        spline_number { stage: LARGE, ..digits },
        spline_number { stage: LARGE, size: 1 << 41, ..digits },
        spline_number { next: usize::MAX, ..digits },
        spline_number { size: 1 << 40, minus: 1, ..digits },
    ];
    for (k, record) in records.into_iter().enumerate() {
        trials::name(&format!("a record that no reading makes, {k}"));
        trials::whole("begun", 0);
        print_record(&record);
        print_pieces(&[b"", b"3", b"45 6"], |text| (after(record, text), says(&after(record, text))));
    }
}

// ---- time

/// A number in one piece and byte by byte, beside document 03's words in Rust, which have all bytes at once.
pub fn time() {
    for (what, text) in
        [("0", "0 "), ("6 digits", "123456 "), ("a minus and 13 digits", "-1099511627776 "), ("4,096 digits", &"9".repeat(4096))]
    {
        let text = text.as_bytes();
        let expected = said(7, text);
        let there = || assert_eq!(said(7, black_box(text)), expected);
        let (here, rust) = best(10_000, |_| assert_eq!(finish(go_on(begin(7), black_box(text))), expected), |_| there());
        print_time(&format!("number of a sheet, {what}, in one piece"), here, rust);
        let bytes = |_| assert_eq!(finish(black_box(text).chunks(1).fold(begin(7), go_on)), expected);
        let (here, rust) = best(100_000 / text.len(), bytes, |_| there());
        print_time(&format!("number of a sheet, {what}, byte by byte"), here, rust);
    }
}
