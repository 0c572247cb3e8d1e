//! Job sheets at random: as they are typed, near the limit of 32,768 bytes, and damaged.
//! What comes of a text is not said here.

use crate::random::Random;
use crate::sheet::{self, AXIS, GREATEST, HEAD, LONGEST, SHEET};
use std::fmt::Write;
use std::ops::Range;

// ---- sheets as they are typed

/// Orders that there are not, among them some that have 3 or 5 as their last 32 bits.
const NO_ORDERS: [i64; 14] = [-3, -5, -7, -1, 0, 1, 2, 4, 6, 8, 9, 4_294_967_299, -4_294_967_291, GREATEST];

fn number(random: &mut Random) -> i64 {
    match random.below(10) {
        0 | 1 => random.pick(&[0, 1, -1, 9, 10, -10]),
        2 => random.pick(&[GREATEST, -GREATEST, GREATEST - 1, 1 - GREATEST]),
        3 => random.between(-GREATEST, GREATEST),
        _ => random.between(-99, 999),
    }
}

/// Mostly rising.
fn ends(random: &mut Random) -> (i64, i64) {
    let (low, high) = (number(random), number(random));
    match random.below(12) {
        0 => (low, low),
        1 => (low, high),
        2 => (-GREATEST, GREATEST),
        _ if low == high => (0, 2),
        _ => (low.min(high), low.max(high)),
    }
}

/// Items that stand for so many numbers, with at most so many `again` inside one another.
/// They are any numbers, or none is farther from 0 than so much.
fn items(random: &mut Random, text: &mut String, mut n: u64, depth: u32, within: Option<i64>) {
    let mut space = "";
    while n > 0 {
        text.push_str(space);
        space = " ";
        let times = random.pick(&[1, 1, 2, 3, 5, 16, 63, 64]);
        if depth > 0 && times <= n && random.one_in(4) {
            let inner = 1 + random.below(n / times);
            write!(text, "(again {times} ").unwrap();
            items(random, text, inner, depth - 1, within);
            text.push(')');
            n -= times * inner;
        } else {
            let z = match within {
                Some(most) => random.between(-most, most),
                None => number(random),
            };
            write!(text, "{z}").unwrap();
            n -= 1;
        }
    }
}

/// A sheet with so many points and state numbers on each axis.
fn sheet_of(random: &mut Random, order: i64, (low, high): (i64, i64), axes: &[[u64; 3]]) -> Vec<u8> {
    let depth = random.pick(&[0, 1, 2, 3, 4, 4]);
    // where numbers are small, tables have zeros of both signs, and so most of all at rest
    let within = random.pick(&[[None; 3], [None; 3], [Some(1); 3], [Some(1), Some(0), Some(0)]]);
    let mut text = format!("(order {order})\n(range {low} {high})\n");
    for counts in axes {
        let heads = ["(axis (points ", ") (start ", ") (end "];
        for ((head, &count), within) in heads.iter().zip(counts).zip(within) {
            text.push_str(head);
            items(random, &mut text, count, depth, within);
        }
        text.push_str("))\n");
    }
    text.into_bytes()
}

/// Any sheet: mostly short, and mostly one that can be built.
pub fn typed(random: &mut Random) -> Vec<u8> {
    let order = if random.one_in(10) { random.pick(&NO_ORDERS) } else { random.pick(&[3, 5, 7]) };
    let m = if [3, 5, 7].contains(&order) { (order as u64 - 1) / 2 } else { 1 + random.below(3) };
    let points = match random.below(16) {
        0 => random.pick(&[255, 256, 257, 257, 258, 259]),
        1 => 1,
        2 => 1 + random.below(257),
        _ => 2 + random.below(6),
    };
    let axes = match random.below(8) {
        0 => 1 + random.below(8),
        1 => random.pick(&[8, 8, 8, 9]),
        _ => 1 + random.below(3),
    };
    let mut counts = vec![[points, m, m]; axes as usize];
    match random.below(6) {
        0 => spoil(random, &mut counts),
        1 => {
            spoil(random, &mut counts);
            spoil(random, &mut counts);
        }
        _ => {}
    }
    let ends = ends(random);
    sheet_of(random, order, ends, &counts)
}

/// Something in the counts is changed: points, a state, or a number that goes over from one state to another.
fn spoil(random: &mut Random, counts: &mut [[u64; 3]]) {
    let any = |random: &mut Random| (random.below(counts.len() as u64) as usize, 1 + random.below(2) as usize);
    let ((axis, state), (other, taken)) = (any(random), any(random));
    match random.below(6) {
        0 => counts[axis][0] = (counts[axis][0] + random.pick(&[0, 2, 3])).max(2) - 1,
        1 => counts[axis][0] = random.pick(&[1, 257, 258, 259, 300, 2000]),
        2 | 3 if counts[other][taken] > 1 => {
            counts[axis][state] += 1;
            counts[other][taken] -= 1;
        }
        _ => counts[axis][state] = random.below(6),
    }
}

/// A number of so many digits, 1 to 13.
fn digits(random: &mut Random, n: u32) -> i64 {
    if n == 1 {
        return random.between(0, 9);
    }
    let least = 10i64.pow(n - 1);
    random.between(least, (10 * least - 1).min(GREATEST))
}

/// How a number is typed: how many `again` stand round it, whether it has a minus, and how many digits.
#[derive(Clone)]
struct Word {
    around: usize,
    minus: bool,
    digits: u32,
}

impl Word {
    const WRAPPED: usize = "(again 1 )".len();
    /// How many bytes it can grow by, but for what is put round it: twelve more digits and a minus.
    const GROWTH: usize = 13;

    fn typed(&self, random: &mut Random) -> String {
        let z = digits(random, self.digits).max(i64::from(self.minus));
        let minus = if self.minus { "-" } else { "" };
        format!("{}{minus}{z}{}", "(again 1 ".repeat(self.around), ")".repeat(self.around))
    }
}

/// Words that are so many bytes longer than one digit each, with as many `again` as can be, or as few, or a share between.
fn words(random: &mut Random, count: usize, mut spare: usize, percent: usize) -> Vec<Word> {
    let least = spare.saturating_sub(Word::GROWTH * count).div_ceil(Word::WRAPPED);
    let most = (spare / Word::WRAPPED).min(4 * count);
    assert!(least <= most, "it is short enough");
    let mut wraps = least + (most - least) * percent / 100;
    spare -= wraps * Word::WRAPPED;
    let mut words = vec![Word { around: 0, minus: false, digits: 1 }; count];
    while wraps + spare > 0 {
        let word = &mut words[random.below(count as u64) as usize];
        if wraps > 0 && word.around < 4 {
            word.around += 1;
            wraps -= 1;
        }
        let more = (1 + random.below(6) as usize).min(spare).min(13 - word.digits as usize);
        word.digits += more as u32;
        spare -= more;
        if spare > 0 && word.digits == 13 && !word.minus {
            word.minus = true;
            spare -= 1;
        }
    }
    words
}

/// A sheet of order 3 that can be built, if it does not have too many points, and has exactly so many bytes.
pub fn padded(random: &mut Random, length: usize, axes: usize, points: usize, percent: usize) -> Vec<u8> {
    let shortest = HEAD.len() + axes * (AXIS.len() - 4 + 2 * points);
    let words = words(random, axes * (points + 2), length - shortest, percent);
    let mut list = |words: &[Word]| words.iter().map(|word| word.typed(random)).collect::<Vec<_>>().join(" ");
    let mut text = HEAD.to_string();
    for words in words.chunks(points + 2) {
        let [points, start, end] = [&words[2..], &words[..1], &words[1..2]].map(&mut list);
        writeln!(text, "(axis (points {points}) (start {start}) (end {end}))").unwrap();
    }
    assert_eq!(text.len(), length);
    text.into_bytes()
}

// ---- sheets near 32,768 bytes, and longer

/// Four `again` round something.
pub fn fourfold(times: u64, inside: &str) -> String {
    format!("{}{inside}))))", format!("(again {times} ").repeat(4))
}

/// A sheet of so many bytes whose points are this text as often as there is room, and then numbers.
pub fn repeated(item: &str, length: usize) -> Vec<u8> {
    let (front, back) = (format!("{HEAD}(axis (points "), "0) (start 0) (end 0))\n");
    let room = length - front.len() - back.len();
    let item = format!("{item} ");
    let times = room / item.len() - 1;
    let rest = room - times * item.len();
    let numbers = "55 "[..rest % 2 * 3].to_string() + &"5 ".repeat((rest - rest % 2 * 3) / 2);
    (front + &item.repeat(times) + &numbers + back).into_bytes()
}

/// A number that is beyond 2^40 by its 13th digit, at a place, after points that fill the text before it.
fn beyond_at(place: usize) -> Vec<u8> {
    [sheet::begun(place - 1), " 10995116277770000".into()].concat().into_bytes()
}

/// A sheet of order 3 and exactly so many bytes, some 32,768: on three axes and more it can be built.
fn full(random: &mut Random, length: usize) -> Vec<u8> {
    let axes = 1 + random.below(8) as usize;
    // as few as so many bytes can be typed for
    let least = length / axes / 50;
    let points = random.between(least as i64, least.max(257) as i64) as usize;
    let percent = random.below(101) as usize;
    padded(random, length, axes, points, percent)
}

/// A whole sheet of 32,768 bytes, and more bytes behind it.
fn followed(random: &mut Random) -> Vec<u8> {
    let mut text = if random.one_in(2) { full(random, LONGEST) } else { sheet::filled(LONGEST, &vec![AXIS; random.below(8) as usize]) };
    let behind = random.pick(&["(", "x", "\n", AXIS, "9"]);
    text.extend(behind.repeat(random.pick(&[1, 1, 2, 20_000])).bytes());
    text
}

/// A text of 32,768 bytes, or a few more or less, or many more.
pub fn long(random: &mut Random) -> Vec<u8> {
    let length = match random.below(6) {
        0 => LONGEST,
        1 => LONGEST + 1,
        2 => LONGEST - 1,
        3 => LONGEST + random.below(3000) as usize,
        _ => LONGEST - 40 + random.below(80) as usize,
    };
    match random.below(9) {
        0..=2 => full(random, length),
        3 => sheet::filled(length, &vec![AXIS; random.below(9) as usize]),
        4 => beyond_at(LONGEST - random.below(20) as usize),
        5 => repeated(&fourfold(64, "0"), length),
        6 => {
            // 16,128 times 64^4 is 63 times 2^32
            let inner = "0 ".repeat(random.pick(&[16_128, length / 2 - 100]));
            format!("{HEAD}(axis (points {}) (start 0) (end 0))\n", fourfold(64, inner.trim_end())).into_bytes()
        }
        7 => format!("{HEAD}(axis (points {}", "(again 1 ".repeat(length / 9)).into_bytes(),
        _ => followed(random),
    }
}

/// Damages a byte near the limit, or anywhere.
pub fn damaged_near_the_limit(random: &mut Random, text: &mut Vec<u8>) {
    if text.len() > LONGEST - 30 && random.one_in(2) {
        let place = (LONGEST - 20 + random.below(40) as usize).min(text.len() - 1);
        text[place] = random.pick(ALPHABET);
    } else {
        damage(random, text);
    }
}

// ---- damages

/// The bytes that sheets are made of.
const ALPHABET: &[u8] = b"()\n -0123456789adegnoiprstx";
/// Some that they are not made of.
const OTHERS: &[u8] = b"\t\r+AO.,'_[b/:\0\x7f\x80\xad\xff";

/// What may be typed in the place of a number.
const WORDS: [&str; 36] = [
    "0",
    "-0",
    "00",
    "01",
    "-",
    "--1",
    "-01",
    "+1",
    "7",
    "1099511627776",
    "-1099511627776",
    "1099511627777",
    "-1099511627777",
    "10995116277760",
    "9999999999999",
    "-9999999999999",
    "4294967299",
    "18446744073709551616",
    "18446744073709551619",
    "9223372036854775808",
    "-9223372036854775809",
    "340282366920938463463374607431768211459",
    "(again 64 1)",
    "(again 65 1)",
    "(again 0 1)",
    "(again 1)",
    "(again 3 )",
    "(again  3 1)",
    "(again)",
    "()",
    "5(",
    "(again 3 0 100)",
    "(again 64 (again 64 (again 64 (again 64 1))))",
    "(again 64 (again 64 (again 64 (again 64 (again 64 1)))))",
    "(again 64 (again 64 (again 1 1 2 3)))",
    "",
];

/// Where the numbers of a text stand, counts among them.
fn numbers(text: &[u8]) -> Vec<Range<usize>> {
    let is = |byte: &u8| byte.is_ascii_digit() || *byte == b'-';
    let mut all: Vec<Range<usize>> = Vec::new();
    for (place, _) in text.iter().enumerate().filter(|(_, byte)| is(byte)) {
        match all.last_mut() {
            Some(last) if last.end == place => last.end += 1,
            _ => all.push(place..place + 1),
        }
    }
    all
}

/// Where the lines of a text stand, with their newlines.
fn lines(text: &[u8]) -> Vec<Range<usize>> {
    let mut from = 0;
    let line = |line: &[u8]| {
        from += line.len();
        from - line.len()..from
    };
    text.split_inclusive(|&byte| byte == b'\n').map(line).collect()
}

/// Something in a text is changed.
pub fn damage(random: &mut Random, text: &mut Vec<u8>) {
    if text.is_empty() {
        return text.push(random.pick(ALPHABET));
    }
    let place = random.below(text.len() as u64) as usize;
    let next = (place + 1).min(text.len() - 1);
    match random.below(14) {
        0 => text[place] = random.pick(ALPHABET),
        1 => text[place] = random.pick(OTHERS),
        2 => drop(text.remove(place)),
        3 => text.insert(place, text[place]),
        4 => text.truncate(place),
        5 => text.insert(place, random.pick(ALPHABET)),
        6 => text.swap(place, next),
        7 => text.extend(random.pick(&[AXIS, "\n", " ", "(", "0", HEAD]).bytes()),
        8 => {
            // a line is dropped or doubled
            let all = lines(text);
            let line = all[random.below(all.len() as u64) as usize].clone();
            let copies = text[line.clone()].repeat(random.pick(&[0, 2]));
            text.splice(line, copies);
        }
        _ => damage_number(random, text),
    }
}

/// A number of a text is changed, wrapped up, or gets one beside it.
fn damage_number(random: &mut Random, text: &mut Vec<u8>) {
    let all = numbers(text);
    if all.is_empty() {
        return;
    }
    let place = all[random.below(all.len() as u64) as usize].clone();
    let old = String::from_utf8_lossy(&text[place.clone()]).into_owned();
    let word = random.pick(&WORDS);
    let times = random.pick(&[0, 1, 2, 7, 63, 64, 65]);
    let new = match random.below(5) {
        0 => format!("{old} {word}"),
        1 => format!("{word} {old}"),
        2 => {
            let depth = 1 + random.below(6) as usize;
            format!("{}{old}{}", format!("(again {times} ").repeat(depth), ")".repeat(depth))
        }
        3 => times.to_string(),
        _ => word.to_string(),
    };
    text.splice(place, new.into_bytes());
}

/// A text with each byte changed, dropped and doubled, and cut at every place. What is cut off still stands behind the text.
pub fn every_damage(text: &[u8], mut call: impl FnMut(&[u8])) {
    for place in 0..text.len() {
        call(&text[..place]);
        let mut copy = text.to_vec();
        for &byte in ALPHABET.iter().chain(OTHERS) {
            copy[place] = byte;
            call(&copy);
        }
        copy[place] = text[place];
        copy.insert(place, text[place]);
        call(&copy);
        copy.drain(place..place + 2);
        call(&copy);
    }
}

const TOKENS: [&str; 30] = [
    "(",
    ")",
    " ",
    "\n",
    "0",
    "1",
    "-",
    "5",
    "64",
    "65",
    "7",
    " 1",
    " 0",
    " (",
    "109951162777",
    "1099511627776",
    "again ",
    "(again ",
    "(again 3 ",
    "(again 64 ",
    "order ",
    "range ",
    "axis ",
    "(axis (points ",
    ") (start ",
    ") (end ",
    "))\n",
    "(points 0",
    "start",
    ")\n",
];

/// A text that grows by tokens, most of which fit; every try is judged.
pub fn walk(random: &mut Random, mut call: impl FnMut(&[u8])) {
    let mut text = random.pick(&["", HEAD, "(order 3)\n(range 0 2)\n(axis (points ", "(order 5)\n(range ", SHEET]).to_string();
    for _ in 0..200 {
        let token = random.pick(&TOKENS);
        let longer = format!("{text}{token}");
        let (_, place) = sheet::judge(longer.as_bytes());
        call(longer.as_bytes());
        if place == longer.len() || random.one_in(60) {
            text = longer;
        }
        if text.len() > 400 {
            break;
        }
    }
}

/// Bytes of the alphabet, at times behind the beginning of a sheet.
pub fn random_bytes(random: &mut Random) -> Vec<u8> {
    let mut text = typed(random);
    text.truncate(if random.one_in(2) { 0 } else { random.below(text.len() as u64) as usize });
    (0..random.below(60)).for_each(|_| text.push(random.pick(ALPHABET)));
    text
}
