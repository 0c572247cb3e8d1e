//! Job sheets, wish 1 of document 02: a second reader, written from documents 02 and 03 alone, to hold the library's against.
//!
//! It goes through the text once, byte by byte, and knows at each place what may come next (`Next`).
//! So a byte that does not fit is the one that no sheet has after the bytes before it, which is 600.
//! On the way it notes the items with their places, and counts and spells them out when the whole text was read: 2 and 3.
//! Then come the questions of document 01 that a sheet can still fail.

use crate::asked::{first_no, is_order};
use crate::input::{range, Build, State};

/// More bytes than this are not looked at.
pub const LONGEST: usize = 32_768;
/// The greatest magnitude of a number: 2^40.
pub const GREATEST: i64 = 1 << 40;
/// How many numbers points may have, and a state at any order.
const POINTS: u64 = 257;
const STATE: u64 = 3;
const AXES: usize = 8;
/// How many `again` may be open.
const DEPTH: usize = 4;
/// The greatest count of an `again`.
const TIMES: u64 = 64;

/// A refusal's number, and its place in bytes.
pub type Refusal = (u32, usize);

// ---- what stands on a sheet

/// The lists of an axis, spelled out.
#[derive(Debug, PartialEq)]
pub struct Axis {
    pub points: Vec<i64>,
    pub start: Vec<i64>,
    pub end: Vec<i64>,
}

/// A sheet that has none of 600, 601, 4, 2 and 3.
#[derive(Debug, PartialEq)]
pub struct Sheet {
    pub order: i64,
    pub range: (i64, i64),
    pub axes: Vec<Axis>,
}

impl Sheet {
    /// How many points each axis has.
    pub fn points(&self) -> usize {
        self.axes[0].points.len()
    }
    /// How many coefficients its table has. (The order may be any number of a sheet.)
    pub fn cells(&self) -> i64 {
        (self.axes.len() * self.points().saturating_sub(1)) as i64 * (self.order + 1)
    }
    /// The questions of document 01 that a sheet can fail, in its order, for a buffer of so many cells.
    /// A longer one than the table will do.
    pub fn number(&self, cells: usize) -> u32 {
        let (low, high) = (self.range.0 as f64, self.range.1 as f64);
        let m = (self.order - 1) / 2;
        let fits = |state: &[i64]| state.len() as i64 == m;
        first_no(&[
            (usize::try_from(self.order).is_ok_and(is_order), 302),
            (self.points() >= 2, 304),
            (self.axes.iter().all(|axis| fits(&axis.start) && fits(&axis.end)), 303),
            (self.cells() <= i64::try_from(cells).unwrap_or(i64::MAX), 2),
            (range(self.points().saturating_sub(1), low, high).is_some(), 301),
        ])
    }
    /// The call of document 01 that it stands for: mode Error, unmarked states. It is to be one that no question refuses.
    pub fn build(&self) -> Build {
        let axes = self.axes.len();
        let columns = |list: fn(&Axis) -> &Vec<i64>| -> Vec<f64> {
            let length = list(&self.axes[0]).len();
            (0..length).flat_map(|i| self.axes.iter().map(move |axis| list(axis)[i] as f64)).collect()
        };
        let state = |list: fn(&Axis) -> &Vec<i64>| State { given: Some((axes, list(&self.axes[0]).len(), false)), numbers: columns(list) };
        Build {
            order: self.order as usize,
            points: self.points(),
            axes,
            waypoints: columns(|axis| &axis.points),
            start: state(|axis| &axis.start),
            end: state(|axis| &axis.end),
            s_min: self.range.0 as f64,
            s_max: self.range.1 as f64,
            clamp: false,
            cells: self.cells() as usize,
        }
    }
    /// What the program prints of it, given its table: by axis, then segment, then power.
    pub fn printed(&self, table: &[f64]) -> Vec<u8> {
        let segments = self.points() - 1;
        let mut lines = format!("(table {} {segments} {})\n", self.order, self.axes.len());
        for (i, segment) in table.chunks(self.order as usize + 1).enumerate() {
            let bits: Vec<String> = segment.iter().map(|x| format!("{:016x}", x.to_bits())).collect();
            lines += &format!("(seg {} {} {})\n", i / segments, i % segments, bits.join(" "));
        }
        lines.into_bytes()
    }
}

/// What the program prints of a refusal.
pub fn refused((number, place): Refusal) -> Vec<u8> {
    format!("(refused {number} {place})\n").into_bytes()
}

/// The number and the place that come of a text, and the sheet where it has one.
/// The build's questions are asked too, for a buffer of so many cells; where all is well, it is 0 and the length.
pub fn judged(text: &[u8], cells: usize) -> (Refusal, Option<Sheet>) {
    match read(text) {
        Ok(sheet) => ((sheet.number(cells), text.len()), Some(sheet)),
        Err(refusal) => (refusal, None),
    }
}

/// The same with a buffer that is long enough.
pub fn judge(text: &[u8]) -> Refusal {
    judged(text, usize::MAX).0
}

// ---- reading

/// An item of a list: a number, or items so many times.
enum Item {
    Number(i64),
    Again(u64, Vec<Item>),
}

impl Item {
    /// How many numbers it stands for: fewer than 2^38 in any text that is looked at.
    fn count(&self) -> u64 {
        match self {
            Item::Number(_) => 1,
            Item::Again(times, items) => times * items.iter().map(Item::count).sum::<u64>(),
        }
    }
    fn spell_out(&self, into: &mut Vec<i64>) {
        match self {
            Item::Number(z) => into.push(*z),
            Item::Again(times, items) => (0..*times).for_each(|_| items.iter().for_each(|item| item.spell_out(into))),
        }
    }
}

/// A list of points or of a state: its outermost items with their places, and the place of its closing bracket.
struct List {
    items: Vec<(usize, Item)>,
    close: usize,
}

impl List {
    /// Its numbers, where they are no more than so many. Else 2, at the outermost item in which the first one too many falls.
    fn numbers(&self, most: u64) -> Result<Vec<i64>, Refusal> {
        let mut count = 0;
        for (place, item) in &self.items {
            count += item.count();
            if count > most {
                return Err((2, *place));
            }
        }
        let mut numbers = Vec::with_capacity(count as usize);
        self.items.iter().for_each(|(_, item)| item.spell_out(&mut numbers));
        Ok(numbers)
    }
}

/// Where a number or a list stands.
#[derive(Clone, Copy, PartialEq)]
enum Field {
    Order,
    Low,
    High,
    Points,
    Start,
    End,
}

/// What may come next.
#[derive(Clone, Copy)]
enum Next {
    /// These bytes, and what is behind them.
    Text(&'static [u8], &'static Next),
    /// The first byte of a number, or the bracket of an `again` where there may be one.
    Item,
    /// A digit from 1 to 9: there was a minus.
    Digit,
    /// Further digits, or what follows a number.
    Digits,
    /// What follows a number or an `again`: the number was 0, or a bracket was closed.
    Behind,
    /// A count's digits. There was none yet where it is 0.
    Count(u64),
    /// A line of an axis, or nothing: one has ended.
    Line,
}

/// A text read so far.
struct Reader {
    next: Next,
    field: Field,
    /// The number that is being read, or was: its place, whether it has a minus, and its magnitude so far.
    number: (usize, bool, i64),
    /// The `again` that are open: place, count, and items so far.
    open: Vec<(usize, u64, Vec<Item>)>,
    /// The items so far of the list that is being read.
    items: Vec<(usize, Item)>,
    /// The order and the ends of the range.
    head: Vec<i64>,
    /// The lists: points, start and end of axis one, then of the next.
    lists: Vec<List>,
}

impl Reader {
    fn new() -> Reader {
        Reader {
            next: Next::Text(b"(order ", &Next::Item),
            field: Field::Order,
            number: (0, false, 0),
            open: Vec::new(),
            items: Vec::new(),
            head: Vec::new(),
            lists: Vec::new(),
        }
    }

    /// Takes the byte at a place.
    fn take(&mut self, place: usize, byte: u8) -> Result<(), Refusal> {
        let next = match (self.next, byte) {
            (Next::Text(text, behind), _) if text[0] == byte => Some(if text.len() > 1 { Next::Text(&text[1..], behind) } else { *behind }),
            (Next::Item, b'-') => {
                self.number = (place, true, 0);
                Some(Next::Digit)
            }
            (Next::Item, b'0') => {
                self.number = (place, false, 0);
                self.end_number();
                Some(Next::Behind)
            }
            (Next::Item, b'1'..=b'9') => {
                self.number = (place, false, digit(byte));
                Some(Next::Digits)
            }
            (Next::Item, b'(') if self.in_list() => {
                if self.open.len() == DEPTH {
                    return Err((601, place));
                }
                self.open.push((place, 0, Vec::new()));
                Some(Next::Text(b"again ", &Next::Count(0)))
            }
            (Next::Digit, b'1'..=b'9') | (Next::Digits, b'0'..=b'9') => {
                self.number.2 = 10 * self.number.2 + digit(byte);
                if self.number.2 > GREATEST {
                    return Err((4, self.number.0));
                }
                Some(Next::Digits)
            }
            (Next::Digits, _) => {
                self.end_number();
                self.behind(place, byte)
            }
            (Next::Behind, _) => self.behind(place, byte),
            (Next::Count(so_far), b'0'..=b'9') => {
                let count = 10 * so_far + digit(byte) as u64;
                (1..=TIMES).contains(&count).then_some(Next::Count(count))
            }
            (Next::Count(count), b' ') if count > 0 => {
                self.open.last_mut().expect("it is its count").1 = count;
                Some(Next::Item)
            }
            (Next::Line, b'(') if self.lists.len() < 3 * AXES => self.begin(Field::Points, b"axis (points "),
            _ => None,
        };
        self.next = next.ok_or((600, place))?;
        Ok(())
    }

    /// What comes after a byte behind a number or a closed `again`, if it may stand there.
    fn behind(&mut self, place: usize, byte: u8) -> Option<Next> {
        match (self.field, byte) {
            (Field::Order, b')') => self.begin(Field::Low, b"\n(range "),
            (Field::Low, b' ') => {
                self.field = Field::High;
                Some(Next::Item)
            }
            (Field::High, b')') => self.begin(Field::Points, b"\n(axis (points "),
            (Field::Points | Field::Start | Field::End, b' ') => Some(Next::Item),
            (Field::Points | Field::Start | Field::End, b')') => self.close(place),
            _ => None,
        }
    }

    /// Closes the innermost `again`, or the list where none is open.
    fn close(&mut self, place: usize) -> Option<Next> {
        if let Some((place, times, items)) = self.open.pop() {
            self.add(place, Item::Again(times, items));
            return Some(Next::Behind);
        }
        self.lists.push(List { items: std::mem::take(&mut self.items), close: place });
        match self.field {
            Field::Points => self.begin(Field::Start, b" (start "),
            Field::Start => self.begin(Field::End, b" (end "),
            _ => Some(Next::Text(b")\n", &Next::Line)),
        }
    }

    /// The text in front of a field, and then its first item.
    fn begin(&mut self, field: Field, text: &'static [u8]) -> Option<Next> {
        self.field = field;
        Some(Next::Text(text, &Next::Item))
    }

    fn end_number(&mut self) {
        let (place, minus, magnitude) = self.number;
        let z = if minus { -magnitude } else { magnitude };
        if self.in_list() {
            self.add(place, Item::Number(z));
        } else {
            self.head.push(z);
        }
    }

    /// Adds an item to the innermost `again`, or to the list where none is open.
    fn add(&mut self, place: usize, item: Item) {
        match self.open.last_mut() {
            Some((_, _, items)) => items.push(item),
            None => self.items.push((place, item)),
        }
    }

    fn in_list(&self) -> bool {
        matches!(self.field, Field::Points | Field::Start | Field::End)
    }
}

fn digit(byte: u8) -> i64 {
    i64::from(byte - b'0')
}

/// What stands on a sheet, or the first that is wrong with it, but for the build's questions.
pub fn read(text: &[u8]) -> Result<Sheet, Refusal> {
    let mut reader = Reader::new();
    for (place, &byte) in text.iter().take(LONGEST).enumerate() {
        reader.take(place, byte)?;
    }
    if text.len() > LONGEST || !matches!(reader.next, Next::Line) {
        return Err((600, text.len().min(LONGEST)));
    }
    let mut axes: Vec<Axis> = Vec::new();
    for lists in reader.lists.chunks(3) {
        let points = lists[0].numbers(POINTS)?;
        if axes.first().is_some_and(|first| first.points.len() != points.len()) {
            return Err((3, lists[0].close));
        }
        axes.push(Axis { points, start: lists[1].numbers(STATE)?, end: lists[2].numbers(STATE)? });
    }
    Ok(Sheet { order: reader.head[0], range: (reader.head[1], reader.head[2]), axes })
}

// ---- the papers' own examples

/// The head of most examples: `S` of document 03.
pub const HEAD: &str = "(order 3)\n(range 0 2)\n";
/// The sheet of document 02.
pub const SHEET: &str = "(order 3)\n(range 0 2)\n(axis (points 0 4 8) (start 0) (end 0))\n";
/// And what is printed of it.
pub const PRINTED: &str = "(table 3 2 1)
(seg 0 0 0000000000000000 0000000000000000 4018000000000000 c000000000000000)
(seg 0 1 4010000000000000 4018000000000000 0000000000000000 c000000000000000)
";
/// An axis line.
pub const AXIS: &str = "(axis (points 0 1) (start 0) (end 0))\n";

/// A sheet so far, of a length: points of axis one, of one digit each but at times the last.
pub fn begun(length: usize) -> String {
    let front = format!("{HEAD}(axis (points 0");
    let free = length - front.len();
    front + &" 0".repeat((free - free % 2 * 3) / 2) + &" 10"[..free % 2 * 3]
}

/// A sheet of a length, with these lines behind that of axis one, which has as many points as it takes.
pub fn filled(length: usize, lines: &[&str]) -> Vec<u8> {
    let back = format!(") (start 0) (end 0))\n{}", lines.concat());
    (begun(length - back.len()) + &back).into_bytes()
}

/// Each example of document 03's readings of wish 1, and document 02's own: text, number and place.
pub fn examples() -> Vec<(Vec<u8>, u32, usize)> {
    let mut all: Vec<(Vec<u8>, u32, usize)> = Vec::new();
    let mut is = |text: &str, number: u32, place: usize| all.push((text.as_bytes().to_vec(), number, place));
    let points = |points: &str| format!("{HEAD}(axis (points {points}");
    let axis = |lists: &str| format!("{HEAD}(axis {lists})\n");
    let open = "(again 1 ";
    // at the text's end
    let mut ends = |text: &str, number: u32| is(text, number, text.len());
    ends(SHEET, 0);
    ends(&format!("(order -3)\n(range 0 2)\n{AXIS}"), 302);
    ends("", 600);
    ends(HEAD, 600);
    ends(SHEET.trim_end(), 600);
    ends(&format!("{HEAD}{}", AXIS.repeat(8)), 0);
    ends(&axis("(points 1099511627776 -1099511627776) (start 0) (end 0)"), 0);
    ends(&axis("(points 0 1) (start 0 0) (end 0)"), 303);
    ends(&axis("(points 0 1) (start 0) (end 0 0)"), 303);
    ends(&axis("(points 0) (start 0) (end 0)"), 304);
    ends(&format!("(order 3)\n(range 2 2)\n{AXIS}"), 301);
    ends("(order 5)\n(range 0 2)\n(axis (points 0 1 0) (start 0 0) (end 0 0))\n", 0);
    ends(&points("1099511627776"), 600);
    ends("(order -", 600);
    // 600
    is("(order 1099511627777", 4, 7);
    is("(order 03)", 600, 8);
    is("(order -0)", 600, 8);
    is("(order -)", 600, 8);
    is("(order +3)", 600, 7);
    is("(order\t3)", 600, 6);
    is("(order 3)\r\n", 600, 9);
    is("(Order 3)", 600, 1);
    is("(order \u{2212}3)", 600, 7);
    is(&format!("{SHEET}x"), 600, SHEET.len());
    is(&format!("{SHEET}\n"), 600, SHEET.len());
    is(&format!("{HEAD}{}", AXIS.repeat(9)), 600, 22 + 8 * AXIS.len());
    is(&points("(again 65 0)"), 600, 44);
    is(&points("(again 640 0)"), 600, 45);
    is(&points("(again 0 0)"), 600, 43);
    is(&points("(again 064 0)"), 600, 43);
    is(&points("(again -1 0)"), 600, 43);
    is(&points("(again 99999999999999 0)"), 600, 44);
    is(&points("(again 3)"), 600, 44);
    is(&format!("{HEAD}(axis (points)"), 600, 35);
    is(&format!("{HEAD}(axis (points 0 1))"), 600, 40);
    is("(order (again 1 3))", 600, 7);
    is("(order 3)\n(range (again 2 0))", 600, 17);
    // 601
    is(&points(&format!("{}(", open.repeat(4))), 601, 72);
    is(&points(&format!("{}(x", open.repeat(4))), 601, 72);
    is(&points(&format!("{}(again 65 1099511627777", open.repeat(4))), 601, 72);
    is(&points(&format!("{}5(", open.repeat(4))), 600, 73);
    is(&points("5("), 600, 37);
    is(&points(&format!("{}5 (", open.repeat(4))), 601, 74);
    is(&points(&format!("{}5) (", open.repeat(4))), 600, 76);
    // 4
    is(&points("1099511627777x"), 4, 36);
    is(&points("1099511627776x"), 600, 49);
    is(&points("1099511627777"), 4, 36);
    is(&points("-1099511627777"), 4, 36);
    is(&points("10995116277760"), 4, 36);
    // 2 and 3
    is(&format!("{HEAD}(axis (points 0 1) (start 0 0 0 0) (end 0)x"), 600, 64);
    is(&axis("(points 0 1) (start 0 0 0 0) (end 0)"), 2, 54);
    is(&axis("(points 0 (again 5 (again 60 1 2))) (start 0) (end 0)"), 2, 38);
    // 63 times 2^32 numbers
    let most = "(again 64 ".repeat(4) + &"0 ".repeat(16_127) + "0))))";
    is(&axis(&format!("(points {most}) (start 0) (end 0)")), 2, 36);
    is(&axis(&format!("(points 0 1) (start 0 {most}) (end 0)")), 2, 50);
    let unlike = format!("{HEAD}{}{AXIS}", AXIS.replace("0 1", "0"));
    is(&unlike, 3, 22 + 36 + 17);
    // 32,768 bytes
    let mut of = |text: Vec<u8>, number: u32, place: usize| all.push((text, number, place));
    let crossing = |number: &str, place: usize| format!("{} {number}", begun(place - 1)).into_bytes();
    of(filled(LONGEST, &[]), 2, 36 + 2 * 257);
    of(filled(LONGEST + 1, &[]), 600, LONGEST);
    of(filled(LONGEST + 1, &[AXIS]), 600, LONGEST);
    of([filled(LONGEST, &[AXIS]), AXIS.into()].concat(), 600, LONGEST);
    of([filled(LONGEST, &[AXIS]), b"x".to_vec()].concat(), 600, LONGEST);
    of([filled(LONGEST, &[AXIS; 7]), b"(".to_vec()].concat(), 600, LONGEST);
    of([filled(LONGEST - 1, &[AXIS]), b"xx".to_vec()].concat(), 600, LONGEST - 1);
    let place = LONGEST - 13;
    of(crossing("1099511627777", place), 4, place);
    of(crossing("10995116277770000", place), 4, place);
    of(crossing("10995116277770000", place + 1), 600, LONGEST);
    all
}
