//! What the drivers print: the rows of two tables, their cells apart by tabs, which compare/table.awk makes tables of.
//! And what they count, compare and time with.

use std::collections::BTreeMap;
use std::time::Instant;

/// How many calls were made, how many numbers compared, how many calls were unlike what was expected, and how many zeros
/// were alike but for their signs.
#[derive(Default)]
pub struct Count {
    pub calls: u64,
    pub numbers: u64,
    pub unlike: u64,
    pub zeros: u64,
}

impl Count {
    pub fn print(&self, what: &str, against: &str) {
        println!("{what}\t{against}\t{}\t{}\t{}", self.calls, self.numbers, self.unlike);
    }
    /// With the zeros of the other sign.
    pub fn print_zeros(&self, what: &str, against: &str) {
        self.print(&format!("{what} ({} zeros of the other sign)", self.zeros), against);
    }
}

/// Refusals by their number.
#[derive(Default)]
pub struct Refusals(BTreeMap<u32, Count>);

impl Refusals {
    pub fn of(&mut self, number: u32) -> &mut Count {
        self.0.entry(number).or_default()
    }
    pub fn calls(&self) -> u64 {
        self.0.values().map(|count| count.calls).sum()
    }
    pub fn print(&self, what: &str, against: &str) {
        let mut all = Count::default();
        for count in self.0.values() {
            all.calls += count.calls;
            all.numbers += count.numbers;
            all.unlike += count.unlike;
        }
        let by_number: Vec<String> = self.0.iter().map(|(number, count)| format!("{number}: {}", count.calls)).collect();
        all.print(&format!("{what} ({})", by_number.join(", ")), against);
    }
}

/// A number with what it counts.
pub fn counted(n: usize, one: &str, more: &str) -> String {
    format!("{n} {}", if n == 1 { one } else { more })
}

/// Nanoseconds a call of ours, and of what it is held against.
pub fn print_time(what: &str, ours: f64, other: f64) {
    println!("{what}\t{ours:.1}\t{other:.1}\t{:.2}", ours / other);
}

/// How long a timing takes, so that a machine that is busy for a moment does not decide it.
const SECONDS: f64 = 1.5;

/// Seconds of the best of as many rounds as there is time for. (Inlined: a round may need the processor's own instructions.)
#[inline(always)]
pub fn least(mut round: impl FnMut()) -> f64 {
    let start = Instant::now();
    let mut least = f64::MAX;
    while start.elapsed().as_secs_f64() < SECONDS {
        let start = Instant::now();
        round();
        least = least.min(start.elapsed().as_secs_f64());
    }
    least
}

/// Nanoseconds a call of each of two: the best of many rounds, taken in turn, each of so many calls, which are told their
/// place in the round.
pub fn best(calls: usize, mut here: impl FnMut(usize), mut there: impl FnMut(usize)) -> (f64, f64) {
    let round = |call: &mut dyn FnMut(usize)| {
        let start = Instant::now();
        for i in 0..calls {
            call(i);
        }
        start.elapsed().as_secs_f64() * 1e9 / calls as f64
    };
    let start = Instant::now();
    let mut least = (f64::MAX, f64::MAX);
    while start.elapsed().as_secs_f64() < SECONDS {
        least = (least.0.min(round(&mut here)), least.1.min(round(&mut there)));
    }
    least
}

/// Cells on each side of a lent buffer that nobody may write to.
pub const GUARD: usize = 16;

/// A buffer with guard cells round it, of which no two are alike; k tells buffers of one call apart.
pub fn guarded(k: usize, length: usize) -> Vec<f64> {
    (0..(length + 2 * GUARD) as u64).map(|i| f64::from_bits(0x4bad_0000_0000_0000 + (k as u64) * 0x1_0000 + i)).collect()
}

/// The buffer without its guard cells.
pub fn lent(cells: &mut [f64]) -> &mut [f64] {
    let end = cells.len() - GUARD;
    &mut cells[GUARD..end]
}

/// Equal as document 01 compares with the Rust: all NaNs are alike, and the two zeros are.
pub fn alike(x: f64, y: f64) -> bool {
    x == y || same_bits(x, y)
}

/// Nothing was changed.
pub fn kept(before: &[f64], after: &[f64]) -> bool {
    before.iter().zip(after).all(|(x, y)| x.to_bits() == y.to_bits())
}

/// The same bits, or two NaNs.
pub fn same_bits(x: f64, y: f64) -> bool {
    x.to_bits() == y.to_bits() || x.is_nan() && y.is_nan()
}
