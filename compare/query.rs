//! A query's input, refused by document 01's questions as plain tests.

use crate::asked::{first_no, is_order, table_length};
use crate::input::range;

/// What a query is given, but for the numbers of its table and buffers.
#[derive(Clone)]
pub struct Query {
    pub order: usize,
    pub segments: usize,
    pub axes: usize,
    pub s_min: f64,
    pub s_max: f64,
    pub inv_ds: f64,
    pub clamp: bool,
    pub cells: usize,
    pub s: f64,
    pub level: usize,
    pub lengths: [usize; 4],
}

impl Query {
    pub const DAMAGES: usize = 30;
    pub fn damage(&mut self, which: usize) {
        match which {
            0..=3 => self.order = [0, 1, 4, 9][which],
            4 | 5 => self.segments = [0, 257][which - 4],
            6 | 7 => self.axes = [0, 9][which - 6],
            8..=10 => self.s_max = [self.s_min, f64::NAN, f64::INFINITY][which - 8],
            11 => (self.s_min, self.s_max, self.inv_ds) = (f64::MIN, f64::MAX, 0.0),
            12 => self.inv_ds = self.inv_ds.next_up(),
            13 => self.inv_ds = self.inv_ds.next_down(),
            14 => self.cells += 1,
            15 => self.cells -= 1,
            16..=18 => self.level = [1, 4, 255][which - 16],
            19..=22 => self.lengths[which - 19] += 1,
            23 | 24 => (self.clamp, self.s) = (which == 23, f64::NAN),
            _ => {
                let beyond = [self.s_min - 1.0, self.s_max + 1.0, f64::INFINITY];
                (self.clamp, self.s) = (which > 27, beyond[(which - 25) % 3]);
            }
        }
    }
    /// The questions of document 01, in its order.
    pub fn number(&self) -> u32 {
        let written = [true, self.level >= 2, self.level >= 2, self.level >= 3];
        let served = |(length, written): (&usize, bool)| !written || *length == self.axes;
        let inside = self.s_min <= self.s && self.s <= self.s_max;
        first_no(&[
            (is_order(self.order), 302),
            (self.segments >= 1, 304),
            (self.segments <= 256, 2),
            ((1..=8).contains(&self.axes), 300),
            (range(self.segments, self.s_min, self.s_max) == Some(self.inv_ds), 301),
            (table_length(self.axes, self.segments, self.order) == Some(self.cells), 303),
            ([0, 2, 3].contains(&self.level), 308),
            (self.lengths.iter().zip(written).all(served), 2),
            (!self.s.is_nan() && (self.clamp || inside), 305),
        ])
    }
}
