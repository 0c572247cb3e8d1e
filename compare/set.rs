//! What a master check is given, a set: made at random, and judged by document 01's questions and equations as plain tests
//! over exact whole numbers.

use crate::asked::{first_no, is_order};
use crate::random::Random;

/// 2^40
pub const LIMIT: i64 = 1 << 40;

#[derive(Clone)]
pub struct Set {
    pub order: usize,
    pub waypoints: Vec<i64>,
    pub start: Vec<i64>,
    pub end: Vec<i64>,
    pub table: Vec<i64>,
}

/// C(k,r)
pub fn binomial(k: usize, r: usize) -> i128 {
    (0..r as i128).fold(1, |c, i| c * (k as i128 - i) / (i + 1))
}

/// Coefficient r of a segment taken about its end.
pub fn at_end(segment: &[i64], r: usize) -> i128 {
    (r..segment.len()).map(|k| binomial(k, r) * i128::from(segment[k])).sum()
}

fn narrow(z: i128) -> i64 {
    z.try_into().expect("a number of 64 bits")
}

impl Set {
    /// The only points and states that a table can be good with: they are read off it.
    pub fn of_table(order: usize, table: Vec<i64>) -> Set {
        let m = (order - 1) / 2;
        let segments: Vec<&[i64]> = table.chunks(order + 1).collect();
        let (first, last) = (segments[0], segments[segments.len() - 1]);
        Set {
            order,
            waypoints: segments.iter().map(|segment| segment[0]).chain([narrow(at_end(last, 0))]).collect(),
            start: first[1..=m].to_vec(),
            end: (1..=m).map(|r| narrow(at_end(last, r))).collect(),
            table,
        }
    }

    /// A good set by how it is made: each segment goes on from the last one's end in all coefficients but the highest. The
    /// numbers that are free are within `most`; the others grow from segment to segment.
    pub fn continued(random: &mut Random, order: usize, segments: usize, most: i64) -> Set {
        let mut table: Vec<i64> = (0..=order).map(|_| random.between(-most, most)).collect();
        for _ in 1..segments {
            let last = table[table.len() - order - 1..].to_vec();
            table.extend((0..order).map(|r| narrow(at_end(&last, r))));
            table.push(random.between(-most, most));
        }
        Set::of_table(order, table)
    }

    pub fn lists(&self) -> [&Vec<i64>; 4] {
        [&self.waypoints, &self.start, &self.end, &self.table]
    }

    pub fn lists_mut(&mut self) -> [&mut Vec<i64>; 4] {
        [&mut self.waypoints, &mut self.start, &mut self.end, &mut self.table]
    }

    /// The questions before a master check, in document 01's order.
    pub fn number(&self) -> u32 {
        let m = self.order.saturating_sub(1) / 2;
        let points = self.waypoints.len();
        let within = |z: &i64| (-LIMIT..=LIMIT).contains(z);
        first_no(&[
            (is_order(self.order), 302),
            (points >= 2, 304),
            (points <= 257, 2),
            (self.start.len() == m, 303),
            (self.end.len() == m, 303),
            (self.table.len() == points.saturating_sub(1) * self.order.saturating_add(1), 2),
            (self.lists().into_iter().flatten().all(within), 4),
        ])
    }

    /// The endpoint and joint equations, of a set that no question refuses.
    pub fn is_good(&self) -> bool {
        let m = (self.order - 1) / 2;
        let segments: Vec<&[i64]> = self.table.chunks(self.order + 1).collect();
        let last = segments[segments.len() - 1];
        let ends = |i: usize, segment: &[i64]| segment[0] == self.waypoints[i] && at_end(segment, 0) == i128::from(self.waypoints[i + 1]);
        segments.iter().enumerate().all(|(i, segment)| ends(i, segment))
            && segments[0][1..=m] == self.start[..]
            && (1..=m).all(|r| at_end(last, r) == i128::from(self.end[r - 1]))
            && segments.windows(2).all(|pair| (1..=2 * m).all(|r| at_end(pair[0], r) == i128::from(pair[1][r])))
    }

    /// What the check has to answer: 1 for yes, 0 for no, else the refusal's number.
    pub fn answer(&self) -> u32 {
        match self.number() {
            0 => self.is_good().into(),
            number => number,
        }
    }
}
