//! A build's input: made at random, refused by document 01's questions as plain tests, and built by the
//! Rust text of copp. A driver that uses it has the text as the module `spline` at its root, with `diag`
//! and `path` of this file beside it, since the text looks for them there.

use crate::asked::{first_no, is_order, table_length};
use crate::random::Random;
use crate::spline::{SplineConfig, SplinePath};
use diag::PathError;
use nalgebra::DMatrix;
use path::OutOfRangeMode;

pub mod diag {
    #[derive(Debug)]
    #[allow(dead_code)]
    pub enum PathError {
        InvalidOrder { order: usize },
        NotEnoughWaypoints { n: usize },
        DimensionMismatch,
        SingularSystem,
    }
}

pub mod path {
    #[derive(Clone, Copy, Debug)]
    pub enum OutOfRangeMode {
        Error,
        Clamp,
    }
}

impl Random {
    /// From 0 up to 1.
    pub fn unit(&mut self) -> f64 {
        (self.bits() >> 11) as f64 / (1u64 << 53) as f64
    }
    /// A small whole number, a number with all its digits, a zero of either sign, or one far off in size.
    pub fn coordinate(&mut self) -> f64 {
        match self.below(10) {
            0..=2 => self.below(41) as f64 - 20.0,
            3..=7 => self.unit() * 200.0 - 100.0,
            8 => self.pick(&[0.0, -0.0]),
            _ => (self.unit() - 0.5) * 2f64.powi(self.below(120) as i32 - 60),
        }
    }
    pub fn coordinates(&mut self, n: usize) -> Vec<f64> {
        (0..n).map(|_| self.coordinate()).collect()
    }
    /// The ends of a range.
    pub fn ends(&mut self) -> (f64, f64) {
        let low = self.coordinate();
        let high = low + self.coordinate().abs() + self.pick(&[0.5, 1.0, 3.0]);
        // a low end so great that the range vanishes beside it is no range
        if low < high {
            (low, high)
        } else {
            (0.0, 1.0)
        }
    }
}

pub const NOT_FINITE: [f64; 3] = [f64::NAN, f64::INFINITY, f64::NEG_INFINITY];

/// Counts that no list has.
pub const HUGE: [usize; 5] = [1 << 16, 1 << 32, 1 << 61, 1 << 63, usize::MAX];

/// Question 8 of document 01, and the quotient that it asks about.
pub fn range(segments: usize, s_min: f64, s_max: f64) -> Option<f64> {
    let inv_ds = segments as f64 / (s_max - s_min);
    let served = s_min.is_finite() && s_max.is_finite() && s_min < s_max && inv_ds.is_finite() && inv_ds > 0.0;
    served.then_some(inv_ds)
}

/// None, or rows, columns and the mark, with the numbers.
#[derive(Clone)]
pub struct State {
    pub given: Option<(usize, usize, bool)>,
    pub numbers: Vec<f64>,
}

impl State {
    pub fn random(random: &mut Random, axes: usize, m: usize) -> State {
        if random.one_in(3) {
            let numbers = random.pick(&[0, 2]);
            return State { given: None, numbers: vec![f64::NAN; numbers] };
        }
        let marked = random.one_in(2);
        State { given: Some((axes, m, marked)), numbers: random.coordinates(axes * m) }
    }
    pub fn fits(&self, axes: usize, m: usize) -> bool {
        self.given.is_none_or(|(rows, columns, _)| rows == axes && columns == m && axes.checked_mul(m) == Some(self.numbers.len()))
    }
    pub fn is_finite(&self) -> bool {
        self.given.is_none() || self.numbers.iter().all(|x| x.is_finite())
    }
    /// As the Rust is given it: a marked state's divisions done. Its numbers are as many as rows times columns.
    pub fn in_rust(&self, inv_ds: f64) -> Option<DMatrix<f64>> {
        self.given.map(|(rows, columns, marked)| {
            let divided = |at: usize| (0..=at / rows).fold(self.numbers[at], |x, _| x / inv_ds);
            let number = |at: usize| if marked { divided(at) } else { self.numbers[at] };
            let cells: Vec<f64> = (0..rows * columns).map(number).collect();
            DMatrix::from_column_slice(rows, columns, &cells)
        })
    }
}

#[derive(Clone)]
pub struct Build {
    pub order: usize,
    pub points: usize,
    pub axes: usize,
    pub waypoints: Vec<f64>,
    pub start: State,
    pub end: State,
    pub s_min: f64,
    pub s_max: f64,
    pub clamp: bool,
    pub cells: usize,
}

impl Build {
    /// Lists as long as the three numbers ask, so that a served order, count of points and count of axes
    /// give a build that is served.
    pub fn random(random: &mut Random, order: usize, points: usize, axes: usize) -> Build {
        let m = order / 2;
        let (s_min, s_max) = random.ends();
        Build {
            order,
            points,
            axes,
            waypoints: random.coordinates(axes * points),
            start: State::random(random, axes, m),
            end: State::random(random, axes, m),
            s_min,
            s_max,
            clamp: random.one_in(2),
            cells: axes * points.saturating_sub(1) * (order + 1),
        }
    }
    pub const DAMAGES: usize = 35;
    pub fn damage(&mut self, which: usize) {
        let (axes, m) = (self.axes, self.order / 2);
        let given = |rows: usize, columns: usize, numbers: Vec<f64>| State { given: Some((rows, columns, false)), numbers };
        match which {
            0..=6 => self.order = [0, 1, 2, 4, 6, 8, 9][which],
            7..=10 => self.points = [0, 1, 258, 300][which - 7],
            11 | 12 => self.axes = [0, 9][which - 11],
            13 => drop(self.waypoints.pop()),
            14 => self.waypoints.push(0.0),
            15 => self.start = given(axes + 1, m, vec![0.0; (axes + 1) * m]),
            16 => self.start = given(axes, m + 1, vec![0.0; axes * (m + 1)]),
            17 => self.start = given(axes, m, vec![0.0; axes * m + 1]),
            18 => self.end = given(axes + 1, m, vec![0.0; axes * m]),
            19 => self.end = given(axes, m + 1, vec![0.0; axes * m]),
            20 => self.end = given(axes, m, vec![]),
            21 => self.cells += 1,
            22 => self.cells -= 1,
            23..=29 => {
                let (nan, inf) = (f64::NAN, f64::INFINITY);
                let bad = [(1.0, 1.0), (2.0, 1.0), (nan, 1.0), (0.0, inf), (-inf, 0.0), (f64::MIN, f64::MAX), (0.0, 5e-324)];
                (self.s_min, self.s_max) = bad[which - 23];
            }
            30..=32 => *self.waypoints.last_mut().unwrap() = NOT_FINITE[which - 30],
            33 => self.start = given(axes, m, vec![f64::NAN; axes * m]),
            _ => self.end = given(axes, m, vec![f64::INFINITY; axes * m]),
        }
    }
    /// The questions of document 01, in its order, without the tenth, which wish 2 of document 02 strikes.
    pub fn number(&self) -> u32 {
        let (m, segments) = (self.order / 2, self.points.saturating_sub(1));
        let finite = |xs: &[f64]| xs.iter().all(|x| x.is_finite());
        first_no(&[
            (is_order(self.order), 302),
            (self.points >= 2, 304),
            (self.points <= 257, 2),
            ((1..=8).contains(&self.axes), 300),
            (self.axes.checked_mul(self.points) == Some(self.waypoints.len()), 3),
            (self.start.fits(self.axes, m), 303),
            (self.end.fits(self.axes, m), 303),
            (table_length(self.axes, segments, self.order) == Some(self.cells), 2),
            (range(segments, self.s_min, self.s_max).is_some(), 301),
            (finite(&self.waypoints) && self.start.is_finite() && self.end.is_finite(), 4),
        ])
    }
    /// The waypoints and the rest as the Rust takes them. Lists that do not match their own rows and columns it
    /// cannot be given.
    pub fn in_rust(&self) -> (DMatrix<f64>, SplineConfig) {
        let inv_ds = range(self.points.saturating_sub(1), self.s_min, self.s_max).unwrap_or(1.0);
        let config = SplineConfig {
            order: self.order,
            s_min: self.s_min,
            s_max: self.s_max,
            out_of_range_mode: if self.clamp { OutOfRangeMode::Clamp } else { OutOfRangeMode::Error },
            start_state: self.start.in_rust(inv_ds),
            end_state: self.end.in_rust(inv_ds),
            ..SplineConfig::default()
        };
        (DMatrix::from_column_slice(self.axes, self.points, &self.waypoints), config)
    }
    /// What the Rust text makes of it.
    pub fn path(&self) -> Result<SplinePath, PathError> {
        let (waypoints, config) = self.in_rust();
        SplinePath::from_waypoints(&waypoints, &config)
    }
}
