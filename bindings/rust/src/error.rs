//! Why a call was refused: the number that the library answered, with what can be said of it from the call's own values.
use crate::sheet::{List, Sheet};
use crate::{coefficient_count, BoundaryState, PathRecord, SplineConfig, SHEET_BYTES};
use std::fmt;

/// Why a call was refused. From 300 to 308 the names are those of copp's `PathError`, below it those of its status codes.
/// [`number`](PathError::number) gives the library's number back.
#[derive(Clone, Copy, Debug, PartialEq)]
#[non_exhaustive]
pub enum PathError {
    /// 2: more than 257 points or 256 segments, which are the most that there may be; or a list of another length: the
    /// coefficients of a build, a buffer that the level of a query writes, the table of a master. On a sheet, more than 257
    /// points or 3 numbers of a state, or coefficients that are fewer than the sheet's table has.
    InvalidLength {
        /// The parameter: `points`, `segments`, `waypoints`, `coefficients`, `q`, `dq`, `ddq`, `dddq` or `table`; or the
        /// list of a sheet: `points`, `start` or `end`.
        what: &'static str,
        /// How many there may be at most of points, segments, waypoints, start and end, and how many there must be of all
        /// else.
        expected: usize,
        /// How many there are.
        given: usize,
    },
    /// 3: the waypoint list is not axes × points long, or an axis of a sheet has another count of points than the first.
    InvalidShape {
        /// axes × points; of a sheet, the first axis's points.
        expected: usize,
        /// How many numbers there are.
        given: usize,
    },
    /// 4: a number is not finite, or in a master check and on a sheet beyond ±2^40: the first such one.
    InvalidArgument {
        /// The list: `waypoints`, `start`, `end` or `table`; or `sheet`.
        what: &'static str,
        /// Its place there, counted from 0; on a sheet that of its first byte.
        place: usize,
    },
    /// 300: no axis, or more than 8.
    InvalidDimension {
        /// The axes given.
        dim: usize,
    },
    /// 301: an end of the range is not finite, or s_min < s_max does not hold, or segments / (s_max − s_min) is not finite
    /// and above 0, or a record's `inv_ds` is another number than that quotient.
    InvalidRange {
        /// Where the range starts.
        s_min: f64,
        /// Where it ends.
        s_max: f64,
    },
    /// 302: an order other than 3, 5 and 7.
    InvalidOrder {
        /// The order given. One below 0, which a sheet can have, is 0 here.
        order: usize,
    },
    /// 303: a state that is not axes by (order − 1) / 2 with that many numbers, on a sheet on each axis, or in a query a table
    /// of another length.
    DimensionMismatch,
    /// 304: fewer than 2 points.
    NotEnoughWaypoints {
        /// The points given.
        n: usize,
    },
    /// 305: s is NaN, or out of range in [`OutOfRangeMode::Error`](crate::OutOfRangeMode::Error).
    OutOfRangeS {
        /// Where the range starts.
        s_min: f64,
        /// Where it ends.
        s_max: f64,
        /// The s given.
        value: f64,
    },
    /// 308: a level other than 0, 2 and 3.
    UnsupportedDerivativeOrder {
        /// The level given.
        requested: u8,
    },
    /// 600: a byte that no sheet has there; or the text ends early, or is longer than [`SHEET_BYTES`].
    InvalidSheet {
        /// That byte; none where the text ends early or is too long.
        byte: Option<u8>,
    },
    /// 601: a bracket that opens an item inside four `again`.
    SheetTooDeep,
}

impl PathError {
    /// The library's number, as include/tezvorup.h and README.md list them.
    pub fn number(&self) -> u32 {
        match self {
            PathError::InvalidLength { .. } => 2,
            PathError::InvalidShape { .. } => 3,
            PathError::InvalidArgument { .. } => 4,
            PathError::InvalidDimension { .. } => 300,
            PathError::InvalidRange { .. } => 301,
            PathError::InvalidOrder { .. } => 302,
            PathError::DimensionMismatch => 303,
            PathError::NotEnoughWaypoints { .. } => 304,
            PathError::OutOfRangeS { .. } => 305,
            PathError::UnsupportedDerivativeOrder { .. } => 308,
            PathError::InvalidSheet { .. } => 600,
            PathError::SheetTooDeep => 601,
        }
    }
}

impl fmt::Display for PathError {
    fn fmt(&self, f: &mut fmt::Formatter<'_>) -> fmt::Result {
        match self {
            PathError::InvalidLength { what: what @ ("points" | "segments" | "waypoints"), expected, given } => {
                write!(f, "too many {what}: {given}, expected at most {expected}")
            }
            PathError::InvalidLength { what: what @ ("start" | "end"), expected, given } => {
                write!(f, "too many numbers of {what}: {given}, expected at most {expected}")
            }
            PathError::InvalidLength { what, expected, given } => write!(f, "invalid length of {what}: {given}, expected {expected}"),
            PathError::InvalidShape { expected, given } => {
                write!(f, "invalid shape of the waypoints: {given} numbers, expected {expected}")
            }
            PathError::InvalidArgument { what: "sheet", .. } => write!(f, "a number is beyond ±2^40"),
            PathError::InvalidArgument { what, place } => write!(f, "number {place} of {what} is not finite or out of range"),
            PathError::InvalidDimension { dim } => write!(f, "invalid dimension: {dim}, expected 1 to 8"),
            PathError::InvalidRange { s_min, s_max } => write!(f, "invalid s range: [{s_min}, {s_max}]"),
            PathError::InvalidOrder { order } => write!(f, "invalid spline order: {order}, expected 3, 5 or 7"),
            PathError::DimensionMismatch => write!(f, "dimension mismatch"),
            PathError::NotEnoughWaypoints { n } => write!(f, "not enough waypoints: {n}, expected >= 2"),
            PathError::OutOfRangeS { s_min, s_max, value } => write!(f, "s out of range [{s_min}, {s_max}]: {value}"),
            PathError::UnsupportedDerivativeOrder { requested } => {
                write!(f, "unsupported derivative order: requested {requested}, expected 0, 2 or 3")
            }
            PathError::InvalidSheet { byte: Some(byte) } => write!(f, "no sheet has '{}' here", byte.escape_ascii()),
            PathError::InvalidSheet { byte: None } => write!(f, "the sheet ends early, or is longer than {SHEET_BYTES} bytes"),
            PathError::SheetTooDeep => write!(f, "a bracket opens inside four again"),
        }
    }
}

impl std::error::Error for PathError {}

/// Why a sheet was refused, and where.
#[derive(Clone, Copy, Debug, PartialEq)]
pub struct SheetError {
    /// What is wrong.
    pub error: PathError,
    /// The byte at fault, counted from 0; the sheet's length where none is, but the curve cannot be built.
    pub at: usize,
}

impl SheetError {
    /// The library's number, as include/tezvorup.h and README.md list them.
    pub fn number(&self) -> u32 {
        self.error.number()
    }
}

impl fmt::Display for SheetError {
    fn fmt(&self, f: &mut fmt::Formatter<'_>) -> fmt::Result {
        write!(f, "byte {} of the sheet: {}", self.at, self.error)
    }
}

impl std::error::Error for SheetError {}

/// The most points that a curve has.
const POINTS: usize = 257;

/// Proved: a function answers no number but those it lists (NumbersAreListed, crates/theorem_records/specs/Exports.antt).
fn unlisted(number: u32) -> ! {
    panic!("{} is no number of this function", number)
}

/// The first number of some lists, each with its name, that is not as it should be.
fn first<'a, T: 'a>(lists: impl IntoIterator<Item = (&'static str, &'a [T])>, wrong: impl Fn(&T) -> bool) -> PathError {
    let found =
        lists.into_iter().find_map(|(what, list)| list.iter().position(&wrong).map(|place| PathError::InvalidArgument { what, place }));
    found.expect("the library saw such a number")
}

fn numbers<'a>(state: &BoundaryState<'a>) -> &'a [f64] {
    match *state {
        BoundaryState::None => &[],
        BoundaryState::Given { numbers, .. } => numbers,
    }
}

/// A build's refusal, or a preview's. Each number comes after the questions before it were answered with yes, so counts are small where they
/// are multiplied.
pub(crate) fn of_build(number: u32, config: &SplineConfig, points: usize, axes: usize, waypoints: &[f64], cells: usize) -> PathError {
    let &SplineConfig { order, s_min, s_max, .. } = config;
    match number {
        2 if points > POINTS => PathError::InvalidLength { what: "points", expected: POINTS, given: points },
        2 => PathError::InvalidLength { what: "coefficients", expected: coefficient_count(order, points, axes), given: cells },
        3 => PathError::InvalidShape { expected: axes * points, given: waypoints.len() },
        4 => {
            let lists = [("waypoints", waypoints), ("start", numbers(&config.start_state)), ("end", numbers(&config.end_state))];
            first(lists, |x: &f64| !x.is_finite())
        }
        300 => PathError::InvalidDimension { dim: axes },
        301 => PathError::InvalidRange { s_min, s_max },
        302 => PathError::InvalidOrder { order },
        303 => PathError::DimensionMismatch,
        304 => PathError::NotEnoughWaypoints { n: points },
        _ => unlisted(number),
    }
}

/// A query's refusal; `lengths` are those of q, dq, ddq and dddq.
pub(crate) fn of_query(number: u32, path: &PathRecord, s: f64, level: u8, lengths: [usize; 4]) -> PathError {
    let &PathRecord { order, segments, axes, s_min, s_max, .. } = path;
    match number {
        2 if segments > POINTS - 1 => PathError::InvalidLength { what: "segments", expected: POINTS - 1, given: segments },
        2 => {
            let buffers = ["q", "dq", "ddq", "dddq"].into_iter().zip(lengths);
            let (what, given) =
                buffers.take(usize::from(level) + 1).find(|&(_, given)| given != axes).expect("the library saw such a buffer");
            PathError::InvalidLength { what, expected: axes, given }
        }
        300 => PathError::InvalidDimension { dim: axes },
        301 => PathError::InvalidRange { s_min, s_max },
        302 => PathError::InvalidOrder { order },
        303 => PathError::DimensionMismatch,
        304 => PathError::NotEnoughWaypoints { n: segments + 1 },
        305 => PathError::OutOfRangeS { s_min, s_max, value: s },
        308 => PathError::UnsupportedDerivativeOrder { requested: level },
        _ => unlisted(number),
    }
}

/// A master check's refusal.
pub(crate) fn of_check(number: u32, order: usize, waypoints: &[i64], start: &[i64], end: &[i64], table: &[i64]) -> PathError {
    let points = waypoints.len();
    match number {
        2 if points > POINTS => PathError::InvalidLength { what: "waypoints", expected: POINTS, given: points },
        2 => PathError::InvalidLength { what: "table", expected: coefficient_count(order, points, 1), given: table.len() },
        4 => {
            let lists = [("waypoints", waypoints), ("start", start), ("end", end), ("table", table)];
            first(lists, |x: &i64| x.unsigned_abs() > 1 << 40)
        }
        302 => PathError::InvalidOrder { order },
        303 => PathError::DimensionMismatch,
        304 => PathError::NotEnoughWaypoints { n: points },
        _ => unlisted(number),
    }
}

/// A sheet's refusal; `cells` are those of the buffer, where one was lent.
pub(crate) fn of_sheet(number: u32, at: usize, text: &[u8], cells: usize) -> SheetError {
    let error = match number {
        2 | 3 | 301 | 302 | 304 => of_faultless(number, at, Sheet(text), cells),
        4 => PathError::InvalidArgument { what: "sheet", place: at },
        303 => PathError::DimensionMismatch,
        600 => PathError::InvalidSheet { byte: text[..text.len().min(SHEET_BYTES)].get(at).copied() },
        601 => PathError::SheetTooDeep,
        _ => unlisted(number),
    };
    SheetError { error, at }
}

/// A number's refusal; `byte` is the first that is not part of it, where one came.
pub(crate) fn of_number(number: u32, at: usize, byte: Option<u8>) -> SheetError {
    let error = match number {
        4 => PathError::InvalidArgument { what: "sheet", place: at },
        600 => PathError::InvalidSheet { byte },
        _ => unlisted(number),
    };
    SheetError { error, at }
}

/// The same where no byte is at fault, but sizes or the build's questions are, by what stands on the sheet.
fn of_faultless(number: u32, at: usize, sheet: Sheet, cells: usize) -> PathError {
    let (order, points) = (sheet.order(), sheet.points());
    match (number, sheet.list_at(at)) {
        (2, Some(List { what: "points", count, .. })) => PathError::InvalidLength { what: "points", expected: POINTS, given: count },
        (2, Some(List { what, count, .. })) => PathError::InvalidLength { what, expected: 3, given: count },
        (2, None) => {
            let expected = coefficient_count(order, points, sheet.axes());
            PathError::InvalidLength { what: "coefficients", expected, given: cells }
        }
        (3, Some(List { count, .. })) => PathError::InvalidShape { expected: points, given: count },
        (301, _) => {
            let (_, s_min, s_max) = sheet.heading();
            PathError::InvalidRange { s_min, s_max }
        }
        (302, _) => PathError::InvalidOrder { order },
        (304, _) => PathError::NotEnoughWaypoints { n: points },
        _ => unlisted(number),
    }
}
