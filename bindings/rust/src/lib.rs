//! Interpolating splines of order 3, 5 and 7 through points of up to 8 axes, proved in Rattle, from safe Rust.
//!
//! [`SplinePath`] owns its coefficients:
//!
//! ```
//! use tezvorup::{PathError, SplineConfig, SplinePath};
//!
//! let config = SplineConfig { order: 5, s_max: 2.0, ..SplineConfig::default() };
//! let path = SplinePath::from_points(&config, &[[0.0, 0.0], [8.0, 3.0], [16.0, 0.0]])?;
//! let (mut q, mut dq, mut ddq) = ([0.0; 2], [0.0; 2], [0.0; 2]);
//! path.eval_into(1.0, &mut [&mut q, &mut dq, &mut ddq])?;
//! assert_eq!((q, dq), ([8.0, 3.0], [15.0, 0.0]));
//! # Ok::<(), PathError>(())
//! ```
//!
//! A job sheet, a text in whole numbers, has all that a curve is built from:
//!
//! ```
//! use tezvorup::{SheetError, SplinePath};
//!
//! let path = SplinePath::from_sheet(b"(order 3)\n(range 0 2)\n(axis (points 0 4 8) (start 0) (end 0))\n")?;
//! assert_eq!(path.coefficients(), [0.0, 0.0, 6.0, -2.0, 4.0, 6.0, 0.0, -2.0]);
//! # Ok::<(), SheetError>(())
//! ```
//!
//! While a customer waits, [`SplinePath::preview`] tells whether the points will be taken, and nothing is built:
//!
//! ```
//! use tezvorup::{SplineConfig, SplinePath};
//!
//! let config = SplineConfig { order: 5, s_max: 2.0, ..SplineConfig::default() };
//! assert_eq!(SplinePath::preview(&config, 2, &[0.0, 0.0, 8.0, 3.0, 16.0, 0.0]).unwrap().segments, 2);
//! assert_eq!(SplinePath::preview(&config, 2, &[0.0, 0.0]).unwrap_err().to_string(), "not enough waypoints: 1, expected >= 2");
//! ```
//!
//! [`from_waypoints_view`], [`build_sheet`] and [`eval_at`] are lent theirs, and allocate nothing. A call that is refused leaves
//! every buffer as it was, and [`preview_view`] tells before a build, without a buffer, what it will answer. Names are those of
//! copp's `src/path/spline.rs` where it has them.
//!
//! What is proved stands in the library's text, in crates/ with the functions of [`raw`]. This package is not proved: it hands each slice
//! over as pointer and length, and gives each refusal number its name.
#![warn(missing_docs)]

mod error;
pub mod raw;
mod sheet;

pub use error::{PathError, SheetError};

/// What a query does with an s outside the range: it refuses it, or takes the nearest end.
#[derive(Clone, Copy, Debug, Default, PartialEq, Eq)]
pub enum OutOfRangeMode {
    /// It refuses it.
    #[default]
    Error,
    /// It takes the nearest end.
    Clamp,
}

/// The numbers at an end of the curve, axes by (order − 1) / 2, column by column. They are Taylor coefficients in
/// segment units: column r holds derivative r + 1, per segment, divided by (r + 1)!. Per unit of s, column r is first
/// divided by `inv_ds` r + 1 times.
#[derive(Clone, Copy, Debug, Default)]
pub enum BoundaryState<'a> {
    /// All derivatives zero: the curve starts or stops at rest. It is no natural end.
    #[default]
    None,
    /// As it is given.
    Given {
        /// The axes.
        rows: usize,
        /// (order − 1) / 2
        columns: usize,
        /// Whether the numbers are per unit of s, and not per segment.
        per_unit_of_s: bool,
        /// rows × columns numbers.
        numbers: &'a [f64],
    },
}

impl<'a> BoundaryState<'a> {
    /// The state as the library takes it, and its numbers.
    fn raw(&self) -> (raw::spline_state, &'a [f64]) {
        match *self {
            BoundaryState::None => (raw::spline_state::default(), &[]),
            BoundaryState::Given { rows, columns, per_unit_of_s, numbers } => {
                (raw::spline_state { kind: 1 + u8::from(per_unit_of_s), rows, columns }, numbers)
            }
        }
    }
}

/// What to build. The default is a quintic over 0 to 1 that starts and stops at rest, with out-of-range errors; later versions
/// add fields, so end with `..SplineConfig::default()`.
#[derive(Clone, Copy, Debug)]
pub struct SplineConfig<'a> {
    /// 3, 5 or 7.
    pub order: usize,
    /// Where the range of s starts.
    pub s_min: f64,
    /// Where it ends.
    pub s_max: f64,
    /// What later queries do outside it.
    pub out_of_range_mode: OutOfRangeMode,
    /// The state at s_min.
    pub start_state: BoundaryState<'a>,
    /// The state at s_max.
    pub end_state: BoundaryState<'a>,
}

impl<'a> SplineConfig<'a> {
    /// The configuration as the library takes it, and the numbers of both states.
    fn raw(&self) -> (raw::spline_config, &'a [f64], &'a [f64]) {
        let &SplineConfig { order, s_min, s_max, out_of_range_mode, start_state, end_state } = self;
        let ((start, start_numbers), (end, end_numbers)) = (start_state.raw(), end_state.raw());
        (raw::spline_config { order, s_min, s_max, mode: out_of_range_mode as u8, start, end }, start_numbers, end_numbers)
    }
}

impl Default for SplineConfig<'_> {
    fn default() -> Self {
        SplineConfig {
            order: 5,
            s_min: 0.0,
            s_max: 1.0,
            out_of_range_mode: OutOfRangeMode::Error,
            start_state: BoundaryState::None,
            end_state: BoundaryState::None,
        }
    }
}

/// What a query needs to know of a curve beside its coefficients.
#[derive(Clone, Copy, Debug, Default, PartialEq)]
pub struct PathRecord {
    /// 3, 5 or 7.
    pub order: usize,
    /// One less than the points.
    pub segments: usize,
    /// 1 to 8.
    pub axes: usize,
    /// Where the range of s starts.
    pub s_min: f64,
    /// Where it ends.
    pub s_max: f64,
    /// segments / (s_max − s_min)
    pub inv_ds: f64,
    /// What a query does outside the range.
    pub mode: OutOfRangeMode,
}

impl From<raw::spline_path> for PathRecord {
    fn from(path: raw::spline_path) -> Self {
        let raw::spline_path { order, segments, axes, s_min, s_max, inv_ds, mode } = path;
        let mode = if mode == 1 { OutOfRangeMode::Clamp } else { OutOfRangeMode::Error };
        PathRecord { order, segments, axes, s_min, s_max, inv_ds, mode }
    }
}

impl From<PathRecord> for raw::spline_path {
    fn from(path: PathRecord) -> Self {
        let PathRecord { order, segments, axes, s_min, s_max, inv_ds, mode } = path;
        raw::spline_path { order, segments, axes, s_min, s_max, inv_ds, mode: mode as u8 }
    }
}

/// a × b + c with one rounding, IEEE 754's fused multiply-add.
pub fn mul_add(a: f64, b: f64, c: f64) -> f64 {
    // SAFETY: the function takes any floats.
    unsafe { raw::spline_mul_add(a, b, c) }
}

/// How many coefficients a curve has: order + 1 for each segment of each axis. It is 0 where an order or a count is one
/// that the library refuses.
pub fn coefficient_count(order: usize, points: usize, axes: usize) -> usize {
    if matches!(order, 3 | 5 | 7) && (2..=257).contains(&points) && (1..=8).contains(&axes) {
        axes * (points - 1) * (order + 1)
    } else {
        0
    }
}

/// Asks before the build: answers what [`from_waypoints_view`] would, given the same and a buffer of so many cells, its record or
/// its refusal. It is lent no buffer, so a table that is in use stays as it is; `cells` may be any number.
///
/// ```
/// use tezvorup::{coefficient_count, from_waypoints_view, preview_view, PathError, SplineConfig};
///
/// let config = SplineConfig { order: 3, ..SplineConfig::default() };
/// let cells = coefficient_count(3, 2, 1);
/// let told = preview_view(&config, 2, 1, &[0.0, 1.0], cells)?;
/// assert_eq!(from_waypoints_view(&config, 2, 1, &[0.0, 1.0], &mut vec![0.0; cells])?, told);
///
/// let refused = preview_view(&config, 2, 1, &[0.0, f64::NAN], cells);
/// assert_eq!(refused, Err(PathError::InvalidArgument { what: "waypoints", place: 1 }));
/// # Ok::<(), PathError>(())
/// ```
pub fn preview_view(config: &SplineConfig, points: usize, axes: usize, waypoints: &[f64], cells: usize) -> Result<PathRecord, PathError> {
    let (raw_config, start, end) = config.raw();
    // SAFETY: each pointer comes with the length of its slice, and the function takes any numbers and writes nothing.
    let answer = unsafe {
        raw::spline_preview(
            raw_config,
            points,
            axes,
            waypoints.as_ptr(),
            waypoints.len(),
            start.as_ptr(),
            start.len(),
            end.as_ptr(),
            end.len(),
            cells,
        )
    };
    match answer.number {
        0 => Ok(answer.path.into()),
        number => Err(error::of_build(number, config, points, axes, waypoints, cells)),
    }
}

/// Builds the curve through points of so many axes, given point after point, into a buffer of exactly
/// [`coefficient_count`] cells: by axis, then segment, then power. Refused, the buffer holds what it held;
/// [`preview_view`] tells beforehand.
pub fn from_waypoints_view(
    config: &SplineConfig,
    points: usize,
    axes: usize,
    waypoints: &[f64],
    coeffs: &mut [f64],
) -> Result<PathRecord, PathError> {
    let (raw_config, start, end) = config.raw();
    // SAFETY: each pointer comes with the length of its slice, what is written is borrowed as mutable and so lies apart
    // from the rest, and the function takes any numbers.
    let answer = unsafe {
        raw::spline_build(
            raw_config,
            points,
            axes,
            waypoints.as_ptr(),
            waypoints.len(),
            start.as_ptr(),
            start.len(),
            end.as_ptr(),
            end.len(),
            coeffs.as_mut_ptr(),
            coeffs.len(),
        )
    };
    match answer.number {
        0 => Ok(answer.path.into()),
        number => Err(error::of_build(number, config, points, axes, waypoints, coeffs.len())),
    }
}

/// Position and derivatives at s, one number an axis: level 0 writes `q`, 2 also `dq` and `ddq`, 3 also `dddq`. A buffer
/// that the level writes has a cell for each axis; the others may have any length and are left alone. Refused, all four
/// hold what they held.
#[allow(clippy::too_many_arguments)]
pub fn eval_at(
    path: &PathRecord,
    coeffs: &[f64],
    s: f64,
    level: u8,
    q: &mut [f64],
    dq: &mut [f64],
    ddq: &mut [f64],
    dddq: &mut [f64],
) -> Result<(), PathError> {
    // SAFETY: as in `from_waypoints_view`.
    let number = unsafe {
        raw::spline_query(
            (*path).into(),
            coeffs.as_ptr(),
            coeffs.len(),
            s,
            level,
            q.as_mut_ptr(),
            q.len(),
            dq.as_mut_ptr(),
            dq.len(),
            ddq.as_mut_ptr(),
            ddq.len(),
            dddq.as_mut_ptr(),
            dddq.len(),
        )
    };
    match number {
        0 => Ok(()),
        _ => Err(error::of_query(number, path, s, level, [q.len(), dq.len(), ddq.len(), dddq.len()])),
    }
}

/// Whether a master, one axis in whole numbers within ±2^40, meets its equations. Of two sets of one order that get
/// true, the tables are equal exactly when waypoints, start and end are.
pub fn check_master(order: usize, waypoints: &[i64], start: &[i64], end: &[i64], table: &[i64]) -> Result<bool, PathError> {
    // SAFETY: each pointer comes with the length of its slice, and the function takes any numbers and writes nothing.
    let check = unsafe {
        raw::spline_check_master(
            order,
            waypoints.as_ptr(),
            waypoints.len(),
            start.as_ptr(),
            start.len(),
            end.as_ptr(),
            end.len(),
            table.as_ptr(),
            table.len(),
        )
    };
    match check.number {
        0 => Ok(check.good == 1),
        number => Err(error::of_check(number, order, waypoints, start, end, table)),
    }
}

/// The longest sheet has so many bytes.
pub const SHEET_BYTES: usize = 32_768;

/// The curve of any sheet has at most so many coefficients.
pub const SHEET_COEFFICIENTS: usize = 16_384;

/// Reads a job sheet: whether its curve would be built, and if not, why and at which byte.
///
/// A sheet is a text in whole numbers, one form a line: the order, the range of s, then 1 to 8 axes with their points and the
/// states at both ends. A state has (order − 1) / 2 numbers on each axis, as [`BoundaryState::Given`] has them per segment.
///
/// ```
/// use tezvorup::{read_sheet, PathError, SheetError};
///
/// assert_eq!(read_sheet(b"(order 3)\n(range 0 2)\n(axis (points 0 4 8) (start 0) (end 0))\n"), Ok(()));
/// assert_eq!(read_sheet(b"(order 03)"), Err(SheetError { error: PathError::InvalidSheet { byte: Some(b'3') }, at: 8 }));
/// ```
///
/// In every list `(again 3 0 100)` stands for 0 100 0 100 0 100: the count is 1 to 64, the items may be `again` forms, and at
/// most four of them stand inside one another. There is one space between items and a newline after each line, the last one
/// too; no leading zeros and no -0. Numbers are within ±2^40, and a sheet has at most [`SHEET_BYTES`] bytes.
pub fn read_sheet(text: &[u8]) -> Result<(), SheetError> {
    // SAFETY: the pointer comes with the length of its slice, and the function takes any bytes and writes nothing.
    let place = unsafe { raw::spline_read_sheet(text.as_ptr(), text.len()) };
    match place.number {
        0 => Ok(()),
        number => Err(error::of_sheet(number, place.at, text, 0)),
    }
}

/// Builds the curve of a job sheet (see [`read_sheet`]), in [`OutOfRangeMode::Error`], into the first cells of a buffer: by axis,
/// then segment, then power. The cells past the curve's table keep their contents. [`SHEET_COEFFICIENTS`] cells suffice for
/// every sheet, and fewer than the table has are refused. Refused, the buffer holds what it held.
pub fn build_sheet(text: &[u8], coeffs: &mut [f64]) -> Result<PathRecord, SheetError> {
    // SAFETY: as in `from_waypoints_view`; the function takes any bytes.
    let answer = unsafe { raw::spline_build_sheet(text.as_ptr(), text.len(), coeffs.as_mut_ptr(), coeffs.len()) };
    match answer.number {
        0 => Ok(answer.path.into()),
        number => Err(error::of_sheet(number, answer.at, text, coeffs.len())),
    }
}

/// A number of a job sheet whose bytes come in pieces, as from a pipe or a serial line. What is kept between two pieces is this value,
/// and wherever the bytes are cut, the answer is that of the whole.
///
/// ```
/// use tezvorup::{NumberReading, SheetError, WholeNumber};
///
/// let number = NumberReading::begin(14).go_on(b"-10").go_on(b"").go_on(b"24 7");
/// assert_eq!(number.finish()?, WholeNumber { value: -1024, next: 19 });
/// assert_eq!(NumberReading::begin(14).go_on(b"-").go_on(b"0").finish().unwrap_err().at, 15);
/// # Ok::<(), SheetError>(())
/// ```
#[derive(Clone, Copy, Debug, PartialEq)]
pub struct NumberReading {
    raw: raw::spline_number,
    // the first byte that is not part of the number, once it came
    after: Option<u8>,
}

/// A number that was read, and the place after it.
#[derive(Clone, Copy, Debug, PartialEq, Eq)]
pub struct WholeNumber {
    /// Its value, within ±2^40.
    pub value: i64,
    /// The place of the byte after it, in the whole text.
    pub next: usize,
}

impl NumberReading {
    /// A number that is to be read from a place of the whole text on.
    pub fn begin(at: usize) -> Self {
        // SAFETY: the function takes any number.
        NumberReading { raw: unsafe { raw::spline_begin_number(at) }, after: None }
    }

    /// The next bytes, any number of them. Once a byte came that is not part of the number, more change nothing.
    pub fn go_on(self, bytes: &[u8]) -> Self {
        // SAFETY: the pointer comes with the length of its slice, and the function takes any bytes and writes nothing.
        let raw = unsafe { raw::spline_continue_number(self.raw, bytes.as_ptr(), bytes.len()) };
        let passed = raw.next.wrapping_sub(self.raw.next);
        NumberReading { raw, after: self.after.or_else(|| bytes.get(passed).copied()) }
    }

    /// What the number is if nothing more comes; it can be asked after any piece. It is refused with [`PathError::InvalidSheet`] at
    /// the byte that no number has there, and with [`PathError::InvalidArgument`] at its own first byte where it is beyond ±2^40.
    pub fn finish(self) -> Result<WholeNumber, SheetError> {
        // SAFETY: the function takes any record.
        let whole = unsafe { raw::spline_finish_number(self.raw) };
        match whole.number {
            0 => Ok(WholeNumber { value: whole.value, next: whole.at }),
            number => Err(error::of_number(number, whole.at, self.after)),
        }
    }
}

/// A curve that owns its coefficients.
#[derive(Clone, Debug)]
pub struct SplinePath {
    record: PathRecord,
    coeffs: Vec<f64>,
}

/// How many points so many numbers are. With no axes, which is refused, each counts as a point.
fn point_count(axes: usize, numbers: &[f64]) -> usize {
    numbers.len() / axes.max(1)
}

impl SplinePath {
    /// Asks before the build: the record of the curve that [`from_waypoints`](Self::from_waypoints) would make, given the same, or
    /// its refusal. Nothing is built and nothing allocated.
    pub fn preview(config: &SplineConfig, axes: usize, numbers: &[f64]) -> Result<PathRecord, PathError> {
        let points = point_count(axes, numbers);
        preview_view(config, points, axes, numbers, coefficient_count(config.order, points, axes))
    }

    /// The curve through points of so many axes, given as numbers, point after point. Numbers that are no whole points are
    /// refused with [`PathError::InvalidShape`].
    pub fn from_waypoints(config: &SplineConfig, axes: usize, numbers: &[f64]) -> Result<Self, PathError> {
        let points = point_count(axes, numbers);
        let mut coeffs = vec![0.0; coefficient_count(config.order, points, axes)];
        let record = from_waypoints_view(config, points, axes, numbers, &mut coeffs)?;
        Ok(SplinePath { record, coeffs })
    }

    /// The curve through points, each an array with a number for each axis.
    pub fn from_points<const D: usize>(config: &SplineConfig, points: &[[f64; D]]) -> Result<Self, PathError> {
        // SAFETY: the arrays lie one after the other, and so do their numbers.
        let numbers = unsafe { std::slice::from_raw_parts(points.as_ptr().cast::<f64>(), points.len() * D) };
        Self::from_waypoints(config, D, numbers)
    }

    /// The curve of a job sheet (see [`read_sheet`]), in [`OutOfRangeMode::Error`].
    ///
    /// ```
    /// use tezvorup::{SheetError, SplinePath};
    ///
    /// let path = SplinePath::from_sheet(b"(order 3)\n(range 0 2)\n(axis (points 0 4 8) (start 0) (end 0))\n")?;
    /// assert_eq!((path.record().order, path.record().segments, path.record().axes), (3, 2, 1));
    /// let bits: Vec<String> = path.coefficients()[4..].iter().map(|x| format!("{:016x}", x.to_bits())).collect();
    /// assert_eq!(bits, ["4010000000000000", "4018000000000000", "0000000000000000", "c000000000000000"]);
    ///
    /// let refused = SplinePath::from_sheet(b"(order 3)\n(range 0 2)\n(axis (points 0 4 8) (start 0 0) (end 0))\n").unwrap_err();
    /// assert_eq!((refused.number(), refused.at), (303, 64));
    /// # Ok::<(), SheetError>(())
    /// ```
    pub fn from_sheet(text: &[u8]) -> Result<Self, SheetError> {
        let mut coeffs = vec![0.0; SHEET_COEFFICIENTS];
        let record = build_sheet(text, &mut coeffs)?;
        coeffs.truncate(coefficient_count(record.order, record.segments + 1, record.axes));
        coeffs.shrink_to_fit();
        Ok(SplinePath { record, coeffs })
    }

    /// Position and derivatives at s into the buffers given, one number an axis in each: one buffer gets the position; three
    /// the first and second derivative by s too; four also the third. Nothing is allocated, and where it is refused, every
    /// buffer holds what it held. With another count of buffers it is refused as a level that there is not.
    pub fn eval_into(&self, s: f64, buffers: &mut [&mut [f64]]) -> Result<(), PathError> {
        let level = u8::try_from(buffers.len()).unwrap_or(0).wrapping_sub(1);
        let mut buffers = buffers.iter_mut();
        let mut next = || buffers.next().map_or(&mut [][..], |buffer| &mut **buffer);
        let (q, dq, ddq, dddq) = (next(), next(), next(), next());
        self.eval_at(s, level, q, dq, ddq, dddq)
    }

    /// Position and derivatives at s, as the function [`eval_at`] gives them.
    pub fn eval_at(&self, s: f64, level: u8, q: &mut [f64], dq: &mut [f64], ddq: &mut [f64], dddq: &mut [f64]) -> Result<(), PathError> {
        eval_at(&self.record, &self.coeffs, s, level, q, dq, ddq, dddq)
    }

    /// The position at s, one number an axis.
    pub fn position(&self, s: f64) -> Result<Vec<f64>, PathError> {
        let mut q = vec![0.0; self.record.axes];
        self.eval_into(s, &mut [&mut q])?;
        Ok(q)
    }

    /// What the build handed over.
    pub fn record(&self) -> &PathRecord {
        &self.record
    }

    /// By axis, then segment, then power. The first of each segment is its left waypoint.
    pub fn coefficients(&self) -> &[f64] {
        &self.coeffs
    }
}
