//! Job sheets: document 02's, those of examples/, each refusal with its place, its name and what it says, and the longest sheet.
use std::thread;
use tezvorup::{build_sheet, read_sheet, NumberReading, PathError, PathRecord, SheetError, SplinePath, WholeNumber};
use tezvorup::{BoundaryState, SplineConfig, SHEET_BYTES, SHEET_COEFFICIENTS};

const SHEET: &str = "(order 3)\n(range 0 2)\n(axis (points 0 4 8) (start 0) (end 0))\n";

/// A text after the two first lines of that sheet, which are 22 bytes.
fn with(rest: &str) -> String {
    format!("(order 3)\n(range 0 2)\n{rest}")
}

/// The line of an axis that is at rest at order 3.
fn axis(points: &str) -> String {
    format!("(axis (points {points}) (start 0) (end 0))\n")
}

/// Why a sheet is refused, and where: the same from all three, and the buffer has to stay.
fn refused(text: &str) -> (PathError, usize) {
    let text = text.as_bytes();
    let mut coeffs = vec![7.5; SHEET_COEFFICIENTS];
    let refused = build_sheet(text, &mut coeffs).unwrap_err();
    assert!(coeffs.iter().all(|&x| x == 7.5));
    assert_eq!(read_sheet(text), Err(refused));
    assert_eq!(SplinePath::from_sheet(text).unwrap_err(), refused);
    (refused.error, refused.at)
}

/// 600 at a byte, where the text has it.
fn invalid(text: &str) -> usize {
    let (error, at) = refused(text);
    assert_eq!(error, PathError::InvalidSheet { byte: text.as_bytes().get(at).copied() });
    at
}

#[test]
fn the_sheet_of_document_02_is_built() {
    assert_eq!(read_sheet(SHEET.as_bytes()), Ok(()));
    let path = SplinePath::from_sheet(SHEET.as_bytes()).unwrap();
    let expected = [0, 0, 0x4018000000000000, 0xc000000000000000, 0x4010000000000000, 0x4018000000000000, 0, 0xc000000000000000];
    assert_eq!(path.coefficients().iter().map(|x| x.to_bits()).collect::<Vec<u64>>(), expected);
    let config = SplineConfig { order: 3, s_max: 2.0, ..SplineConfig::default() };
    assert_eq!(path.record(), SplinePath::from_waypoints(&config, 1, &[0.0, 4.0, 8.0]).unwrap().record());
}

/// What a number says whose bytes are cut at every two places, the same wherever that is.
fn in_three(at: usize, bytes: &[u8]) -> Result<WholeNumber, SheetError> {
    let whole = NumberReading::begin(at).go_on(bytes).finish();
    for second in 0..=bytes.len() {
        for first in 0..=second {
            let (a, b, c) = (&bytes[..first], &bytes[first..second], &bytes[second..]);
            assert_eq!(NumberReading::begin(at).go_on(a).go_on(b).go_on(c).finish(), whole);
        }
    }
    whole
}

#[test]
fn a_number_in_pieces_is_that_of_the_whole() {
    let is = |value, next| Ok(WholeNumber { value, next });
    assert_eq!(in_three(7, b"0"), is(0, 8));
    assert_eq!(in_three(7, b"03)"), is(0, 8));
    assert_eq!(in_three(0, b"-45 6"), is(-45, 3));
    assert_eq!(in_three(36, b"1099511627776x"), is(1 << 40, 49));
    assert_eq!(in_three(36, b"-1099511627776)"), is(-1 << 40, 50));
    let fault = |bytes: &[u8]| in_three(36, bytes).map_err(|e| (e.number(), e.at, e.to_string())).unwrap_err();
    assert_eq!(fault(b"1099511627777x"), (4, 36, "byte 36 of the sheet: a number is beyond ±2^40".to_string()));
    assert_eq!(fault(b"-x"), (600, 37, "byte 37 of the sheet: no sheet has 'x' here".to_string()));
    assert_eq!((fault(b"-0").0, fault(b"-0").1, fault(b"").1, fault(b"-").1, fault(b"+1").1), (600, 37, 36, 37, 36));
}

#[test]
fn a_zero_keeps_its_sign() {
    let path = SplinePath::from_sheet(b"(order 5)\n(range 0 2)\n(axis (points 0 1 0) (start 0 0) (end 0 0))\n").unwrap();
    assert_eq!(path.coefficients()[7].to_bits(), 0x8000000000000000);
}

#[test]
fn the_examples_are_built() {
    let of = |text: &[u8]| *SplinePath::from_sheet(text).unwrap().record();
    let unit = PathRecord { inv_ds: 1.0, ..PathRecord::default() };
    let border = PathRecord { order: 5, segments: 20, axes: 2, s_max: 20.0, ..unit };
    assert_eq!(of(include_bytes!("../../../examples/border.sheet")), border);
    let shield = PathRecord { order: 7, segments: 12, axes: 2, s_max: 12.0, ..unit };
    assert_eq!(of(include_bytes!("../../../examples/shield.sheet")), shield);
    let sign = PathRecord { order: 3, segments: 6, axes: 3, s_max: 6.0, ..unit };
    assert_eq!(of(include_bytes!("../../../examples/sign.sheet")), sign);
}

/// Axes and states stay in their places.
#[test]
fn a_sheet_is_a_build_with_states_given() {
    let sheet = "(order 5)\n(range -1 3)\n(axis (points 1 2 4) (start 5 6) (end 7 8))\n(axis (points -9 0 3) (start 1 0) (end 0 -2))\n";
    let state = |numbers| BoundaryState::Given { rows: 2, columns: 2, per_unit_of_s: false, numbers };
    let (start_state, end_state) = (state(&[5.0, 1.0, 6.0, 0.0]), state(&[7.0, 0.0, 8.0, -2.0]));
    let config = SplineConfig { order: 5, s_min: -1.0, s_max: 3.0, start_state, end_state, ..SplineConfig::default() };
    let one = SplinePath::from_sheet(sheet.as_bytes()).unwrap();
    let other = SplinePath::from_points(&config, &[[1.0, -9.0], [2.0, 0.0], [4.0, 3.0]]).unwrap();
    assert_eq!((one.record(), one.coefficients()), (other.record(), other.coefficients()));
}

#[test]
fn again_stands_for_its_items() {
    let of = |points: &str, state: &str| {
        let axis = format!("(axis (points {points}) (start {state}) (end {state}))\n");
        SplinePath::from_sheet(format!("(order 7)\n(range 0 9)\n{axis}").as_bytes()).unwrap()
    };
    let plain = of("5 0 100 0 100 0 100 -7", "2 2 2");
    for (points, state) in [
        ("5 (again 3 0 100) -7", "(again 3 2)"),
        ("5 (again 1 (again 3 0 100)) -7", "2 (again 2 2)"),
        ("(again 1 5 (again 1 (again 1 (again 3 0 100))) -7)", "(again 1 2 2) 2"),
    ] {
        let path = of(points, state);
        assert_eq!((path.record(), path.coefficients()), (plain.record(), plain.coefficients()));
    }
}

#[test]
fn cells_past_the_table_stay() {
    let mut coeffs = [7.5; 11];
    let record = build_sheet(SHEET.as_bytes(), &mut coeffs).unwrap();
    assert_eq!((record.order, record.segments, record.axes), (3, 2, 1));
    assert_eq!(coeffs, [0.0, 0.0, 6.0, -2.0, 4.0, 6.0, 0.0, -2.0, 7.5, 7.5, 7.5]);
    assert!(build_sheet(SHEET.as_bytes(), &mut coeffs[..8]).is_ok());
}

#[test]
fn a_shorter_buffer_is_refused() {
    for given in [0, 1, 7] {
        let mut coeffs = vec![7.5; given];
        let error = PathError::InvalidLength { what: "coefficients", expected: 8, given };
        assert_eq!(build_sheet(SHEET.as_bytes(), &mut coeffs), Err(SheetError { error, at: SHEET.len() }));
        assert_eq!(coeffs, vec![7.5; given]);
    }
    // the question about it comes after those about states, and before the range's
    let shape = SHEET.replace("(end 0)", "(end 0 0)");
    assert_eq!(build_sheet(shape.as_bytes(), &mut []).unwrap_err().error, PathError::DimensionMismatch);
    let range = SHEET.replace("0 2", "2 0");
    assert_eq!(build_sheet(range.as_bytes(), &mut []).unwrap_err().number(), 2);
}

#[test]
fn a_byte_that_no_sheet_has_is_found() {
    assert_eq!(invalid(""), 0);
    assert_eq!(invalid(&with("")), 22);
    assert_eq!(invalid(&SHEET[..SHEET.len() - 1]), SHEET.len() - 1);
    assert_eq!(invalid("(order 03)"), 8);
    assert_eq!(invalid("(order -0)"), 8);
    assert_eq!(invalid("(order -)"), 8);
    assert_eq!(invalid("(order +3)"), 7);
    assert_eq!(invalid("(order 3)\r\n"), 9);
    assert_eq!(invalid(&with("(axis (points 0 1))")), 40);
    assert_eq!(invalid(&with("(axis (points)")), 35);
    assert_eq!(invalid(&with("(axis (points (again 3)")), 44);
    assert_eq!(invalid(&with("(axis (points (again 65 0)")), 44);
    assert_eq!(invalid(&with("(axis (points (again 640 0)")), 45);
    assert_eq!(invalid(&with("(axis (points (again 064 0)")), 43);
    assert_eq!(invalid(&with("(axis (points 1099511627776x")), 49);
    assert_eq!(invalid(&with("(axis (points 0 1) (start 0 0 0 0) (end 0)x")), 64);
    assert_eq!(invalid(&with(&axis("0 1").repeat(9))), 22 + 8 * axis("0 1").len());
}

#[test]
fn a_limit_that_is_passed_is_found() {
    assert_eq!(refused("(order 1099511627777"), (PathError::InvalidArgument { what: "sheet", place: 7 }, 7));
    assert_eq!(refused(&with("(axis (points -1099511627777x")), (PathError::InvalidArgument { what: "sheet", place: 36 }, 36));
    let deep = |inner: &str| with(&axis(&format!("(again 1 (again 1 (again 1 (again 1 {inner}))))")));
    assert_eq!(refused(&deep("(x")), (PathError::SheetTooDeep, 72));
    assert_eq!(read_sheet(deep("0 1099511627776 -1099511627776").as_bytes()), Ok(()));
}

#[test]
fn sizes_are_found() {
    let long = |what: &'static str, expected: usize, given: usize| PathError::InvalidLength { what, expected, given };
    assert_eq!(refused(&with(&axis("0 (again 5 (again 60 1 2)) 3"))), (long("points", 257, 602), 38));
    assert_eq!(refused(&with(&axis(&format!("{} 7", "(again 64 0) ".repeat(4) + "5")))), (long("points", 257, 258), 90));
    let most = axis("(again 64 (again 64 (again 64 (again 64 0))))");
    assert_eq!(refused(&with(&most)), (long("points", 257, 1 << 24), 36));
    let start = "(axis (points 0 1) (start 0 0 0 0) (end 0))\n";
    assert_eq!(refused(&with(start)), (long("start", 3, 4), 54));
    let end = "(axis (points 0 1) (start 0) (end 0 (again 64 0)))\n";
    assert_eq!(refused(&with(&(axis("0 1") + end))), (long("end", 3, 65), 22 + axis("0 1").len() + 36));
    let unlike = axis("0 1 2") + &axis("(again 2 0)");
    assert_eq!(refused(&with(&unlike)), (PathError::InvalidShape { expected: 3, given: 2 }, 22 + axis("0 1 2").len() + 25));
}

/// What the build refuses has the sheet's length as its place.
#[test]
fn questions_of_the_build_are_asked() {
    let of = |from: &str, to: &str| {
        let text = SHEET.replace(from, to);
        let (error, at) = refused(&text);
        assert_eq!(at, text.len());
        error
    };
    assert_eq!(of("order 3", "order 4"), PathError::InvalidOrder { order: 4 });
    assert_eq!(of("order 3", "order -3"), PathError::InvalidOrder { order: 0 });
    assert_eq!(of("order 3", "order 1099511627776"), PathError::InvalidOrder { order: 1 << 40 });
    assert_eq!(of("0 4 8", "0"), PathError::NotEnoughWaypoints { n: 1 });
    assert_eq!(of("range 0 2", "range 2 -5"), PathError::InvalidRange { s_min: 2.0, s_max: -5.0 });
    assert_eq!(of("start 0", "start 0 0"), PathError::DimensionMismatch);
    assert_eq!(of("order 3", "order 5"), PathError::DimensionMismatch);
}

#[test]
fn each_refusal_says_what_is_wrong() {
    let said = |text: &str| read_sheet(text.as_bytes()).unwrap_err().to_string();
    assert_eq!(said("(order 03)"), "byte 8 of the sheet: no sheet has '3' here");
    assert_eq!(said("(order 3)\r\n"), "byte 9 of the sheet: no sheet has '\\r' here");
    assert_eq!(said("(order 3"), "byte 8 of the sheet: the sheet ends early, or is longer than 32768 bytes");
    assert_eq!(said("(order 1099511627777"), "byte 7 of the sheet: a number is beyond ±2^40");
    let start = SHEET.replace("start 0", "start (again 5 0)");
    assert_eq!(said(&start), "byte 50 of the sheet: too many numbers of start: 5, expected at most 3");
    assert_eq!(said(&SHEET.replace("order 3", "order 9")), "byte 62 of the sheet: invalid spline order: 9, expected 3, 5 or 7");
    let deep = with("(axis (points (again 1 (again 1 (again 1 (again 1 (again 1 ");
    assert_eq!(said(&deep), "byte 72 of the sheet: a bracket opens inside four again");
    let numbers = ["(order 03)", deep.as_str()].map(|text| read_sheet(text.as_bytes()).unwrap_err().number());
    assert_eq!(numbers, [600, 601]);
}

// ---- the longest sheet

/// Point k of an axis: numbers of 13 digits and a minus, near the limit.
fn far(axis: usize, k: usize) -> i64 {
    -(1 << 40) + ((axis * 257 + k) * 40_000_003 % 90_000_000_000) as i64
}

/// Order 7, 8 axes and 257 points, as long as a sheet can be: so many points stand in `again` forms, which take ten bytes each.
fn longest() -> String {
    let wrapped = |most: usize| {
        let item = |axis: usize, k: usize| match axis * 257 + k {
            place if place < most => format!("(again 1 {})", far(axis, k)),
            _ => far(axis, k).to_string(),
        };
        let points = |axis: usize| (0..257).map(|k| item(axis, k)).collect::<Vec<String>>().join(" ");
        let line = |axis: usize| format!("(axis (points {}) (start 0 0 0) (end 0 0 0))\n", points(axis));
        format!("(order 7)\n(range 0 256)\n{}", (0..8).map(line).collect::<String>())
    };
    let text = wrapped((SHEET_BYTES - wrapped(0).len()) / 10);
    // what is left is less than ten bytes, and the end of the range has some digits more
    let digits = "1".repeat(SHEET_BYTES - text.len());
    text.replace("(range 0 256)", &format!("(range 0 {digits}256)"))
}

/// In a thread with 256 KB of stack, the buffers on the heap.
fn in_a_small_thread(run: impl FnOnce() + Send + 'static) {
    thread::Builder::new().stack_size(256 * 1024).spawn(run).unwrap().join().unwrap();
}

#[test]
fn the_longest_sheet_is_read_and_built_with_little_stack() {
    let text = longest();
    assert_eq!(text.len(), SHEET_BYTES);
    in_a_small_thread(move || {
        assert_eq!(read_sheet(text.as_bytes()), Ok(()));
        let path = SplinePath::from_sheet(text.as_bytes()).unwrap();
        assert_eq!(path.coefficients().len(), SHEET_COEFFICIENTS);
        let numbers: Vec<f64> = (0..8 * 257).map(|place| far(place % 8, place / 8) as f64).collect();
        let config = SplineConfig { order: 7, s_max: path.record().s_max, ..SplineConfig::default() };
        let other = SplinePath::from_waypoints(&config, 8, &numbers).unwrap();
        assert_eq!((path.record(), path.coefficients()), (other.record(), other.coefficients()));
    });
}

#[test]
fn the_longest_sheets_are_refused_with_little_stack() {
    let long = longest();
    let unlike = long.replacen("(again 1 ", "(again 2 ", 1);
    let too_long = long.clone() + "\n";
    let brackets = with("(axis (points ") + &"(again 1 ".repeat(4000);
    let digits = with("(axis (points ") + &"9".repeat(40_000);
    in_a_small_thread(move || {
        assert_eq!(refused(&long.replace("(order 7)", "(order 9)")), (PathError::InvalidOrder { order: 9 }, SHEET_BYTES));
        assert_eq!(refused(&unlike).0, PathError::InvalidLength { what: "points", expected: 257, given: 258 });
        assert_eq!(refused(&too_long), (PathError::InvalidSheet { byte: None }, SHEET_BYTES));
        assert_eq!(refused(&brackets), (PathError::SheetTooDeep, 72));
        assert_eq!(refused(&digits), (PathError::InvalidArgument { what: "sheet", place: 36 }, 36));
    });
}

/// Only the bytes before the limit are judged, and a number counts with its digits before it.
#[test]
fn what_is_past_the_limit_is_not_looked_at() {
    let text = longest() + "x";
    assert_eq!(refused(&text), (PathError::InvalidSheet { byte: None }, SHEET_BYTES));
    let early = text.replacen("(range", "(Range", 1);
    assert_eq!(invalid(&early), 11);
}
