//! Trial pieces of document 01, each refusal with its name and what it says, and the conveniences of the package.
use tezvorup::{check_master, coefficient_count, eval_at, from_waypoints_view, mul_add, preview_view};
use tezvorup::{BoundaryState, OutOfRangeMode, PathError, PathRecord, SplineConfig, SplinePath};

/// Piece d: order 3, the points 0 4 8, on 0 to 2.
fn piece() -> SplinePath {
    let config = SplineConfig { order: 3, s_max: 2.0, ..SplineConfig::default() };
    SplinePath::from_waypoints(&config, 1, &[0.0, 4.0, 8.0]).unwrap()
}

/// A curve through points that are all 0.
fn piece_of(order: usize, points: usize, axes: usize) -> SplinePath {
    let config = SplineConfig { order, ..SplineConfig::default() };
    SplinePath::from_waypoints(&config, axes, &vec![0.0; points * axes]).unwrap()
}

fn state(numbers: &[f64]) -> BoundaryState<'_> {
    BoundaryState::Given { rows: 1, columns: numbers.len(), per_unit_of_s: false, numbers }
}

const LOADED: [f64; 8] = [1.0, 2.0, 3.0, 4.0, 5.0, 6.0, 7.0, 8.0];

/// A build that is refused, into a table of eight numbers that has to stay. A preview says the same.
fn refused(config: SplineConfig, points: usize, axes: usize, waypoints: &[f64]) -> PathError {
    let mut coeffs = LOADED;
    let error = from_waypoints_view(&config, points, axes, waypoints, &mut coeffs).unwrap_err();
    assert_eq!(coeffs, LOADED);
    assert_eq!(preview_view(&config, points, axes, waypoints, coeffs.len()).as_ref(), Err(&error));
    error
}

#[test]
fn piece_d_is_built() {
    let path = piece();
    assert_eq!(path.coefficients(), [0.0, 0.0, 6.0, -2.0, 4.0, 6.0, 0.0, -2.0]);
    let expected = PathRecord { order: 3, segments: 2, axes: 1, s_min: 0.0, s_max: 2.0, inv_ds: 1.0, mode: OutOfRangeMode::Error };
    assert_eq!(*path.record(), expected);
}

#[test]
fn piece_h_is_evaluated() {
    let (mut q, mut dq, mut ddq, mut dddq) = ([0.0], [0.0], [0.0], [0.0]);
    piece().eval_at(0.5, 3, &mut q, &mut dq, &mut ddq, &mut dddq).unwrap();
    assert_eq!([q, dq, ddq, dddq], [[1.25], [4.5], [6.0], [-12.0]]);
    assert_eq!(piece().position(2.0).unwrap(), [8.0]);
}

#[test]
fn piece_i_is_one_rounding() {
    let step = 2f64.powi(-30);
    assert_eq!(mul_add(1.0 + step, 1.0 - step, -1.0), -(2f64.powi(-60)));
}

#[test]
fn piece_n_is_scaled() {
    let start_state = BoundaryState::Given { rows: 1, columns: 1, per_unit_of_s: true, numbers: &[3.0] };
    let config = SplineConfig { order: 3, s_max: 2.0, start_state, ..SplineConfig::default() };
    let path = SplinePath::from_waypoints(&config, 1, &[0.0, 1.0]).unwrap();
    assert_eq!(path.coefficients()[1], 6.0);
}

#[test]
fn states_stay_at_their_ends() {
    let config = SplineConfig { order: 3, start_state: state(&[2.0]), end_state: state(&[5.0]), ..SplineConfig::default() };
    let path = SplinePath::from_waypoints(&config, 1, &[0.0, 1.0]).unwrap();
    assert_eq!(path.coefficients(), [0.0, 2.0, -6.0, 5.0]);
}

#[test]
fn clamp_takes_the_nearest_end() {
    let config = SplineConfig { order: 3, out_of_range_mode: OutOfRangeMode::Clamp, ..SplineConfig::default() };
    let path = SplinePath::from_waypoints(&config, 1, &[7.0, 9.0]).unwrap();
    assert_eq!(path.record().mode, OutOfRangeMode::Clamp);
    assert_eq!(path.position(-1.0).unwrap(), [7.0]);
    assert_eq!(path.position(60.0).unwrap(), [9.0]);
}

#[test]
fn a_preview_is_the_builds_answer() {
    let config = SplineConfig { order: 3, s_min: -1.0, out_of_range_mode: OutOfRangeMode::Clamp, ..SplineConfig::default() };
    let numbers = [0.0, 4.0, 8.0];
    let path = SplinePath::from_waypoints(&config, 1, &numbers).unwrap();
    assert_eq!(SplinePath::preview(&config, 1, &numbers).as_ref(), Ok(path.record()));
    assert_eq!(preview_view(&config, 3, 1, &numbers, 8).as_ref(), Ok(path.record()));
    for (axes, numbers) in [(0, &[0.0; 3][..]), (2, &[0.0; 3]), (2, &[0.0; 7]), (9, &[0.0; 18]), (1, &[0.0, f64::NAN])] {
        assert_eq!(SplinePath::preview(&config, axes, numbers), Err(SplinePath::from_waypoints(&config, axes, numbers).unwrap_err()));
    }
}

/// The length is any number, also one that no buffer has.
#[test]
fn a_preview_is_told_any_length() {
    let config = SplineConfig { order: 3, ..SplineConfig::default() };
    for cells in [0, 7, 9, 1 << 32, 1 << 61, 1 << 63, usize::MAX] {
        let other = PathError::InvalidLength { what: "coefficients", expected: 8, given: cells };
        assert_eq!(preview_view(&config, 3, 1, &[0.0, 4.0, 8.0], cells), Err(other));
    }
}

#[test]
fn piece_e_is_checked() {
    let table = [0, 0, 6, -2, 4, 6, 0, -2];
    assert_eq!(check_master(3, &[0, 4, 8], &[0], &[0], &table), Ok(true));
    let changed = [0, 0, 6, -2, 4, 6, 0, -1];
    assert_eq!(check_master(3, &[0, 4, 8], &[0], &[0], &changed), Ok(false));
}

#[test]
fn points_are_numbers_in_a_row() {
    let config = SplineConfig { order: 7, s_min: -1.0, ..SplineConfig::default() };
    let points = [[0.0, 1.0, 2.0], [8.0, 3.0, 1.0], [16.0, 0.0, 4.0], [5.0, 5.0, 5.0]];
    let one = SplinePath::from_points(&config, &points).unwrap();
    let other = SplinePath::from_waypoints(&config, 3, &points.concat()).unwrap();
    assert_eq!((one.record(), one.coefficients()), (other.record(), other.coefficients()));
}

#[test]
fn numbers_that_are_no_whole_points_are_refused() {
    let config = SplineConfig { order: 3, ..SplineConfig::default() };
    let of = |axes: usize, numbers: &[f64]| SplinePath::from_waypoints(&config, axes, numbers).unwrap_err();
    assert_eq!(of(2, &[0.0; 7]), PathError::InvalidShape { expected: 6, given: 7 });
    assert_eq!(of(2, &[0.0; 3]), PathError::NotEnoughWaypoints { n: 1 });
    assert_eq!(of(0, &[0.0; 3]), PathError::InvalidDimension { dim: 0 });
    assert_eq!(of(9, &[0.0; 18]), PathError::InvalidDimension { dim: 9 });
    let none: [[f64; 0]; 3] = [[]; 3];
    assert_eq!(SplinePath::from_points(&config, &none).unwrap_err(), PathError::NotEnoughWaypoints { n: 0 });
}

/// Every waypoint but the last at its own s, to the last bit.
#[test]
fn left_waypoints_are_met() {
    let points: Vec<[f64; 2]> = (0..40).map(f64::from).map(|k| [(1.37 * k).sin() * 40.0, (k * k).cos() / 3.0]).collect();
    for order in [3, 5, 7] {
        let config = SplineConfig { order, s_min: -2.0, s_max: 37.0, ..SplineConfig::default() };
        let path = SplinePath::from_points(&config, &points).unwrap();
        for (k, point) in points[..39].iter().enumerate() {
            assert_eq!(path.position(k as f64 - 2.0).unwrap(), point);
        }
    }
}

/// As many buffers, so many derivatives: the same as the query with its level.
#[test]
fn buffers_tell_the_level() {
    let path = piece();
    for s in [0.0, 0.3, 1.0, 1.999, 2.0] {
        let (mut q, mut dq, mut ddq, mut dddq) = ([0.0], [0.0], [0.0], [0.0]);
        path.eval_at(s, 3, &mut q, &mut dq, &mut ddq, &mut dddq).unwrap();
        for count in [1, 3, 4] {
            let mut out = [[9.5]; 4];
            let [a, b, c, d] = &mut out;
            path.eval_into(s, &mut [&mut a[..], b, c, d][..count]).unwrap();
            let all = [q, dq, ddq, dddq];
            for k in 0..4 {
                assert_eq!(out[k], if k < count { all[k] } else { [9.5] });
            }
        }
    }
}

#[test]
fn other_counts_of_buffers_are_no_level() {
    let path = piece();
    let mut cells = vec![[1.5]; 300];
    for count in [0, 2, 5, 256, 257, 300] {
        let mut buffers: Vec<&mut [f64]> = cells[..count].iter_mut().map(|cell| &mut cell[..]).collect();
        assert_eq!(path.eval_into(0.5, &mut buffers).unwrap_err().number(), 308);
    }
    assert_eq!(cells, vec![[1.5]; 300]);
    assert_eq!(path.eval_into(0.5, &mut [&mut [0.0], &mut [0.0]]), Err(PathError::UnsupportedDerivativeOrder { requested: 1 }));
}

#[test]
fn each_refusal_of_a_build_has_its_name() {
    let points = [0.0, 4.0, 8.0];
    let cubic = SplineConfig { order: 3, ..SplineConfig::default() };
    assert_eq!(refused(SplineConfig { order: 4, ..cubic }, 3, 1, &points), PathError::InvalidOrder { order: 4 });
    assert_eq!(refused(cubic, 1, 1, &points), PathError::NotEnoughWaypoints { n: 1 });
    assert_eq!(refused(cubic, 258, 1, &points), PathError::InvalidLength { what: "points", expected: 257, given: 258 });
    assert_eq!(refused(cubic, 3, 9, &points), PathError::InvalidDimension { dim: 9 });
    assert_eq!(refused(cubic, 3, 1, &points[1..]), PathError::InvalidShape { expected: 3, given: 2 });
    let two_rows = BoundaryState::Given { rows: 2, columns: 1, per_unit_of_s: false, numbers: &[0.0] };
    assert_eq!(refused(SplineConfig { end_state: two_rows, ..cubic }, 3, 1, &points), PathError::DimensionMismatch);
    let other = PathError::InvalidLength { what: "coefficients", expected: 12, given: 8 };
    assert_eq!(refused(SplineConfig { order: 5, ..cubic }, 3, 1, &points), other);
    let backward = SplineConfig { s_min: 2.0, s_max: 1.0, ..cubic };
    assert_eq!(refused(backward, 3, 1, &points), PathError::InvalidRange { s_min: 2.0, s_max: 1.0 });
    let no_number = [0.0, f64::NAN, f64::INFINITY];
    assert_eq!(refused(cubic, 3, 1, &no_number), PathError::InvalidArgument { what: "waypoints", place: 1 });
    let endless = SplineConfig { end_state: state(&[f64::INFINITY]), ..cubic };
    assert_eq!(refused(endless, 3, 1, &points), PathError::InvalidArgument { what: "end", place: 0 });
}

#[test]
fn each_refusal_of_a_query_has_its_name() {
    let path = piece();
    let asked = |record: PathRecord, coeffs: &[f64], s: f64, level: u8| {
        let mut out = [[1.5], [2.5], [3.5], [4.5]];
        let [q, dq, ddq, dddq] = &mut out;
        let error = eval_at(&record, coeffs, s, level, q, dq, ddq, dddq).unwrap_err();
        assert_eq!(out, [[1.5], [2.5], [3.5], [4.5]]);
        error
    };
    let (record, coeffs) = (*path.record(), path.coefficients());
    assert_eq!(asked(PathRecord { order: 9, ..record }, coeffs, 0.5, 3), PathError::InvalidOrder { order: 9 });
    assert_eq!(asked(PathRecord { segments: 0, ..record }, coeffs, 0.5, 3), PathError::NotEnoughWaypoints { n: 1 });
    let most = PathError::InvalidLength { what: "segments", expected: 256, given: usize::MAX };
    assert_eq!(asked(PathRecord { segments: usize::MAX, ..record }, coeffs, 0.5, 3), most);
    assert_eq!(asked(PathRecord { axes: 0, ..record }, coeffs, 0.5, 3), PathError::InvalidDimension { dim: 0 });
    let other = PathRecord { inv_ds: 2.0, ..record };
    assert_eq!(asked(other, coeffs, 0.5, 3), PathError::InvalidRange { s_min: 0.0, s_max: 2.0 });
    assert_eq!(asked(record, &coeffs[1..], 0.5, 3), PathError::DimensionMismatch);
    assert_eq!(asked(record, coeffs, 0.5, 1), PathError::UnsupportedDerivativeOrder { requested: 1 });
    assert_eq!(asked(record, coeffs, 3.0, 0), PathError::OutOfRangeS { s_min: 0.0, s_max: 2.0, value: 3.0 });
    let short = |what: &'static str, given: usize| Err(PathError::InvalidLength { what, expected: 1, given });
    assert_eq!(path.eval_at(0.5, 0, &mut [], &mut [], &mut [], &mut []), short("q", 0));
    assert_eq!(path.eval_at(0.5, 2, &mut [0.0], &mut [0.0], &mut [0.0; 3], &mut []), short("ddq", 3));
    assert_eq!(path.eval_into(0.5, &mut [&mut [0.0], &mut [0.0], &mut [0.0], &mut []]), short("dddq", 0));
}

#[test]
fn each_refusal_of_a_check_has_its_name() {
    let table = [0; 4];
    let far = (1 << 40) + 1;
    assert_eq!(check_master(1, &[0, 0], &[], &[], &table), Err(PathError::InvalidOrder { order: 1 }));
    assert_eq!(check_master(3, &[0], &[0], &[0], &table), Err(PathError::NotEnoughWaypoints { n: 1 }));
    let many = PathError::InvalidLength { what: "waypoints", expected: 257, given: 258 };
    assert_eq!(check_master(3, &[0; 258], &[0], &[0], &table), Err(many));
    assert_eq!(check_master(3, &[0, 0], &[0], &[], &table), Err(PathError::DimensionMismatch));
    let short = PathError::InvalidLength { what: "table", expected: 4, given: 3 };
    assert_eq!(check_master(3, &[0, 0], &[0], &[0], &table[1..]), Err(short));
    let at = |what: &'static str, place: usize| Err(PathError::InvalidArgument { what, place });
    assert_eq!(check_master(3, &[0, far], &[0], &[-far], &table), at("waypoints", 1));
    assert_eq!(check_master(3, &[0, 0], &[i64::MIN], &[0], &table), at("start", 0));
    assert_eq!(check_master(3, &[0, 0], &[0], &[far], &table), at("end", 0));
    assert_eq!(check_master(3, &[0, 0], &[0], &[0], &[0, 0, far, 0]), at("table", 2));
}

#[test]
fn each_refusal_says_what_is_wrong() {
    let said = |error: PathError| error.to_string();
    let points = PathError::InvalidLength { what: "points", expected: 257, given: 300 };
    assert_eq!(said(points), "too many points: 300, expected at most 257");
    let buffer = PathError::InvalidLength { what: "dq", expected: 2, given: 3 };
    assert_eq!(said(buffer), "invalid length of dq: 3, expected 2");
    let number = PathError::InvalidArgument { what: "start", place: 4 };
    assert_eq!(said(number), "number 4 of start is not finite or out of range");
}

#[test]
fn coefficients_are_counted() {
    assert_eq!(coefficient_count(7, 257, 8), piece_of(7, 257, 8).coefficients().len());
    assert_eq!(coefficient_count(3, 2, 1), piece_of(3, 2, 1).coefficients().len());
    for (order, points, axes) in [(0, 2, 1), (4, 3, 1), (6, 257, 8), (9, 3, 1), (5, 1, 1), (5, 258, 1), (5, 3, 0), (5, 3, 9)] {
        assert_eq!(coefficient_count(order, points, axes), 0);
    }
}

/// The library refuses before it looks at a buffer or multiplies a count.
#[test]
fn no_count_is_too_large() {
    for n in [usize::MAX, 1 << 63, 1 << 32] {
        let of = |order: usize, points: usize, axes: usize| refused(SplineConfig { order, ..SplineConfig::default() }, points, axes, &[]);
        assert_eq!(of(n, n, n), PathError::InvalidOrder { order: n });
        assert_eq!(of(5, n, n), PathError::InvalidLength { what: "points", expected: 257, given: n });
        assert_eq!(of(5, 257, n), PathError::InvalidDimension { dim: n });
        assert_eq!(SplinePath::from_waypoints(&SplineConfig::default(), n, &[]).unwrap_err(), PathError::NotEnoughWaypoints { n: 0 });
    }
}
