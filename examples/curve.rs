//! An arch through three points, from Rust: asked about, built, printed, walked along, refused and checked. `examples/rust`
//! builds and runs it, and `cargo run --example curve` in bindings/rust; examples/curve.c is the same in C and prints the same.
use tezvorup::{check_master, from_waypoints_view, preview_view, PathError, SplineConfig, SplinePath};

const CELLS: usize = 6;

fn main() -> Result<(), PathError> {
    let config = SplineConfig { order: 5, s_max: 2.0, ..SplineConfig::default() };
    let told = SplinePath::preview(&config, 2, &[0.0, 0.0, 8.0, 3.0, 16.0, 0.0])?;
    println!("preview: 0, segments {}", told.segments);
    let path = SplinePath::from_points(&config, &[[0.0, 0.0], [8.0, 3.0], [16.0, 0.0]])?;
    println!("build: 0");
    for (place, segment) in path.coefficients().chunks(CELLS).enumerate() {
        let list: Vec<String> = segment.iter().map(|x| format!("{x:.1}")).collect();
        println!("{}, segment {}: {}", ["x", "y"][place / 2], place % 2, list.join(" "));
    }

    for step in 0..=8 {
        let s = f64::from(step) / 4.0;
        let (mut q, mut dq, mut ddq) = ([0.0; 2], [0.0; 2], [0.0; 2]);
        path.eval_into(s, &mut [&mut q, &mut dq, &mut ddq])?;
        let curvature = (dq[0] * ddq[1] - dq[1] * ddq[0]) / (dq[0] * dq[0] + dq[1] * dq[1]).powf(1.5);
        print!("s {s:.2}: x {:.6}, y {:.6}", q[0], q[1]);
        // the path starts and ends at rest, where it has no direction
        if curvature.is_finite() {
            print!(", curvature {curvature:.6}");
        }
        println!();
    }

    // Points that are not accepted leave the loaded table as it was.
    let mut table = path.coefficients().to_vec();
    let damaged = [0.0, 0.0, f64::NAN, 3.0, 16.0, 0.0];
    let told = preview_view(&config, 3, 2, &damaged, table.len()).expect_err("a waypoint is no number");
    let refused = from_waypoints_view(&config, 3, 2, &damaged, &mut table).expect_err("a waypoint is no number");
    let kept = if table == path.coefficients() { "as it was" } else { "changed" };
    println!("a waypoint that is no number: told {}, refused with {}, the table is {kept}", told.number(), refused.number());

    let refused = path.position(2.5).expect_err("the range ends at 2");
    println!("s 2.5: refused with {}", refused.number());

    // The x axis is whole numbers, so it can be kept as a master.
    let mut master: Vec<i64> = table[..2 * CELLS].iter().map(|&x| x as i64).collect();
    let said = |yes: bool| if yes { "yes" } else { "no" };
    print!("x as a master: {}", said(check_master(5, &[0, 8, 16], &[0, 0], &[0, 0], &master)?));
    master[2 * CELLS - 1] += 1;
    println!("; with its last number changed: {}", said(check_master(5, &[0, 8, 16], &[0, 0], &[0, 0], &master)?));
    Ok(())
}
