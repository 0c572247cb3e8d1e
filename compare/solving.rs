//! How much the rules of solving decide: builds by the library against the Rust text over a stand-in for nalgebra that
//! solves in another way than document 01 has it. `compare/run` compiles it once for each way and runs it:
//!
//!   solving WAY   a row for each order: the way, builds, coefficients, how many of those differ, the greatest difference
//!                 as a multiple of 2^-52 of the greatest coefficient of its axis, and the greatest difference of a
//!                 coordinate half-way along a segment, points within 100 of 0
//!
//! In document 01's own way, `document`, nothing may differ.

use input::{diag, path, Build};
use random::Random;
use spline::coefficients;
use tezvorup::{from_waypoints_view, SplineConfig};

mod asked;
#[allow(dead_code)]
mod input;
mod random;
#[allow(dead_code)]
mod spline;

/// The library's coefficients of a build whose states are none.
fn ours(b: &Build) -> Vec<f64> {
    let mut cells = vec![0.0; b.cells];
    let config = SplineConfig { order: b.order, s_min: b.s_min, s_max: b.s_max, ..SplineConfig::default() };
    from_waypoints_view(&config, b.points, b.axes, &b.waypoints, &mut cells).expect("the library builds it");
    cells
}

/// The position half-way along a segment.
fn half_way(segment: &[f64]) -> f64 {
    segment.iter().rev().fold(0.0, |sum, c| sum * 0.5 + c)
}

/// The greatest distance between what two lists have at the same place.
fn apart(x: impl Iterator<Item = f64>, y: impl Iterator<Item = f64>) -> f64 {
    x.zip(y).map(|(a, b)| (a - b).abs()).fold(0.0, f64::max)
}

fn main() {
    let way = std::env::args().nth(1).expect("a way of solving");
    for order in [3, 5, 7] {
        let mut random = Random(0x428a_2f98_d728_ae22);
        let (mut builds, mut cells, mut differing) = (0, 0, 0);
        let (mut greatest, mut distance) = (0.0f64, 0.0f64);
        for points in 3..=257 {
            let mut b = Build::random(&mut random, order, points, 8);
            b.waypoints = (0..8 * points).map(|_| random.unit() * 200.0 - 100.0).collect();
            (b.start.given, b.end.given) = (None, None);
            let (here, path) = (ours(&b), b.path().expect("the Rust builds it"));
            let there = coefficients(&path);
            for (x, y) in here.chunks(b.cells / 8).zip(there.chunks(b.cells / 8)) {
                let size = x.iter().fold(0.0, |most: f64, c| most.max(c.abs()));
                greatest = greatest.max(apart(x.iter().copied(), y.iter().copied()) / (size * f64::EPSILON));
                distance = distance.max(apart(x.chunks(order + 1).map(half_way), y.chunks(order + 1).map(half_way)));
            }
            differing += here.iter().zip(there).filter(|(a, b)| a != b).count();
            builds += 1;
            cells += b.cells;
        }
        assert!(way != "document" || differing == 0);
        println!("order {order}, {way}\t{builds}\t{cells}\t{differing}\t{greatest:.1}\t{distance:.1e}");
    }
}
