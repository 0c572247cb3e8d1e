//! The table that document 01's rules give in exact arithmetic. The system of the inner nodes is solved modulo the prime
//! 2^61 - 1, with document 01's tables as they stand there. A fraction a / b has a residue, a times the inverse of b, so what
//! is solved for is the residue of the exact, rational solution: where that is whole and within 2^60 it is the residue nearest
//! to zero, and where numerators and denominators are below 2^30 it can be told from the residue too. Neither is believed:
//! whoever uses a table so found sees whether it meets the equations over whole numbers, which no other table can.

use std::ops::{Add, Mul, Sub};

const PRIME: u64 = (1 << 61) - 1;

#[derive(Clone, Copy, PartialEq)]
struct Residue(u64);

impl Add for Residue {
    type Output = Residue;
    fn add(self, other: Residue) -> Residue {
        Residue((self.0 + other.0) % PRIME)
    }
}

impl Sub for Residue {
    type Output = Residue;
    fn sub(self, other: Residue) -> Residue {
        Residue((self.0 + PRIME - other.0) % PRIME)
    }
}

impl Mul for Residue {
    type Output = Residue;
    fn mul(self, other: Residue) -> Residue {
        Residue((u128::from(self.0) * u128::from(other.0) % u128::from(PRIME)) as u64)
    }
}

const ZERO: Residue = Residue(0);

impl Residue {
    fn of(z: i64) -> Residue {
        Residue(i128::from(z).rem_euclid(i128::from(PRIME)) as u64)
    }
    /// x^(p - 2), after Fermat.
    fn inverse(self) -> Residue {
        let step = |x: Residue, i: u32| if (PRIME - 2) >> i & 1 == 1 { x * x * self } else { x * x };
        (0..61).rev().fold(Residue(1), step)
    }
    /// The whole number of this residue that is nearest to zero.
    fn whole(self) -> i64 {
        let z = self.0 as i64;
        if self.0 > PRIME / 2 {
            z - PRIME as i64
        } else {
            z
        }
    }
    /// The least denominator of a fraction with this residue and a numerator below 2^30: Euclid's steps, halfway.
    fn denominator(self) -> i64 {
        let (mut a, mut b) = ((PRIME as i64, 0), (self.0 as i64, 1));
        while b.0 >= 1 << 30 {
            let q = a.0 / b.0;
            (a, b) = (b, (a.0 - q * b.0, a.1 - q * b.1));
        }
        b.1.abs()
    }
}

type Matrix = Vec<Vec<Residue>>;

fn matrix(rows: &[&[i64]]) -> Matrix {
    rows.iter().map(|row| row.iter().map(|&z| Residue::of(z)).collect()).collect()
}

fn dot(row: &[Residue], numbers: &[Residue]) -> Residue {
    row.iter().zip(numbers).fold(ZERO, |sum, (&a, &b)| sum + a * b)
}

struct Tables {
    a: Matrix,
    b: Matrix,
    c: Matrix,
    r: Matrix,
    h: Matrix,
}

/// Document 01, "Tables".
fn tables(m: usize) -> Tables {
    match m {
        1 => Tables {
            a: matrix(&[&[1]]),
            b: matrix(&[&[4]]),
            c: matrix(&[&[1]]),
            r: matrix(&[&[3, 3]]),
            h: matrix(&[&[3, -2, -1], &[-2, 1, 1]]),
        },
        2 => Tables {
            a: matrix(&[&[-4, -1], &[-7, -2]]),
            b: matrix(&[&[0, 6], &[-16, 0]]),
            c: matrix(&[&[4, -1], &[-7, 2]]),
            r: matrix(&[&[-10, 10], &[-15, -15]]),
            h: matrix(&[&[10, -6, -3, -4, 1], &[-15, 8, 3, 7, -2], &[6, -3, -1, -3, 1]]),
        },
        _ => Tables {
            a: matrix(&[&[15, 5, 1], &[39, 14, 3], &[34, 13, 3]]),
            b: matrix(&[&[40, 0, 8], &[0, -40, 0], &[72, 0, 8]]),
            c: matrix(&[&[15, -5, 1], &[-39, 14, -3], &[34, -13, 3]]),
            r: matrix(&[&[35, 35], &[84, -84], &[70, 70]]),
            h: matrix(&[
                &[35, -20, -10, -4, -15, 5, -1],
                &[-84, 45, 20, 6, 39, -14, 3],
                &[70, -36, -15, -4, -34, 13, -3],
                &[-20, 10, 4, 1, 10, -4, 1],
            ]),
        },
    }
}

/// Gauss and Jordan, on the matrix in the first columns: what stands in the others is solved with it.
fn eliminated(mut rows: Matrix) -> Matrix {
    for k in 0..rows.len() {
        let pivot = (k..rows.len()).find(|&i| rows[i][k] != ZERO).expect("a matrix that has an inverse");
        rows.swap(k, pivot);
        let scale = rows[k][k].inverse();
        rows[k].iter_mut().for_each(|x| *x = *x * scale);
        for i in (0..rows.len()).filter(|&i| i != k) {
            let factor = rows[i][k];
            for j in 0..rows[i].len() {
                rows[i][j] = rows[i][j] - factor * rows[k][j];
            }
        }
    }
    rows
}

/// The numbers of all nodes. Past the first, node i's numbers are its solved side minus its solved C times the next node's; the
/// first node has the start state for its solved side, and a solved C of zeros.
fn nodes(t: &Tables, dy: &[Residue], start: &[Residue], end: &[Residue]) -> Matrix {
    let m = start.len();
    let mut solved = vec![(start.to_vec(), vec![vec![ZERO; m]; m])];
    for i in 1..dy.len() {
        let (side, c) = &solved[i - 1];
        let column = |j: usize| -> Vec<Residue> { c.iter().map(|row| row[j]).collect() };
        let row = |k: usize| -> Vec<Residue> {
            let left = (0..m).map(|j| t.b[k][j] - dot(&t.a[k], &column(j)));
            let right = t.r[k][0] * dy[i - 1] + t.r[k][1] * dy[i] - dot(&t.a[k], side);
            left.chain(t.c[k].iter().copied()).chain([right]).collect()
        };
        let rows = eliminated((0..m).map(row).collect());
        solved.push((rows.iter().map(|row| row[2 * m]).collect(), rows.iter().map(|row| row[m..2 * m].to_vec()).collect()));
    }
    let mut found = vec![end.to_vec()];
    for (side, c) in solved.iter().rev() {
        let next = &found[found.len() - 1];
        found.push((0..m).map(|k| side[k] - dot(&c[k], next)).collect());
    }
    found.reverse();
    found
}

fn residues(numbers: &[i64]) -> Vec<Residue> {
    numbers.iter().map(|&z| Residue::of(z)).collect()
}

fn differences(w: &[Residue]) -> Vec<Residue> {
    w.windows(2).map(|pair| pair[1] - pair[0]).collect()
}

/// Segment by segment the left waypoint, the left node's numbers and the upper coefficients.
fn segments(t: &Tables, w: &[Residue], nodes: &Matrix) -> Vec<Residue> {
    let dy = differences(w);
    let segment = |i: usize| -> Vec<Residue> {
        let given = [vec![dy[i]], nodes[i].clone(), nodes[i + 1].clone()].concat();
        let upper = t.h.iter().map(|row| dot(row, &given));
        [w[i]].into_iter().chain(nodes[i].iter().copied()).chain(upper).collect()
    };
    (0..dy.len()).flat_map(segment).collect()
}

fn solved(waypoints: &[i64], start: &[i64], end: &[i64]) -> Vec<Residue> {
    let (t, w) = (tables(start.len()), residues(waypoints));
    let found = nodes(&t, &differences(&w), &residues(start), &residues(end));
    segments(&t, &w, &found)
}

/// The table of these points and states, if it is of whole numbers within 2^60.
pub fn table(waypoints: &[i64], start: &[i64], end: &[i64]) -> Vec<i64> {
    solved(waypoints, start, end).into_iter().map(Residue::whole).collect()
}

/// The table that has these numbers at its nodes, whatever its joints are.
pub fn through(waypoints: &[i64], nodes: &[Vec<i64>]) -> Vec<i64> {
    let numbers = nodes.iter().map(|node| residues(node)).collect();
    segments(&tables(nodes[0].len()), &residues(waypoints), &numbers).into_iter().map(Residue::whole).collect()
}

/// The least common denominator of the table of these points and states, if that is small.
pub fn denominator(waypoints: &[i64], start: &[i64], end: &[i64]) -> Option<i64> {
    let gcd = |mut a: i64, mut b: i64| {
        while b != 0 {
            (a, b) = (b, a % b);
        }
        a
    };
    let together = |all: i64, x: Residue| (all / gcd(all, x.denominator())).checked_mul(x.denominator()).filter(|&d| d < 1 << 30);
    solved(waypoints, start, end).into_iter().try_fold(1, together)
}
