//! A stand-in for the crate nalgebra, which cannot be had here: what the module src/path/spline.rs
//! of copp names of it, and no more. Factoring and solving follow document 01's rules; products run
//! left to right with the first product unaccompanied. It is written from that document, so a
//! comparison through it says nothing about nalgebra's own bits. To see how much such rules decide, it can be
//! compiled to break one of them: `--cfg 'solving="divided"'`, `"summed"`, `"fused"` or `"inverted"`.

use std::ops::{Add, Index, IndexMut, Mul, Sub, SubAssign};

/// Multipliers are entry over pivot, not entry times the pivot's rounded reciprocal.
const DIVIDED: bool = cfg!(solving = "divided");
/// The products to be subtracted from a row are summed first, not subtracted one at a time.
const SUMMED: bool = cfg!(solving = "summed");
/// A product and the sum or difference it goes into are rounded once, not apart.
const FUSED: bool = cfg!(solving = "fused");
/// The last step multiplies by the pivot's rounded reciprocal and does not divide.
const INVERTED: bool = cfg!(solving = "inverted");

#[derive(Clone, Debug)]
pub struct DMatrix<T> {
    rows: usize,
    columns: usize,
    /// Column-major.
    cells: Vec<T>,
}

#[derive(Clone, Debug)]
pub struct DVector<T> {
    cells: Vec<T>,
}

#[derive(Clone, Copy)]
pub struct DMatrixView<'a, T> {
    matrix: &'a DMatrix<T>,
}

/// One row or one column, copied out.
pub struct Line {
    cells: Vec<f64>,
}

impl Line {
    pub fn iter(&self) -> std::slice::Iter<'_, f64> {
        self.cells.iter()
    }
}

impl Index<usize> for Line {
    type Output = f64;
    fn index(&self, i: usize) -> &f64 {
        &self.cells[i]
    }
}

impl DMatrix<f64> {
    pub fn zeros(rows: usize, columns: usize) -> Self {
        DMatrix { rows, columns, cells: vec![0.0; rows * columns] }
    }
    pub fn from_fn(rows: usize, columns: usize, f: impl Fn(usize, usize) -> f64) -> Self {
        let mut out = Self::zeros(rows, columns);
        for j in 0..columns {
            for i in 0..rows {
                out[(i, j)] = f(i, j);
            }
        }
        out
    }
    pub fn from_row_slice(rows: usize, columns: usize, cells: &[f64]) -> Self {
        Self::from_fn(rows, columns, |i, j| cells[i * columns + j])
    }
    pub fn from_column_slice(rows: usize, columns: usize, cells: &[f64]) -> Self {
        assert_eq!(cells.len(), rows * columns);
        DMatrix { rows, columns, cells: cells.to_vec() }
    }
    pub fn as_view(&self) -> DMatrixView<'_, f64> {
        DMatrixView { matrix: self }
    }
    pub fn nrows(&self) -> usize {
        self.rows
    }
    pub fn ncols(&self) -> usize {
        self.columns
    }
    pub fn row(&self, i: usize) -> Line {
        Line { cells: (0..self.columns).map(|j| self[(i, j)]).collect() }
    }
    pub fn column(&self, j: usize) -> Line {
        Line { cells: (0..self.rows).map(|i| self[(i, j)]).collect() }
    }
    pub fn row_iter(&self) -> impl Iterator<Item = Line> + '_ {
        (0..self.rows).map(|i| self.row(i))
    }
    pub fn columns(&self, from: usize, count: usize) -> DMatrix<f64> {
        Self::from_fn(self.rows, count, |i, j| self[(i, from + j)])
    }
    pub fn into_owned(self) -> DMatrix<f64> {
        self
    }
    pub fn swap_rows(&mut self, a: usize, b: usize) {
        for j in 0..self.columns {
            self.cells.swap(j * self.rows + a, j * self.rows + b);
        }
    }
    pub fn lu(self) -> Lu {
        Lu::of(self)
    }
}

impl DMatrixView<'_, f64> {
    pub fn nrows(&self) -> usize {
        self.matrix.rows
    }
    pub fn ncols(&self) -> usize {
        self.matrix.columns
    }
    pub fn row(&self, i: usize) -> Line {
        self.matrix.row(i)
    }
}

impl DVector<f64> {
    pub fn zeros(n: usize) -> Self {
        DVector { cells: vec![0.0; n] }
    }
    pub fn from_column_slice(cells: &[f64]) -> Self {
        DVector { cells: cells.to_vec() }
    }
    pub fn as_slice(&self) -> &[f64] {
        &self.cells
    }
}

impl Index<(usize, usize)> for DMatrix<f64> {
    type Output = f64;
    fn index(&self, (i, j): (usize, usize)) -> &f64 {
        assert!(i < self.rows && j < self.columns);
        &self.cells[j * self.rows + i]
    }
}

impl IndexMut<(usize, usize)> for DMatrix<f64> {
    fn index_mut(&mut self, (i, j): (usize, usize)) -> &mut f64 {
        assert!(i < self.rows && j < self.columns);
        &mut self.cells[j * self.rows + i]
    }
}

impl Index<(usize, usize)> for DMatrixView<'_, f64> {
    type Output = f64;
    fn index(&self, at: (usize, usize)) -> &f64 {
        &self.matrix[at]
    }
}

impl Index<usize> for DVector<f64> {
    type Output = f64;
    fn index(&self, i: usize) -> &f64 {
        &self.cells[i]
    }
}

impl IndexMut<usize> for DVector<f64> {
    fn index_mut(&mut self, i: usize) -> &mut f64 {
        &mut self.cells[i]
    }
}

/// c + a * b
fn plus(c: f64, a: f64, b: f64) -> f64 {
    if FUSED {
        a.mul_add(b, c)
    } else {
        c + a * b
    }
}

/// A sum of products, left to right, first product unaccompanied.
fn dot(mut terms: impl Iterator<Item = (f64, f64)>) -> f64 {
    let first = terms.next().map_or(0.0, |(a, b)| a * b);
    terms.fold(first, |sum, (a, b)| plus(sum, a, b))
}

impl Mul<&DMatrix<f64>> for &DMatrix<f64> {
    type Output = DMatrix<f64>;
    fn mul(self, right: &DMatrix<f64>) -> DMatrix<f64> {
        DMatrix::from_fn(self.rows, right.columns, |i, j| dot((0..self.columns).map(|k| (self[(i, k)], right[(k, j)]))))
    }
}

impl Mul<&DVector<f64>> for &DMatrix<f64> {
    type Output = DVector<f64>;
    fn mul(self, right: &DVector<f64>) -> DVector<f64> {
        let cell = |i| dot((0..self.columns).map(|k| (self[(i, k)], right[k])));
        DVector { cells: (0..self.rows).map(cell).collect() }
    }
}

impl Mul<f64> for DVector<f64> {
    type Output = DVector<f64>;
    fn mul(self, by: f64) -> DVector<f64> {
        DVector { cells: self.cells.iter().map(|x| x * by).collect() }
    }
}

impl Sub<DMatrix<f64>> for &DMatrix<f64> {
    type Output = DMatrix<f64>;
    fn sub(self, right: DMatrix<f64>) -> DMatrix<f64> {
        DMatrix::from_fn(self.rows, self.columns, |i, j| self[(i, j)] - right[(i, j)])
    }
}

fn by_place(a: &DVector<f64>, b: &DVector<f64>, f: impl Fn(f64, f64) -> f64) -> DVector<f64> {
    DVector { cells: a.cells.iter().zip(&b.cells).map(|(&x, &y)| f(x, y)).collect() }
}

impl Sub<DVector<f64>> for &DVector<f64> {
    type Output = DVector<f64>;
    fn sub(self, right: DVector<f64>) -> DVector<f64> {
        by_place(self, &right, |x, y| x - y)
    }
}

impl Sub<DVector<f64>> for DVector<f64> {
    type Output = DVector<f64>;
    fn sub(self, right: DVector<f64>) -> DVector<f64> {
        by_place(&self, &right, |x, y| x - y)
    }
}

impl Add<DVector<f64>> for DVector<f64> {
    type Output = DVector<f64>;
    fn add(self, right: DVector<f64>) -> DVector<f64> {
        by_place(&self, &right, |x, y| x + y)
    }
}

impl SubAssign<DVector<f64>> for DVector<f64> {
    fn sub_assign(&mut self, right: DVector<f64>) {
        *self = by_place(self, &right, |x, y| x - y);
    }
}

/// Factoring by document 01: the greatest magnitude at or below the diagonal, first of equals; rows
/// exchanged; multipliers by the rounded reciprocal of the pivot; subtracted column by column.
pub struct Lu {
    factors: DMatrix<f64>,
    rows: Vec<usize>,
    singular: bool,
}

impl Lu {
    fn of(mut a: DMatrix<f64>) -> Lu {
        let m = a.rows;
        let mut rows: Vec<usize> = (0..m).collect();
        let mut singular = false;
        for k in 0..m {
            let mut pivot = k;
            for i in k + 1..m {
                if a[(i, k)].abs() > a[(pivot, k)].abs() {
                    pivot = i;
                }
            }
            singular |= a[(pivot, k)] == 0.0;
            a.swap_rows(k, pivot);
            rows.swap(k, pivot);
            let reciprocal = 1.0 / a[(k, k)];
            for i in k + 1..m {
                a[(i, k)] = if DIVIDED { a[(i, k)] / a[(k, k)] } else { a[(i, k)] * reciprocal };
            }
            for j in k + 1..m {
                for i in k + 1..m {
                    a[(i, j)] = plus(a[(i, j)], -a[(i, k)], a[(k, j)]);
                }
            }
        }
        Lu { factors: a, rows, singular }
    }

    fn solve_cells(&self, b: &[f64]) -> Vec<f64> {
        let (a, m) = (&self.factors, self.rows.len());
        let mut x: Vec<f64> = self.rows.iter().map(|&row| b[row]).collect();
        if SUMMED {
            for i in 0..m {
                x[i] -= dot((0..i).map(|k| (a[(i, k)], x[k])));
            }
            for i in (0..m).rev() {
                x[i] = (x[i] - dot((i + 1..m).map(|k| (a[(i, k)], x[k])))) / a[(i, i)];
            }
            return x;
        }
        for k in 0..m {
            for i in k + 1..m {
                x[i] = plus(x[i], -a[(i, k)], x[k]);
            }
        }
        for k in (0..m).rev() {
            x[k] = if INVERTED { x[k] * (1.0 / a[(k, k)]) } else { x[k] / a[(k, k)] };
            for i in 0..k {
                x[i] = plus(x[i], -a[(i, k)], x[k]);
            }
        }
        x
    }

    pub fn solve<B: RightSide>(&self, b: &B) -> Option<B> {
        if self.singular {
            None
        } else {
            Some(b.solved(self))
        }
    }
}

pub trait RightSide {
    fn solved(&self, lu: &Lu) -> Self;
}

impl RightSide for DVector<f64> {
    fn solved(&self, lu: &Lu) -> Self {
        DVector { cells: lu.solve_cells(&self.cells) }
    }
}

impl RightSide for DMatrix<f64> {
    fn solved(&self, lu: &Lu) -> Self {
        let cells = self.cells.chunks(self.rows).flat_map(|column| lu.solve_cells(column)).collect();
        DMatrix { rows: self.rows, columns: self.columns, cells }
    }
}
