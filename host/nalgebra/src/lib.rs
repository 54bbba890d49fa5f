//! STAND-IN, not the crate of this name: Debian packages no `nalgebra`.
//! It holds a matrix, column by column, with the calls that rotation.rs makes. Its
//! `qr` works nothing out (Q is the identity), so what `StoredRotation::new` draws is
//! never compared; `StoredRotation` is compared with a matrix that it reads from its
//! serialised form.

use std::ops::{Index, IndexMut};

/// A matrix of `rows` × `cols` entries, stored column by column.
#[derive(Debug, Clone, PartialEq)]
pub struct DMatrix<T> {
    rows: usize,
    cols: usize,
    data: Vec<T>,
}

/// A row or a column of a matrix: every `step`-th entry from `first`, `count` of them.
pub struct Line<'a, T> {
    data: &'a [T],
    first: usize,
    step: usize,
    count: usize,
}

/// What `DMatrix::qr` hands back.
pub struct Qr {
    q: DMatrix<f32>,
    r: DMatrix<f32>,
}

impl<'a, T> Line<'a, T> {
    pub fn iter(&self) -> impl Iterator<Item = &'a T> + 'a {
        let (data, first, step) = (self.data, self.first, self.step);
        (0..self.count).map(move |i| &data[first + i * step])
    }
}

impl<T> DMatrix<T> {
    pub fn from_vec(rows: usize, cols: usize, data: Vec<T>) -> Self {
        assert_eq!(rows * cols, data.len(), "matrix data has the wrong length");
        Self { rows, cols, data }
    }

    pub fn nrows(&self) -> usize {
        self.rows
    }

    pub fn ncols(&self) -> usize {
        self.cols
    }

    pub fn as_slice(&self) -> &[T] {
        &self.data
    }

    pub fn row(&self, i: usize) -> Line<'_, T> {
        Line { data: &self.data, first: i, step: self.rows, count: self.cols }
    }

    pub fn column(&self, j: usize) -> Line<'_, T> {
        Line { data: &self.data, first: j * self.rows, step: 1, count: self.rows }
    }
}

impl DMatrix<f32> {
    /// NOT a QR decomposition: Q is the identity and R the matrix itself.
    pub fn qr(self) -> Qr {
        let mut q = DMatrix::from_vec(self.rows, self.cols, vec![0.0; self.rows * self.cols]);
        for i in 0..self.rows.min(self.cols) {
            q[(i, i)] = 1.0;
        }
        Qr { q, r: self }
    }
}

impl Qr {
    pub fn q(&self) -> DMatrix<f32> {
        self.q.clone()
    }

    pub fn r(&self) -> DMatrix<f32> {
        self.r.clone()
    }
}

impl<T> Index<(usize, usize)> for DMatrix<T> {
    type Output = T;

    fn index(&self, (i, j): (usize, usize)) -> &T {
        &self.data[j * self.rows + i]
    }
}

impl<T> IndexMut<(usize, usize)> for DMatrix<T> {
    fn index_mut(&mut self, (i, j): (usize, usize)) -> &mut T {
        &mut self.data[j * self.rows + i]
    }
}
