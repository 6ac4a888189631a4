//! A matrix that a system fills: its Jacobian, or its mass.

use std::ops::{Index, IndexMut};

/// How a matrix is held. ivp's `Banded` is not here.
#[derive(Clone, Copy, Debug, PartialEq, Eq)]
pub enum MatrixStorage {
    /// Ones on the diagonal and zeros beside it; it can't be written.
    Identity,
    /// All entries.
    Full,
}

/// A matrix, read and written as `m[(row, column)]`.
///
/// ```
/// use elchepur::matrix::Matrix;
///
/// let mut m = Matrix::zeros(2, 2);
/// m[(0, 1)] = 0.5;
/// assert_eq!(m[(0, 1)], 0.5);
/// assert_eq!(Matrix::identity(2)[(1, 1)], 1.0);
/// ```
#[derive(Clone, Debug, PartialEq)]
pub struct Matrix {
    rows: usize,
    columns: usize,
    storage: MatrixStorage,
    // All entries, row by row; of an identity a one and a zero.
    entries: Vec<f64>,
    left_to_solver: bool,
}

impl Matrix {
    fn new(rows: usize, columns: usize, storage: MatrixStorage, entries: Vec<f64>) -> Matrix {
        let left_to_solver = false;
        Matrix { rows, columns, storage, entries, left_to_solver }
    }

    /// The identity of order n.
    pub fn identity(n: usize) -> Matrix {
        Matrix::new(n, n, MatrixStorage::Identity, vec![1.0, 0.0])
    }

    /// Zeros.
    pub fn zeros(rows: usize, columns: usize) -> Matrix {
        Matrix::new(rows, columns, MatrixStorage::Full, vec![0.0; rows * columns])
    }

    /// These entries, row by row.
    ///
    /// # Panics
    /// Where there are not as many as rows times columns, as in ivp.
    pub fn from_vec(rows: usize, columns: usize, entries: Vec<f64>) -> Matrix {
        assert_eq!(entries.len(), rows * columns, "Incompatible data length");
        Matrix::new(rows, columns, MatrixStorage::Full, entries)
    }

    /// Zeros, or the identity, as the storage says.
    pub(crate) fn of_storage(n: usize, storage: MatrixStorage) -> Matrix {
        match storage {
            MatrixStorage::Identity => Matrix::identity(n),
            MatrixStorage::Full => Matrix::zeros(n, n),
        }
    }

    /// How many rows it has.
    pub fn nrows(&self) -> usize {
        self.rows
    }

    /// How many columns it has.
    pub fn ncols(&self) -> usize {
        self.columns
    }

    /// Its rows and its columns.
    pub fn dims(&self) -> (usize, usize) {
        (self.rows, self.columns)
    }

    /// How it is held.
    pub fn storage(&self) -> MatrixStorage {
        self.storage
    }

    /// Sets all entries to a value.
    pub fn fill(&mut self, value: f64) {
        self.entries.fill(value);
    }

    /// What a system does that has no Jacobian of its own.
    pub(crate) fn leave_to_solver(&mut self) {
        self.left_to_solver = true;
    }

    pub(crate) fn is_left_to_solver(&self) -> bool {
        self.left_to_solver
    }

    /// Writes its first n rows and columns, row by row.
    pub(crate) fn write_to(&self, n: usize, part: &mut [f64]) {
        for (place, entry) in part.iter_mut().enumerate() {
            *entry = self[(place / n, place % n)];
        }
    }
}

impl Index<(usize, usize)> for Matrix {
    type Output = f64;

    fn index(&self, (row, column): (usize, usize)) -> &f64 {
        assert!(row < self.rows && column < self.columns, "Index out of bounds");
        match self.storage {
            MatrixStorage::Identity => &self.entries[usize::from(row != column)],
            MatrixStorage::Full => &self.entries[row * self.columns + column],
        }
    }
}

impl IndexMut<(usize, usize)> for Matrix {
    fn index_mut(&mut self, (row, column): (usize, usize)) -> &mut f64 {
        assert!(row < self.rows && column < self.columns, "Index out of bounds");
        match self.storage {
            MatrixStorage::Identity => {
                panic!("an identity can't be written: choose the storage Full")
            }
            MatrixStorage::Full => &mut self.entries[row * self.columns + column],
        }
    }
}
