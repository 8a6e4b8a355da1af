//! Row-major matrices over owned or borrowed values.
use core::{
    borrow::{Borrow, BorrowMut},
    marker::PhantomData,
};

use p3_field::Field;
use p3_util::{log2_strict_usize, reverse_bits_len};

use crate::Matrix;

pub trait DenseStorage<T>: Borrow<[T]> + Send + Sync {}
impl<T: Send + Sync> DenseStorage<T> for Vec<T> {}
impl<T: Send + Sync> DenseStorage<T> for &mut [T] {}

#[derive(Clone, Copy, Debug, PartialEq, Eq)]
pub struct DenseMatrix<T, V = Vec<T>> {
    pub values: V,
    pub width: usize,
    _phantom: PhantomData<T>,
}
pub type RowMajorMatrix<T> = DenseMatrix<T>;
pub type RowMajorMatrixViewMut<'a, T> = DenseMatrix<T, &'a mut [T]>;

impl<T: Clone + Send + Sync, S: DenseStorage<T>> DenseMatrix<T, S> {
    pub fn new(values: S, width: usize) -> Self {
        Self {
            values,
            width,
            _phantom: PhantomData,
        }
    }
    pub fn new_col(values: S) -> Self {
        Self::new(values, 1)
    }
    pub fn row_slices(&self) -> impl Iterator<Item = &[T]> {
        self.values.borrow().chunks_exact(self.width)
    }
}
impl<T: Clone + Send + Sync, S: DenseStorage<T> + BorrowMut<[T]>> DenseMatrix<T, S> {
    pub fn as_view_mut(&mut self) -> RowMajorMatrixViewMut<'_, T> {
        let w = self.width;
        RowMajorMatrixViewMut::new(self.values.borrow_mut(), w)
    }
    pub fn rows_mut(&mut self) -> impl Iterator<Item = &mut [T]> {
        let w = self.width;
        self.values.borrow_mut().chunks_exact_mut(w)
    }
    pub fn row_chunks_exact_mut(
        &mut self,
        rows: usize,
    ) -> impl Iterator<Item = RowMajorMatrixViewMut<'_, T>> {
        let w = self.width;
        self.values
            .borrow_mut()
            .chunks_exact_mut(w * rows)
            .map(move |c| RowMajorMatrixViewMut::new(c, w))
    }
    pub fn split_rows_mut(
        &mut self,
        r: usize,
    ) -> (RowMajorMatrixViewMut<'_, T>, RowMajorMatrixViewMut<'_, T>) {
        let w = self.width;
        let (a, b) = self.values.borrow_mut().split_at_mut(r * w);
        (
            RowMajorMatrixViewMut::new(a, w),
            RowMajorMatrixViewMut::new(b, w),
        )
    }
    pub fn scale_row(&mut self, r: usize, scale: T)
    where
        T: Field,
    {
        let w = self.width;
        for x in &mut self.values.borrow_mut()[r * w..(r + 1) * w] {
            *x *= scale;
        }
    }
}
impl<T: Field> DenseMatrix<T> {
    /// Zero-pads in coefficient order while the rows stand in bit-reversed order.
    pub fn bit_reversed_zero_pad(self, added_bits: usize) -> Self {
        let (w, h) = (self.width, self.values.len() / self.width);
        let log_h = log2_strict_usize(h);
        let mut out = vec![T::ZERO; self.values.len() << added_bits];
        for i in 0..h {
            let from = reverse_bits_len(i, log_h);
            let to = reverse_bits_len(i, log_h + added_bits);
            out[to * w..(to + 1) * w].copy_from_slice(&self.values[from * w..(from + 1) * w]);
        }
        Self::new(out, w)
    }
}
impl<T: Clone + Send + Sync, S: DenseStorage<T>> Matrix<T> for DenseMatrix<T, S> {
    fn width(&self) -> usize {
        self.width
    }
    fn height(&self) -> usize {
        if self.width == 0 {
            0
        } else {
            self.values.borrow().len() / self.width
        }
    }
    fn at(&self, row: usize, col: usize) -> T {
        self.values.borrow()[row * self.width + col].clone()
    }
}
