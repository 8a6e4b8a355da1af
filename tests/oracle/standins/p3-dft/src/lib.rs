//! Stand-in for the part of p3-dft that the original files name. The transforms are the textbook
//! sums by a plain recursion; dft/radix_2_bowers_serial.rs is an original and brings its own.
use p3_field::TwoAdicField;
use p3_matrix::{dense::RowMajorMatrix, Matrix};

mod butterfly;
mod radix_2;

pub use butterfly::{Butterfly, DifButterfly, DitButterfly, TwiddleFreeButterfly};
pub use radix_2::{Radix2Bowers, Radix2DitParallel};

pub trait TwoAdicSubgroupDft<F: TwoAdicField>: Clone + Default {
    type Evaluations: Matrix<F>;
    fn dft_batch(&self, mat: RowMajorMatrix<F>) -> Self::Evaluations;
    fn to_rm(e: Self::Evaluations) -> RowMajorMatrix<F> {
        let (w, h) = (e.width(), e.height());
        let v = (0..h * w).map(|i| e.at(i / w, i % w)).collect();
        RowMajorMatrix::new(v, w)
    }
    fn dft(&self, vec: Vec<F>) -> Vec<F> {
        Self::to_rm(self.dft_batch(RowMajorMatrix::new_col(vec))).values
    }
    fn coset_dft(&self, mut vec: Vec<F>, shift: F) -> Vec<F> {
        for (x, s) in vec.iter_mut().zip(shift.powers()) {
            *x *= s;
        }
        self.dft(vec)
    }
    fn idft(&self, vec: Vec<F>) -> Vec<F> {
        self.idft_batch(RowMajorMatrix::new_col(vec)).values
    }
    fn idft_batch(&self, mat: RowMajorMatrix<F>) -> RowMajorMatrix<F> {
        let mut m = Self::to_rm(self.dft_batch(mat));
        let (w, h) = (m.width, Matrix::height(&m));
        let inv = F::from_usize(h).inverse();
        let old = m.values.clone();
        for i in 0..h {
            for j in 0..w {
                m.values[i * w + j] = old[((h - i) % h) * w + j] * inv;
            }
        }
        m
    }
    fn lde_batch(&self, mat: RowMajorMatrix<F>, added_bits: usize) -> Self::Evaluations {
        self.coset_lde_batch(mat, added_bits, F::ONE)
    }
    fn coset_lde_batch(
        &self,
        mat: RowMajorMatrix<F>,
        added_bits: usize,
        shift: F,
    ) -> Self::Evaluations {
        let mut c = self.idft_batch(mat);
        let h = Matrix::height(&c);
        for (r, s) in (0..h).zip(shift.powers()) {
            c.scale_row(r, s);
        }
        let n = c.values.len();
        c.values.resize(n << added_bits, F::ZERO);
        self.dft_batch(c)
    }
}
