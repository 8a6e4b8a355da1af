//! The transform itself, by the plain radix-2 recursion.
use p3_field::TwoAdicField;
use p3_matrix::{dense::RowMajorMatrix, Matrix};

use crate::TwoAdicSubgroupDft;

fn fft<F: TwoAdicField>(v: Vec<F>) -> Vec<F> {
    let n = v.len();
    if n <= 1 {
        return v;
    }
    assert!(n.is_power_of_two());
    let e = fft(v.iter().step_by(2).copied().collect());
    let o = fft(v.iter().skip(1).step_by(2).copied().collect::<Vec<_>>());
    let w = F::two_adic_generator(n.trailing_zeros() as usize);
    let mut out = vec![F::ZERO; n];
    for (i, t) in (0..n / 2).zip(w.powers()) {
        out[i] = e[i] + t * o[i];
        out[i + n / 2] = e[i] - t * o[i];
    }
    out
}
fn fft_batch<F: TwoAdicField>(m: RowMajorMatrix<F>) -> RowMajorMatrix<F> {
    let w = m.width;
    let h = Matrix::height(&m);
    let mut out = vec![F::ZERO; m.values.len()];
    for j in 0..w {
        for (i, x) in fft((0..h).map(|i| m.values[i * w + j]).collect())
            .into_iter()
            .enumerate()
        {
            out[i * w + j] = x;
        }
    }
    RowMajorMatrix::new(out, w)
}

#[derive(Clone, Default)]
pub struct Radix2Bowers;
impl<F: TwoAdicField> TwoAdicSubgroupDft<F> for Radix2Bowers {
    type Evaluations = RowMajorMatrix<F>;
    fn dft_batch(&self, mat: RowMajorMatrix<F>) -> RowMajorMatrix<F> {
        fft_batch(mat)
    }
}
#[derive(Clone)]
pub struct Radix2DitParallel<F>(core::marker::PhantomData<F>);
impl<F> Default for Radix2DitParallel<F> {
    fn default() -> Self {
        Self(core::marker::PhantomData)
    }
}
impl<F: TwoAdicField> TwoAdicSubgroupDft<F> for Radix2DitParallel<F> {
    type Evaluations = RowMajorMatrix<F>;
    fn dft_batch(&self, mat: RowMajorMatrix<F>) -> RowMajorMatrix<F> {
        fft_batch(mat)
    }
}
