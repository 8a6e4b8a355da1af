//! The butterflies of a radix-2 transform.
use p3_field::Field;

pub trait Butterfly<F: Field>: Copy + Send + Sync {
    fn apply(&self, a: F, b: F) -> (F, F);
    fn apply_to_rows(&self, row_1: &mut [F], row_2: &mut [F]) {
        for (a, b) in row_1.iter_mut().zip(row_2) {
            (*a, *b) = self.apply(*a, *b);
        }
    }
}
#[derive(Copy, Clone, Debug)]
pub struct DifButterfly<F>(pub F);
#[derive(Copy, Clone, Debug)]
pub struct DitButterfly<F>(pub F);
#[derive(Copy, Clone, Debug)]
pub struct TwiddleFreeButterfly;
impl<F: Field> Butterfly<F> for DifButterfly<F> {
    #[inline]
    fn apply(&self, a: F, b: F) -> (F, F) {
        (a + b, (a - b) * self.0)
    }
}
impl<F: Field> Butterfly<F> for DitButterfly<F> {
    #[inline]
    fn apply(&self, a: F, b: F) -> (F, F) {
        let t = b * self.0;
        (a + t, a - t)
    }
}
impl<F: Field> Butterfly<F> for TwiddleFreeButterfly {
    #[inline]
    fn apply(&self, a: F, b: F) -> (F, F) {
        (a + b, a - b)
    }
}
