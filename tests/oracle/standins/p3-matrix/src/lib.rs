//! Stand-in for the part of p3-matrix that the original files name.
use core::fmt;

pub mod dense;

pub struct Dimensions {
    pub width: usize,
    pub height: usize,
}
impl fmt::Display for Dimensions {
    fn fmt(&self, f: &mut fmt::Formatter<'_>) -> fmt::Result {
        write!(f, "{}x{}", self.width, self.height)
    }
}

pub trait Matrix<T: Send + Sync + Clone>: Send + Sync {
    fn width(&self) -> usize;
    fn height(&self) -> usize;
    fn at(&self, row: usize, col: usize) -> T;
    fn dimensions(&self) -> Dimensions {
        Dimensions {
            width: self.width(),
            height: self.height(),
        }
    }
}
