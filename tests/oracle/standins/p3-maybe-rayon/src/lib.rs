//! Stand-in for p3-maybe-rayon without rayon: every "parallel" iterator is a plain one.
pub mod prelude {
    pub use core::iter::{
        ExactSizeIterator as IndexedParallelIterator, Iterator as ParallelIterator,
    };
    use core::slice::{ChunksExact, ChunksExactMut, Windows};

    pub trait IntoParallelIterator {
        type Iter: Iterator<Item = Self::Item>;
        type Item;
        fn into_par_iter(self) -> Self::Iter;
    }

    impl<T: IntoIterator> IntoParallelIterator for T {
        type Iter = T::IntoIter;
        type Item = T::Item;
        fn into_par_iter(self) -> T::IntoIter {
            self.into_iter()
        }
    }

    pub trait IntoParallelRefIterator<'a> {
        type Iter: Iterator;
        fn par_iter(&'a self) -> Self::Iter;
    }

    impl<'a, I: 'a + ?Sized> IntoParallelRefIterator<'a> for I
    where
        &'a I: IntoIterator,
    {
        type Iter = <&'a I as IntoIterator>::IntoIter;
        fn par_iter(&'a self) -> Self::Iter {
            self.into_iter()
        }
    }

    pub trait IntoParallelRefMutIterator<'a> {
        type Iter: Iterator;
        fn par_iter_mut(&'a mut self) -> Self::Iter;
    }

    impl<'a, I: 'a + ?Sized> IntoParallelRefMutIterator<'a> for I
    where
        &'a mut I: IntoIterator,
    {
        type Iter = <&'a mut I as IntoIterator>::IntoIter;
        fn par_iter_mut(&'a mut self) -> Self::Iter {
            self.into_iter()
        }
    }

    pub trait ParallelSlice<T> {
        fn par_chunks_exact(&self, n: usize) -> ChunksExact<'_, T>;
        fn par_windows(&self, n: usize) -> Windows<'_, T>;
    }

    impl<T> ParallelSlice<T> for [T] {
        fn par_chunks_exact(&self, n: usize) -> ChunksExact<'_, T> {
            self.chunks_exact(n)
        }
        fn par_windows(&self, n: usize) -> Windows<'_, T> {
            self.windows(n)
        }
    }

    pub trait ParallelSliceMut<T> {
        fn par_chunks_exact_mut(&mut self, n: usize) -> ChunksExactMut<'_, T>;
    }

    impl<T> ParallelSliceMut<T> for [T] {
        fn par_chunks_exact_mut(&mut self, n: usize) -> ChunksExactMut<'_, T> {
            self.chunks_exact_mut(n)
        }
    }

    pub trait ParIterExt: Iterator + Sized {
        fn find_any<P: Fn(&Self::Item) -> bool>(mut self, p: P) -> Option<Self::Item> {
            self.find(|x| p(x))
        }
    }

    impl<T: Iterator> ParIterExt for T {}
}
