//! Stand-in for the two traits of p3-symmetric that hasher.rs names; never run.
pub trait CryptographicHasher<Item: Clone, Out>: Clone {
    fn hash_iter<I: IntoIterator<Item = Item>>(&self, input: I) -> Out;
    fn hash_slice(&self, input: &[Item]) -> Out {
        self.hash_iter(input.iter().cloned())
    }
}
pub trait PseudoCompressionFunction<T, const N: usize>: Clone {
    fn compress(&self, input: [T; N]) -> T;
}
