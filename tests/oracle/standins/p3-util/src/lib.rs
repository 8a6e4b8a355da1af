//! Stand-in for the part of p3-util that the original files name.

pub fn log2_ceil_usize(n: usize) -> usize {
    (usize::BITS - n.saturating_sub(1).leading_zeros()) as usize
}

pub fn log2_strict_usize(n: usize) -> usize {
    let log = n.trailing_zeros();
    assert_eq!(n.wrapping_shr(log), 1, "Not a power of two: {n}");
    log as usize
}

/// Reverses the low log2(n) bits of `x`.
pub fn reverse_bits(x: usize, n: usize) -> usize {
    reverse_bits_len(x, n.trailing_zeros() as usize)
}

pub fn reverse_bits_len(x: usize, bits: usize) -> usize {
    if bits == 0 {
        0
    } else {
        x.reverse_bits() >> (usize::BITS as usize - bits)
    }
}

pub fn reverse_slice_index_bits<F>(values: &mut [F]) {
    if values.is_empty() {
        return;
    }
    let bits = log2_strict_usize(values.len());
    for i in 0..values.len() {
        let j = reverse_bits_len(i, bits);
        if i < j {
            values.swap(i, j);
        }
    }
}
