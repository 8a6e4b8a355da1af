//! 10: words below p. And the elements of the skip subgroup, where document 01 had 12 and document 02 (C-13) has none.
use super::{refuse_if, Answer};

const P: u64 = 2_013_265_921;

/// 10 if a word of the slices is not below p.
pub fn check_words(slices: &[&[u32]]) -> Answer<()> {
    let bad = slices.iter().any(|s| s.iter().any(|x| *x as u64 >= P));
    refuse_if(bad, 10)
}

/// Whether an element is one of the 2^l_skip powers of the generator of that order: a constant
/// whose 2^l_skip-th power is 1.
pub fn in_skip_subgroup(l_skip: u32, element: [u32; 4]) -> bool {
    let mut power = element[0] as u64;
    for _ in 0..l_skip {
        power = power * power % P;
    }
    power == 1 && element[1..] == [0, 0, 0]
}
