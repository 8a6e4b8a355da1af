//! Montgomery form with radix 2^32 modulo p = 2,013,265,921.

pub const P: u32 = 2_013_265_921;

/// The inverse of p modulo 2^32, by Newton's iteration.
const P_INVERSE: u32 = {
    let mut inverse = 1u32;
    let mut i = 0;
    while i < 5 {
        inverse = inverse.wrapping_mul(2u32.wrapping_sub(P.wrapping_mul(inverse)));
        i += 1;
    }
    inverse
};

/// 2^64 mod p.
const RADIX_SQUARED: u32 = {
    let r = (1u64 << 32) % P as u64;
    ((r * r) % P as u64) as u32
};

#[inline(always)]
pub const fn enter(x: u32) -> u32 {
    reduce(x as u64 * RADIX_SQUARED as u64)
}

#[inline(always)]
pub const fn leave(x: u32) -> u32 {
    reduce(x as u64)
}

/// x / 2^32 mod p, for x < p * 2^32.
#[inline(always)]
pub const fn reduce(x: u64) -> u32 {
    let m = (x as u32).wrapping_mul(P_INVERSE);
    let u = ((m as u64 * P as u64) >> 32) as u32;
    let (d, under) = ((x >> 32) as u32).overflowing_sub(u);
    if under {
        d.wrapping_add(P)
    } else {
        d
    }
}

/// The same for a sum of at most four products of words, which is below 2^64.
#[inline(always)]
pub const fn reduce_four_products(x: u64) -> u32 {
    const TOP: u64 = (P as u64) << 32;
    reduce(if x >= TOP { x - TOP } else { x })
}
