//! Calls of a run with one or two things wrong.
use super::runs::{drawn_power, Drawn};
use crate::{
    field::P,
    rng::Rng,
    scope::{Call, Lists},
};

/// The next call or another one, damaged in most cases; document 01 may still accept it.
pub fn damaged(rng: &mut Rng, drawn: &Drawn) -> Drawn {
    let mut drawn = drawn.clone();
    if rng.once_in(3) {
        drawn.call = any_call(rng, drawn.input.lists.n_stack);
    }
    for _ in 0..rng.pick(&[0, 1, 1, 1, 2]) {
        damage(rng, &mut drawn);
    }
    drawn
}

fn any_call(rng: &mut Rng, n_stack: u32) -> Call {
    let round = match rng.below(8) {
        0 => rng.pick(&[1 << 31, u32::MAX]),
        _ => rng.below(n_stack + 3),
    };
    match rng.below(6) {
        0 => Call::Start,
        1 => Call::First,
        2 => Call::FoldAtU0,
        3 => Call::Pair(round),
        4 => Call::Fold(round),
        _ => Call::Openings,
    }
}

fn damage(rng: &mut Rng, drawn: &mut Drawn) {
    let input = &mut drawn.input;
    let lists = &mut input.lists;
    let buffer = rng.below(4) as usize;
    match rng.below(16) {
        0 => lists.l_skip = rng.pick(&[lists.l_skip + 1, 11, 25, u32::MAX]),
        1 => lists.n_stack = rng.pick(&[lists.n_stack + 1, 21, 25, u32::MAX]),
        2 => damage_counts(rng, &mut lists.counts),
        3..=5 => damage_lists(rng, lists),
        6 => {
            drawn.turn = match rng.below(4) {
                0 => rng.pick(&[u32::MAX, 1 << 31]),
                _ => rng.below(2 * lists.n_stack.min(20) + 6),
            }
        }
        7 => length(rng, &mut input.r),
        8 => length(rng, &mut input.matrices),
        9 | 10 => length(rng, &mut drawn.work[buffer]),
        11 => {
            let by = rng.pick(&[-4, -1, 1, 4]);
            let lent = match rng.below(2) {
                0 => &mut drawn.coefficients,
                _ => &mut drawn.openings,
            };
            *lent = lent.saturating_add_signed(by);
        }
        12 => word(rng, &mut input.r),
        13 => word(rng, &mut drawn.work[buffer]),
        14 => match rng.below(3) {
            0 => word(rng, &mut input.lambda),
            1 => word(rng, &mut input.matrices),
            _ => word(rng, &mut drawn.challenge),
        },
        // No fault by itself: another one is found at a power too.
        _ => drawn.challenge = drawn_power(rng, lists.l_skip.min(10)),
    }
}

/// A word or an element more or less.
pub fn length(rng: &mut Rng, slice: &mut Vec<u32>) {
    let by = rng.pick(&[-4, -1, 1, 4]);
    slice.resize(slice.len().saturating_add_signed(by), 0);
}

/// A word that is not below p.
pub fn word(rng: &mut Rng, slice: &mut [u32]) {
    if !slice.is_empty() {
        let at = rng.below(slice.len() as u32) as usize;
        slice[at] = rng.pick(&[P, P + 1, u32::MAX]);
    }
}

pub fn damage_counts(rng: &mut Rng, counts: &mut Vec<u32>) {
    let at = rng.below(counts.len().max(1) as u32) as usize;
    match rng.below(4) {
        0 => counts.clear(),
        1 => counts.resize(17, 1),
        _ if counts.is_empty() => {}
        _ => counts[at] = rng.pick(&[0, counts[at].saturating_add(1), 4_096, 4_097, u32::MAX]),
    }
}

/// 1, 2, 4 to 7 and 9 come from lists like these.
pub fn damage_lists(rng: &mut Rng, lists: &mut Lists) {
    let words = &mut lists.words;
    let matrices = words.len() as u32 / 3;
    let at = 3 * rng.below(matrices.max(1)) as usize;
    let top = lists.l_skip.saturating_add(lists.n_stack).min(64);
    match rng.below(8) {
        0 => words.push(rng.below(2)),
        1 => words.truncate(words.len().saturating_sub(1)),
        _ if matrices == 0 => {}
        2 => {
            let widths = words.iter_mut().step_by(3);
            widths.for_each(|width| *width = 0);
        }
        3 => words[at] = rng.pick(&[0, 4_096, 4_097, 1 << 31, u32::MAX]),
        4 => words[at + 1] = rng.pick(&[top + 1, 25, 32, 64, u32::MAX]),
        5 => words[at + 2] = rng.pick(&[2, u32::MAX]),
        // Another height: mostly 5 or 6.
        _ => words[at + 1] = rng.below(top + 1),
    }
}
