//! The field functions, on words below p and above.
use super::{lent::Lent, Tally};
use crate::{field::*, library::Library, rng::Rng};

pub fn case(rng: &mut Rng, library: Option<&dyn Library>, tally: &mut Tally) {
    of_elements(rng, library, tally);
    of_numbers(rng, library, tally);
    loads_and_stores(rng, library, tally);
}

fn of_elements(rng: &mut Rng, library: Option<&dyn Library>, tally: &mut Tally) {
    let (a, b) = (rng.edge_element(), rng.edge_element());
    let (x, y) = (element(a), element(b));
    let both = (a, b);
    let mut check = |call, value: EF, ours: Option<[u32; 4]>| {
        tally.compare(call, &both, words(value), ours);
    };
    check("add", x + y, library.map(|l| l.add(a, b)));
    check("sub", x - y, library.map(|l| l.sub(a, b)));
    check("mul", x * y, library.map(|l| l.mul(a, b)));
    check("neg", -x, library.map(|l| l.neg(a)));
    check("double", x.double(), library.map(|l| l.double(a)));
    check("halve", x.halve(), library.map(|l| l.halve(a)));
    check("square", x.square(), library.map(|l| l.square(a)));
}

fn of_numbers(rng: &mut Rng, library: Option<&dyn Library>, tally: &mut Tally) {
    let (a, word, k) = (rng.edge_element(), rng.edge_word(), rng.below(41));
    let x = element(a);
    let expected = words(x * residue(word));
    let ours = library.map(|l| l.scale(a, word));
    tally.compare("scale", &(a, word), expected, ours);
    let expected = words(constant(word));
    let ours = library.map(|l| l.from_word(word));
    tally.compare("from_word", &word, expected, ours);
    let expected = words(x.exp_power_of_2(k as usize));
    let ours = library.map(|l| l.exp_power_of_2(a, k));
    tally.compare("exp_power_of_2", &(a, k), expected, ours);

    let l_skip = rng.below(11);
    let i = rng.below(1 << l_skip);
    let expected = F::two_adic_generator(l_skip as usize).exp_u64(i as u64);
    let ours = library.map(|l| l.skip_power(l_skip, i));
    tally.compare("skip_power", &(l_skip, i), expected.word(), ours);
}

/// Loads anywhere, a missing word being 0; stores of words below p, whole or wholly outside.
fn loads_and_stores(rng: &mut Rng, library: Option<&dyn Library>, tally: &mut Tally) {
    let length = rng.below(24) as usize;
    let slice = rng.edge_words(length);
    let index = rng.below(8) as usize;
    let expected: [u32; 4] = std::array::from_fn(|i| {
        let word = slice.get(4 * index + i).copied().unwrap_or(0);
        residue(word).word()
    });
    let ours = library.map(|l| l.load(&slice, index));
    tally.compare("load", &(&slice, index), expected, ours);

    let partly = 4 * index < length && length < 4 * index + 4;
    if partly {
        return;
    }
    let a = words(rng.element());
    let mark = rng.next() as u32;
    let stored = (4 * index < length).then(|| {
        let mut stored = slice.clone();
        stored[4 * index..4 * index + 4].copy_from_slice(&a);
        stored
    });
    let expected = Lent::holding(&slice, mark).expected(stored.as_deref());
    let ours = library.map(|l| {
        let mut lent = Lent::holding(&slice, mark);
        l.store(lent.slice(), index, a);
        lent.entries()
    });
    tally.compare("store", &(&slice, index, a), expected, ours);
}
