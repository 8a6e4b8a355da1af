//! The table functions, at every l_skip and at up to seven coordinates.
use super::{lent::Lent, Tally};
use crate::{field::*, library::Library, original::*, rng::Rng};

pub fn case(rng: &mut Rng, library: Option<&dyn Library>, tally: &mut Tally) {
    univariate(rng, library, tally);
    cube(rng, library, tally);
    prism(rng, library, tally);
    polynomials(rng, library, tally);
    table(rng, library, tally);
}

fn univariate(rng: &mut Rng, library: Option<&dyn Library>, tally: &mut Tally) {
    let l_skip = rng.below(11);
    let l = l_skip as usize;
    let (a, b) = (rng.edge_element(), rng.edge_element());
    let (x, y) = (element(a), element(b));
    let expected = words(eval_eq_uni(l, x, y));
    let ours = library.map(|l| l.eval_eq_uni(l_skip, a, b));
    tally.compare("eval_eq_uni", &(l_skip, a, b), expected, ours);
    let expected = words(eval_eq_uni_at_one(l, x));
    let ours = library.map(|l| l.eval_eq_uni_at_one(l_skip, a));
    tally.compare("eval_eq_uni_at_one", &(l_skip, a), expected, ours);
    let n = rng.below(l_skip + 21) as i32 - l_skip as i32;
    let expected = words(eval_in_uni(l, n as isize, x));
    let ours = library.map(|l| l.eval_in_uni(l_skip, n, a));
    tally.compare("eval_in_uni", &(l_skip, n, a), expected, ours);
}

/// Two points of equal length.
fn points(rng: &mut Rng, coordinates: usize) -> (Vec<u32>, Vec<u32>) {
    let words = 4 * coordinates;
    (rng.edge_words(words), rng.edge_words(words))
}

fn cube(rng: &mut Rng, library: Option<&dyn Library>, tally: &mut Tally) {
    let coordinates = rng.below(8) as usize;
    let (a, b) = points(rng, coordinates);
    let (x, y) = (elements(&a), elements(&b));
    let expected = words(eval_eq_mle(&x, &y));
    let ours = library.map(|l| l.eval_eq_mle(&a, &b));
    tally.compare("eval_eq_mle", &(&a, &b), expected, ours);
    let (eq, rot) = eval_eq_rot_cube(&x, &y);
    let ours = library.map(|l| l.eval_eq_rot_cube(&a, &b));
    let expected = [words(eq), words(rot)];
    tally.compare("eval_eq_rot_cube", &(&a, &b), expected, ours);
}

fn prism(rng: &mut Rng, library: Option<&dyn Library>, tally: &mut Tally) {
    let l_skip = rng.below(11);
    let coordinates = rng.between(1, 7) as usize;
    let (a, b) = points(rng, coordinates);
    let (x, y) = (elements(&a), elements(&b));
    let given = (l_skip, &a, &b);
    let expected = words(eval_eq_prism(l_skip as usize, &x, &y));
    let ours = library.map(|l| l.eval_eq_prism(l_skip, &a, &b));
    tally.compare("eval_eq_prism", &given, expected, ours);
    let expected = words(eval_rot_kernel_prism(l_skip as usize, &x, &y));
    let ours = library.map(|l| l.eval_rot_kernel_prism(l_skip, &a, &b));
    tally.compare("eval_rot_kernel_prism", &given, expected, ours);
}

fn polynomials(rng: &mut Rng, library: Option<&dyn Library>, tally: &mut Tally) {
    let x = rng.edge_element();
    let count = rng.below(33) as usize;
    let c = rng.edge_words(4 * count);
    let value: EF = horner_eval(&elements(&c), element(x));
    let ours = library.map(|l| l.horner_eval(&c, x));
    tally.compare("horner_eval", &(&c, x), words(value), ours);

    let e: [[u32; 4]; 3] = std::array::from_fn(|_| rng.edge_element());
    let value = interpolate_linear_at_01(&[element(e[0]), element(e[1])], element(x));
    let ours = library.map(|l| l.interpolate_linear_at_01([e[0], e[1]], x));
    tally.compare("interpolate_linear_at_01", &(e, x), words(value), ours);
    let value = interpolate_quadratic_at_012(&e.map(element), element(x));
    let ours = library.map(|l| l.interpolate_quadratic_at_012(e, x));
    tally.compare("interpolate_quadratic_at_012", &(e, x), words(value), ours);
}

/// A starting element, now and then 0, 1 or p − 1, or with a word that is not below p.
fn starting(rng: &mut Rng) -> [u32; 4] {
    let mut start = match rng.below(8) {
        0 => [0; 4],
        1 => [1, 0, 0, 0],
        2 => [P - 1, 0, 0, 0],
        3 => std::array::from_fn(|_| rng.pick(&[0, 1, P - 1])),
        _ => std::array::from_fn(|_| rng.word()),
    };
    if rng.once_in(8) {
        start[rng.below(4) as usize] = rng.pick(&[P, P + 1, u32::MAX]);
    }
    start
}

/// The table writer: the Rust's entries, each times the starting element; 9 for a wrong length of either slice, 10 for a word of
/// the point or of the starting element that is not below p.
fn table(rng: &mut Rng, library: Option<&dyn Library>, tally: &mut Tally) {
    let start = starting(rng);
    let coordinates = if rng.once_in(1024) {
        16
    } else {
        rng.below(8) as usize
    };
    let mut x = rng.words(4 * coordinates);
    let mut length = 4usize << coordinates;
    match rng.below(8) {
        0 => length = length.saturating_add_signed(rng.pick(&[-4, -1, 1, 4])),
        1 if !x.is_empty() => {
            x.pop();
        }
        2 if !x.is_empty() => {
            let at = rng.below(x.len() as u32) as usize;
            x[at] = rng.pick(&[P, P + 1, u32::MAX]);
        }
        _ => {}
    }
    let number = if x.len() % 4 != 0 || length != 4 << (x.len() / 4) {
        9
    } else if x.iter().chain(&start).any(|word| *word >= P) {
        10
    } else {
        0
    };
    tally.number(number);
    let mark = rng.next() as u32;
    let written = (number == 0).then(|| started(start, &x));
    let expected = (number, Lent::new(length, mark).expected(written.as_deref()));
    let ours = library.map(|l| {
        let mut out = Lent::new(length, mark);
        (l.evals_eq_hypercube(start, &x, out.slice()), out.entries())
    });
    tally.compare("evals_eq_hypercube", &(start, &x, length), expected, ours);
}
