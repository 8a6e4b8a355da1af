//! Round zero: the first polynomial beside the original's, and the trace columns' openings beside those of the original's `Ple`, each
//! after calls that are refused.
use super::{
    lent::Lent,
    run_faults::{damage_counts, damage_lists, length, word},
    runs::{drawn_element, drawn_power},
    Tally,
};
use crate::{
    field::{constant, element, elements, flat, PrimeCharacteristicRing, EF, P},
    library::{Library, RunLent, StepAnswer, Words},
    original::{Committed, Run},
    random,
    rng::Rng,
    scope::{self, Call, RunGiven, RunInput, Turn, WorkBuffers},
    shape::{matrix, Shape},
};

/// The turn of the first polynomial.
const DUE: u32 = 1;

/// What either call is given, by words; the openings have no turn.
#[derive(Clone, Debug)]
struct Drawn {
    call: Made,
    turn: u32,
    input: RunInput,
    /// Words of the slice lent for the result.
    out: usize,
}

#[derive(Clone, Copy, Debug, PartialEq, Eq)]
enum Made {
    Coefficients,
    Claims,
}

pub fn case(rng: &mut Rng, library: Option<&dyn Library>, tally: &mut Tally) {
    let (shape, matrices, input) = drawn(rng);
    let committed = Committed::new(&shape, &matrices);
    let (r, lambda) = (elements(&input.r), element(input.lambda));
    let first = Run::start(&committed, &r, lambda).first_polynomial();
    for (call, made) in [
        (Made::Coefficients, flat(&first)),
        (Made::Claims, flat(&committed.claims(&r))),
    ] {
        let given = Drawn {
            call,
            turn: DUE,
            input: input.clone(),
            out: made.len(),
        };
        refused_calls(rng, &given, library, tally);
        assert_eq!(given.number(), 0, "document 02 accepts {given:?}");
        compare(rng, &given, 0, Some(&made), library, tally);
    }
}

/// The claims alone, on these stacked matrices.
pub fn openings(
    rng: &mut Rng,
    committed: &Committed,
    library: Option<&dyn Library>,
    tally: &mut Tally,
) {
    let r = rng.elements(committed.shape.n_stack as usize + 1);
    let claims = flat(&committed.claims(&r));
    let given = Drawn {
        call: Made::Claims,
        turn: DUE,
        input: RunInput {
            lists: committed.shape.by_words(),
            r: flat(&r),
            lambda: drawn_edge(rng),
            matrices: committed.matrices(),
        },
        out: claims.len(),
    };
    compare(rng, &given, 0, Some(&claims), library, tally);
}

/// A shape, its stacked matrices, and what the calls are given with them.
fn drawn(rng: &mut Rng) -> (Shape, Vec<u32>, RunInput) {
    let shape = drawn_shape(rng);
    let any_words = rng.once_in(2);
    let mut matrices = random::matrices(rng, &shape, any_words);
    let mut r: Vec<EF> = (0..=shape.n_stack)
        .map(|_| element(drawn_edge(rng)))
        .collect();
    if rng.once_in(4) {
        r[0] = element(drawn_power(rng, shape.l_skip));
    }
    if rng.once_in(8) {
        matrices.fill(P - 1);
        at_lasts(&mut r);
    }
    let input = RunInput {
        lists: shape.by_words(),
        r: flat(&r),
        lambda: drawn_edge(rng),
        matrices: matrices.clone(),
    };
    (shape, matrices, input)
}

/// Every l_skip with n_stack up to 5. One in 64 is larger: 2^15 rows, or columns of more than 256 blocks of 2^l_skip rows.
fn drawn_shape(rng: &mut Rng) -> Shape {
    if let Some(shape) = random::many_matrices(rng) {
        return shape;
    }
    let large = rng.once_in(64);
    let (l_skip, n_stack) = match large {
        true if rng.once_in(2) => {
            let l_skip = rng.below(11);
            (l_skip, 15 - l_skip)
        }
        true => (rng.below(5), rng.between(8, 10)),
        false => (rng.below(11), rng.below(6)),
    };
    let commitments = match rng.below(32) {
        0 => 16,
        _ => rng.between(1, 4),
    };
    let width = if large { 1 } else { rng.between(1, 3) };
    let mut shape = random::shape(
        rng,
        l_skip,
        n_stack,
        commitments.min(if large { 2 } else { 16 }),
        width,
    );
    // A column of 256 blocks or more, flagged or not, before all others.
    if large && n_stack >= 8 {
        let log_height = l_skip + rng.between(8, n_stack.min(9));
        let list = &mut shape.lists[0];
        list.retain(|m| m.log_height <= log_height);
        list.insert(0, matrix(1, log_height, rng.below(2)));
    }
    shape
}

/// r_1 to r_8 of one half, which makes the 256 entries of a table the same, and an r_9 with which those of the blocks from 256 on are
/// p - 1 in every word.
fn at_lasts(r: &mut [EF]) {
    for (j, x) in r.iter_mut().enumerate() {
        match j {
            1..=8 => *x = EF::ONE.halve(),
            9 => *x = element([P - 1; 4]) * constant(256),
            _ => {}
        }
    }
}

/// Zero, one, words of p - 1, or any element.
fn drawn_edge(rng: &mut Rng) -> Words {
    match rng.below(12) {
        0 => [0; 4],
        1 => [1, 0, 0, 0],
        2 => [P - 1, 0, 0, 0],
        3 => [P - 1; 4],
        _ => drawn_element(rng),
    }
}

/// Up to three calls that are refused, with one or two things wrong; they leave all as it was.
fn refused_calls(rng: &mut Rng, given: &Drawn, library: Option<&dyn Library>, tally: &mut Tally) {
    for _ in 0..rng.below(4) {
        let mut damaged = given.clone();
        for _ in 0..rng.between(1, 2) {
            damage(rng, &mut damaged);
        }
        let number = damaged.number();
        if number != 0 {
            compare(rng, &damaged, number, None, library, tally);
        }
    }
}

fn damage(rng: &mut Rng, given: &mut Drawn) {
    let input = &mut given.input;
    let lists = &mut input.lists;
    match rng.below(14) {
        0 => lists.l_skip = rng.pick(&[lists.l_skip + 1, 11, 25, u32::MAX]),
        1 => lists.n_stack = rng.pick(&[lists.n_stack + 1, 21, 25, u32::MAX]),
        2 => damage_counts(rng, &mut lists.counts),
        3 | 4 => damage_lists(rng, lists),
        5 | 6 => {
            given.turn = match rng.below(4) {
                0 => rng.pick(&[u32::MAX, 1 << 31]),
                _ => rng.below(2 * lists.n_stack.min(20) + 6),
            }
        }
        7 => length(rng, &mut input.r),
        8 => length(rng, &mut input.matrices),
        9 => {
            let other = match given.call {
                Made::Coefficients => 4 * lists.claim_count(),
                Made::Claims => 4 * ((2usize << lists.l_skip.min(10)) - 1),
            };
            let more = given.out + 4;
            let less = given.out - given.out.min(4);
            let lengths = [
                0,
                given.out - given.out.min(1),
                given.out + 1,
                less,
                more,
                other,
            ];
            given.out = rng.pick(&lengths).min(1 << 17);
        }
        10 => word(rng, &mut input.r),
        11 => word(rng, &mut input.lambda),
        12 => word(rng, &mut input.matrices),
        _ => {
            if let Some(last) = input.matrices.last_mut() {
                *last = P;
            }
        }
    }
}

/// The answer and the lent slice between guards. A refused call of the first polynomial keeps the turn, and writes nothing.
fn compare(
    rng: &mut Rng,
    given: &Drawn,
    number: u32,
    made: Option<&[u32]>,
    library: Option<&dyn Library>,
    tally: &mut Tally,
) {
    tally.number(number);
    tally.words(2 + given.out);
    let mark = rng.next() as u32;
    let turn = match given.call {
        Made::Claims => 0,
        Made::Coefficients if number == 0 => given.turn + 1,
        Made::Coefficients => given.turn,
    };
    let answer = StepAnswer {
        number,
        turn,
        ..Default::default()
    };
    let expected = (answer, Lent::new(given.out, mark).expected(made));
    let ours = library.map(|library| given.asked(library, mark));
    let call = match given.call {
        Made::Coefficients => "first_polynomial",
        Made::Claims => "column_openings",
    };
    tally.compare(call, given, expected, ours);
}

impl Drawn {
    fn number(&self) -> u32 {
        let answer = match self.call {
            Made::Claims => scope::column_openings(&self.input, self.out),
            Made::Coefficients => {
                let turn = Turn::after_calls(self.turn, self.input.lists.n_stack);
                let given = RunGiven {
                    input: &self.input,
                    challenge: [0; 4],
                    work: WorkBuffers::of(&[[]; 4]),
                    coefficients: self.out,
                    openings: 0,
                };
                scope::run_call(turn, Call::First, &given).map(|_| ())
            }
        };
        answer.err().unwrap_or(0)
    }

    /// A library's answer, and the lent slice with its guards.
    fn asked(&self, library: &dyn Library, mark: u32) -> (StepAnswer, Vec<u32>) {
        let mut out = Lent::new(self.out, mark);
        let answer = match self.call {
            Made::Claims => StepAnswer {
                number: library.column_openings(&self.input, out.slice()),
                ..Default::default()
            },
            Made::Coefficients => {
                let lent = RunLent {
                    input: &self.input,
                    challenge: [0; 4],
                    work: [&mut [], &mut [], &mut [], &mut []],
                    coefficients: out.slice(),
                    openings: &mut [],
                };
                library.run_call(self.turn, Call::First, lent)
            }
        };
        (answer, out.entries())
    }
}

#[cfg(test)]
mod tests {
    use super::*;
    use crate::field::words;

    /// What the first six thousand cases of the driver's seed are given.
    #[test]
    fn every_kind_is_drawn() {
        let cases: Vec<(Shape, RunInput)> = (0..6_000)
            .map(|case| {
                let (shape, _, input) = drawn(&mut Rng::of_case(1, case));
                (shape, input)
            })
            .collect();
        let any = |what: &str, holds: &dyn Fn(&Shape, &RunInput) -> bool| {
            assert!(
                cases.iter().any(|(s, i)| holds(s, i)),
                "{what} is not drawn"
            );
        };
        for l_skip in 0..=10 {
            for n_stack in 0..=5 {
                any("a size", &|s, _| (s.l_skip, s.n_stack) == (l_skip, n_stack));
            }
            any("2^15 rows", &|s, _| {
                s.l_skip == l_skip && s.l_skip + s.n_stack == 15
            });
        }
        for flag in [0, 1] {
            for lift in [8, 9] {
                let long = |s: &Shape| {
                    s.columns()
                        .any(|m| m.log_height == s.l_skip + lift && m.flag == flag)
                };
                any("a long column", &|s, _| long(s));
                let half = words(EF::ONE.halve());
                any("words of p - 1", &|s, i| {
                    long(s) && i.r[4..8] == half && i.matrices.iter().all(|x| *x == P - 1)
                });
            }
            for l_skip in 1..=10 {
                any("a short column", &|s, _| {
                    s.l_skip == l_skip
                        && s.columns().any(|m| m.log_height < l_skip && m.flag == flag)
                });
            }
        }
        for commitments in [1, 2, 3, 4, 16] {
            any("so many commitments", &|s, _| s.lists.len() == commitments);
        }
        any("many matrices", &|s, _| s.lists[0].len() > 256);
        any("a power as r_0", &|s, i| {
            s.l_skip > 0 && scope::in_skip_subgroup(s.l_skip, i.r[..4].try_into().unwrap())
        });
        for edge in [[0; 4], [P - 1, 0, 0, 0], [P - 1; 4]] {
            any("lambda at an edge", &|_, i| i.lambda == edge);
            any("r_0 at an edge", &|_, i| i.r[..4] == edge);
        }
    }
}
