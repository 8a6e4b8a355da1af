//! Whole proofs: the library behind the original's trait beside the original's prover, both driven by
//! the original, and each of the two proofs judged by the original's verifier and by the library's
//! verdict, the library's on the claims that it opens itself. Where u_0 lies in the skip subgroup the original's prover divides by zero: in place of its
//! proof stands its first polynomial with document 01's sums.
use super::{
    lent::Lent,
    runs::{drawn_element, drawn_u_0},
    verdicts, Tally,
};
use crate::{
    field::{element, elements, flat, words, EF},
    library::{Library, VerdictAnswer},
    original::{self, Amiss, Committed, Given, Outcome, Prepared, Proof, Run, StackedLayout},
    random,
    rng::Rng,
    scope::{self, RunInput},
    shape::Shape,
    sums::SummedRun,
};

/// What both provers are given; challenges are lambda, then u_0 to u_n_stack.
#[derive(Debug)]
struct Drawn {
    shape: Shape,
    matrices: Vec<u32>,
    r: Vec<EF>,
    challenges: Vec<EF>,
}

/// A proof by words, and all that a transcript shows of it.
#[derive(Debug, PartialEq, Eq)]
struct Shown {
    first: Vec<u32>,
    pairs: Vec<Vec<u32>>,
    /// Of each commitment.
    openings: Vec<Vec<u32>>,
    transcript: Heard,
    amiss: Vec<Amiss>,
}

/// The observed words, and how many of them stood before each word of a challenge.
#[derive(Clone, Debug, PartialEq, Eq)]
struct Heard {
    observed: Vec<u32>,
    observed_before: Vec<usize>,
}

pub fn case(rng: &mut Rng, library: Option<&dyn Library>, tally: &mut Tally) {
    let drawn = Drawn::new(rng);
    let (r, challenges) = (&drawn.r, &drawn.challenges);
    let committed = Committed::new(&drawn.shape, &drawn.matrices);
    let claims = committed.claims(r);
    tally.powers += u64::from(drawn.inside());
    let (honest, heard) = if drawn.inside() {
        drawn.proof_by_sums(&committed)
    } else {
        let (proof, transcript) = original::prove(&committed, r, challenges);
        (proof, Heard::new(&transcript))
    };
    let ours = library.map(|l| original::prove_behind_trait(l, &committed, r, challenges));
    let expected = Shown::new(&honest, heard.clone(), &[]);
    let shown = ours
        .as_ref()
        .map(|(p, t, amiss)| Shown::new(p, Heard::new(t), amiss));
    tally.compare("proof", &drawn, expected, shown);

    let mark = rng.next() as u32;
    let lent = || Lent::new(4 * claims.len(), mark);
    let opened = library.map(|library| drawn.opened(library, lent()));
    let expected = (0, lent().expected(Some(&flat(&claims))));
    let shown = opened
        .as_ref()
        .map(|(number, out)| (*number, out.entries()));
    tally.compare("column_openings", &drawn, expected, shown);

    let ours = ours.map(|(proof, ..)| proof);
    let own_claims = opened.map_or(vec![], |(_, mut out)| elements(out.slice()));
    let judged = |proof: &Proof, claims: &[EF]| {
        let layouts = committed.layouts();
        let prepared = Prepared::of_proof(&drawn.shape, layouts, proof.clone(), claims);
        let verdict = prepared.verdict(r, challenges);
        (verdict.outcome, Heard::new(&verdict.transcript))
    };
    let accepted = || (Outcome::Accepted, heard.clone());
    let original = judged(&honest, &claims);
    assert_eq!(original, accepted(), "the original's own proof");
    tally.number(0);
    let shown = ours.as_ref().map(|proof| judged(proof, &own_claims));
    tally.compare("verifier", &drawn, accepted(), shown);

    let observed = heard.observed.clone();
    for (call, proof, claims) in [
        ("verdict on the original's proof", Some(&honest), &claims),
        ("verdict on the library's proof", ours.as_ref(), &own_claims),
    ] {
        let lent = Lent::new(observed.len(), mark);
        let expected = (VerdictAnswer::default(), lent.expected(Some(&observed)));
        let answer = library.zip(proof).map(|(library, proof)| {
            verdicts::Drawn::of_proof(&drawn.shape, r, challenges, claims, proof)
                .asked(library, mark)
        });
        tally.compare(call, &drawn, expected, answer);
    }
}

impl Drawn {
    fn new(rng: &mut Rng) -> Self {
        let shape = drawn_shape(rng);
        let any_words = rng.once_in(4);
        let matrices = random::matrices(rng, &shape, any_words);
        let rounds = shape.n_stack as usize;
        let mut drawn = |count| (0..count).map(|_| element(drawn_element(rng))).collect();
        let (r, lambda): (_, Vec<EF>) = (drawn(rounds + 1), drawn(1));
        let later: Vec<EF> = drawn(rounds);
        let u_0 = element(drawn_u_0(rng, &shape));
        Self {
            shape,
            matrices,
            r,
            challenges: [lambda, vec![u_0], later].concat(),
        }
    }

    fn inside(&self) -> bool {
        scope::in_skip_subgroup(self.shape.l_skip, words(self.challenges[1]))
    }

    /// The claims that the library opens: its number, and the slice with its guards.
    fn opened(&self, library: &dyn Library, mut out: Lent<u32>) -> (u32, Lent<u32>) {
        let input = RunInput {
            lists: self.shape.by_words(),
            r: flat(&self.r),
            lambda: words(self.challenges[0]),
            matrices: self.matrices.clone(),
        };
        let number = library.column_openings(&input, out.slice());
        (number, out)
    }

    /// The original's first polynomial, pairs and openings by sums, and what a transcript hears of them: lambda stands before
    /// everything, u_0 after the first polynomial, each later challenge after its pair.
    fn proof_by_sums(&self, committed: &Committed) -> (Proof, Heard) {
        let lambda = self.challenges[0];
        let first = Run::start(committed, &self.r, lambda).first_polynomial();
        let mut run = SummedRun::start(committed, &self.r, lambda);
        run.fold_at_u_0(self.challenges[1]);
        let mut observed = flat(&first);
        let mut observed_before = vec![0; 4];
        observed_before.resize(8, observed.len());
        let mut pairs = vec![];
        for u in &self.challenges[2..] {
            pairs.push(run.pair());
            run.fold(*u);
            observed.extend(flat(&pairs[pairs.len() - 1]));
            observed_before.resize(observed_before.len() + 4, observed.len());
        }
        let openings = run.openings();
        observed.extend(flat(&openings));
        let mut left = openings.into_iter();
        let dealt = |layout: StackedLayout| left.by_ref().take(layout.width()).collect();
        let proof = Proof {
            univariate_round_coeffs: first,
            sumcheck_round_polys: pairs,
            stacking_openings: committed.layouts().into_iter().map(dealt).collect(),
        };
        let heard = Heard {
            observed,
            observed_before,
        };
        (proof, heard)
    }
}

/// l_skip and n_stack up to 6, and an l_skip of 10 now and then; up to 16 commitments; here and there many matrices.
fn drawn_shape(rng: &mut Rng) -> Shape {
    if let Some(shape) = random::many_matrices(rng) {
        return shape;
    }
    let (l_skip, n_stack) = match rng.below(64) {
        0 => (10, rng.below(3)),
        _ => (rng.below(7), rng.below(7)),
    };
    let commitments = match rng.below(32) {
        0 => 16,
        _ => rng.between(1, 4),
    };
    let width = rng.between(1, 4);
    random::shape(rng, l_skip, n_stack, commitments, width)
}

impl Shown {
    fn new(proof: &Proof, transcript: Heard, amiss: &[Amiss]) -> Self {
        Self {
            first: flat(&proof.univariate_round_coeffs),
            pairs: proof.sumcheck_round_polys.iter().map(|p| flat(p)).collect(),
            openings: proof.stacking_openings.iter().map(|o| flat(o)).collect(),
            transcript,
            amiss: amiss.to_vec(),
        }
    }
}

impl Heard {
    fn new(transcript: &Given) -> Self {
        Self {
            observed: transcript.observed(),
            observed_before: transcript.observed_before().to_vec(),
        }
    }
}

#[cfg(test)]
mod tests {
    use super::*;

    /// Shapes of the first two thousand cases of the driver's seed.
    #[test]
    fn every_kind_of_shape_is_drawn() {
        let shapes: Vec<Shape> = (0..2_000)
            .map(|case| Drawn::new(&mut Rng::of_case(1, case)).shape)
            .collect();
        let drawn = |kind: &dyn Fn(&Shape) -> bool| shapes.iter().any(kind);
        let sizes = (0..=6).flat_map(|l_skip| (0..=6).map(move |n_stack| (l_skip, n_stack)));
        for size in sizes.chain((0..=2).map(|n_stack| (10, n_stack))) {
            assert!(drawn(&|s| (s.l_skip, s.n_stack) == size), "{size:?}");
        }
        for l_skip in [1, 2, 3, 4, 5, 6, 10] {
            for flag in [0, 1] {
                let short =
                    |s: &Shape| s.columns().any(|m| m.log_height < l_skip && m.flag == flag);
                assert!(
                    drawn(&|s| s.l_skip == l_skip && short(s)),
                    "{l_skip} {flag}"
                );
            }
        }
        for commitments in [1, 2, 3, 4, 16] {
            assert!(drawn(&|s| s.lists.len() == commitments), "{commitments}");
        }
        for flag in [0, 1] {
            let empty = |s: &Shape| s.lists[0].iter().any(|m| m.width == 0 && m.flag == flag);
            assert!(drawn(&|s| empty(s)), "width 0, flag {flag}");
        }
        assert!(drawn(&|s| s.lists[0].len() > 256), "many matrices");
        let tall = |s: &Shape| s.lists[0][0].log_height == s.l_skip + s.n_stack;
        assert!(drawn(&|s| s.n_stack > 0
            && tall(s)
            && s.lists[0][0].width > 1));
    }
}
