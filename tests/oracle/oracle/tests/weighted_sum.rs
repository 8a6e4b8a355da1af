//! The original's claims, first polynomial, pairs, openings and work buffers against document 01's weighted sum, computed from
//! the input alone. Outside the skip subgroup all of them; inside, where the original's prover divides by zero, what the
//! original has there: its first polynomial's value, and its verifier's yes.
use oracle::{
    field::*,
    original::{self, horner_eval, Committed, Outcome, PeekedRun, Run, Sent},
    random,
    rng::Rng,
    shape::{matrix, Shape},
    sums::SummedRun,
};

/// The claims times their lambda powers: 2k for a column's plain claim, 2k + 1 for its rotated one.
fn weighted_claims(shape: &Shape, claims: &[EF], lambda: EF) -> EF {
    let mut claims = claims.iter();
    let mut total = EF::ZERO;
    for (k, matrix) in shape.columns().enumerate() {
        for power in 0..=matrix.flag as u64 {
            total += *claims.next().unwrap() * lambda.exp_u64(2 * k as u64 + power);
        }
    }
    total
}

fn check(committed: &Committed, rng: &mut Rng) {
    let shape = &committed.shape;
    let rounds = shape.n_stack as usize;
    let r = rng.elements(rounds + 1);
    let challenges = rng.elements(rounds + 2);
    let (lambda, u) = (challenges[0], &challenges[1..]);
    let (proof, prover_transcript) = original::prove(committed, &r, &challenges);
    let mut sums = SummedRun::start(committed, &r, lambda);

    let sent = Sent::of_proof(committed.claims(&r), proof);
    let claimed = weighted_claims(shape, &sent.claims, lambda);
    assert_eq!(claimed, sums.sum());

    let z = rng.element();
    let at_z: EF = horner_eval(&sent.first, z);
    let mut folded_at_z = sums.clone();
    folded_at_z.fold_at_u_0(z);
    assert_eq!(at_z, folded_at_z.sum());

    check_inside(committed, &r, lambda, &sent, &sums, rng);

    let mut run = PeekedRun::start(committed, &r, lambda);
    run.fold_at_u_0(u[0]);
    sums.fold_at_u_0(u[0]);
    assert_eq!(run.work_buffers(), sums.work_buffers());
    for round in 1..=rounds {
        let honest = sums.pair();
        assert_eq!(sent.pairs[round - 1], honest);
        assert_eq!(run.pair(round), honest);
        run.fold(round, u[round]);
        sums.fold(u[round]);
        assert_eq!(run.work_buffers(), sums.work_buffers());
    }
    assert_eq!(run.openings(), sent.openings);
    assert_eq!(sums.openings(), sent.openings);

    let verdict = original::verdict(shape, &sent, &r, &challenges);
    assert_eq!(verdict.outcome, Outcome::Accepted);
    assert_eq!(verdict.observed, prover_transcript.observed());
    assert_eq!(
        verdict.transcript.observed_before(),
        prover_transcript.observed_before()
    );
}

/// A run by sums at 1 and at one more power: the values are the rows, the original's first polynomial has the sum folded there,
/// and the original's verifier says yes to the sums' pairs and openings.
fn check_inside(
    committed: &Committed,
    r: &[EF],
    lambda: EF,
    sent: &Sent,
    started: &SummedRun,
    rng: &mut Rng,
) {
    let shape = &committed.shape;
    let order = 1 << shape.l_skip;
    for i in [0, rng.below(order)] {
        let u_0 = EF::from(F::two_adic_generator(shape.l_skip as usize).exp_u64(i as u64));
        let mut sums = started.clone();
        sums.fold_at_u_0(u_0);
        let matrices = committed.matrices();
        let rows = matrices.iter().skip(i as usize).step_by(order as usize);
        let rows: Vec<EF> = rows.map(|x| constant(*x)).collect();
        assert_eq!(sums.work_buffers()[0], flat(&rows));
        let at_u_0: EF = horner_eval(&sent.first, u_0);
        assert_eq!(at_u_0, sums.sum());
        let later = rng.elements(shape.n_stack as usize);
        let mut pairs = vec![];
        for u in &later {
            pairs.push(sums.pair());
            sums.fold(*u);
        }
        let sent = Sent {
            claims: sent.claims.clone(),
            first: sent.first.clone(),
            pairs,
            openings: sums.openings(),
        };
        let challenges = [vec![lambda, u_0], later].concat();
        let verdict = original::verdict(shape, &sent, r, &challenges);
        assert_eq!(verdict.outcome, Outcome::Accepted);
    }
}

#[test]
fn small_shapes() {
    for case in 0..600 {
        let mut rng = Rng::of_case(0xE4, case);
        let (l_skip, n_stack, commitments) = (rng.below(5), rng.below(5), rng.between(1, 4));
        let shape = random::shape(&mut rng, l_skip, n_stack, commitments, 3);
        let any_words = rng.once_in(2);
        let matrices = random::matrices(&mut rng, &shape, any_words);
        check(&Committed::new(&shape, &matrices), &mut rng);
    }
}

/// `examples/bring_up.in`: the pairs and the opening at 1, 2, 3 and at 1, 3, 4, and that the original's verifier too says yes to a
/// false claim at the first and 14 at the second.
#[test]
fn bring_up() {
    let shape = Shape::new(1, 2, vec![vec![matrix(1, 2, 0), matrix(2, 0, 1)]]);
    let committed = Committed::new(&shape, &[5, 6, 7, 8, 9, 0, 3, 0]);
    let r = [7, 8, 9].map(constant);
    let first = Run::start(&committed, &r, constant(5)).first_polynomial();
    assert_eq!(first, [503319641, 6375, 1509952589].map(constant));
    assert_eq!(committed.claims(&r), [18, 9, 9, 3, 3].map(constant));
    let pairs_and_opening = [
        ([2, 3], [2013243871, 2013046801], 2013265894),
        ([3, 4], [2013167371, 2012635229], 2013265852),
    ];
    for (later, second, opening) in pairs_and_opening {
        let mut sums = SummedRun::start(&committed, &r, constant(5));
        sums.fold_at_u_0(EF::ONE);
        let mut pairs = vec![];
        for u in later.map(constant) {
            pairs.push(sums.pair());
            sums.fold(u);
        }
        assert_eq!(
            pairs,
            [[11474, 2013244699], second].map(|pair| pair.map(constant))
        );
        assert_eq!(sums.openings(), [constant(opening)]);
        let challenges: Vec<EF> = [5, 1].into_iter().chain(later).map(constant).collect();
        let mut sent = Sent {
            claims: committed.claims(&r),
            first: first.clone(),
            pairs,
            openings: sums.openings(),
        };
        let outcome = |sent: &Sent| original::verdict(&shape, sent, &r, &challenges).outcome;
        assert_eq!(outcome(&sent), Outcome::Accepted);
        sent.claims[0] += EF::TWO;
        sent.first[0] += EF::ONE;
        let expected = match later {
            [2, 3] => Outcome::Accepted,
            _ => Outcome::Refused(14, constant(2010275188), constant(2010275185)),
        };
        assert_eq!(outcome(&sent), expected);
    }
}

#[test]
fn every_large_l_skip() {
    for l_skip in 5..=10 {
        let mut rng = Rng::of_case(0xE5, l_skip as u64);
        let shape = random::shape(&mut rng, l_skip, 1, 2, 2);
        let matrices = random::stacked_matrices(&mut rng, &shape);
        check(&Committed::new(&shape, &matrices), &mut rng);
    }
}
