//! The verdict alone, by both sides, on the same honest proof.
use oracle::{
    clock::timed_often,
    original::{Outcome, Prepared, Sent},
    random::Case,
};
#[cfg(feature = "ours")]
use oracle::{
    field::{flat, words},
    library::Library,
    ours::Ours,
    scope::VerdictGiven,
};

/// Seconds of one verdict of the original.
pub fn original(case: &Case, sent: &Sent) -> f64 {
    let challenges = case.challenges();
    let prepared = Prepared::new(case.shape(), sent);
    timed_often(|| {
        let verdict = prepared.verdict(&case.r, &challenges);
        assert_eq!(verdict.outcome, Outcome::Accepted);
    })
}

/// Seconds of one verdict of the linked library, which must observe what was sent.
#[cfg(feature = "ours")]
pub fn ours(case: &Case, sent: &Sent) -> f64 {
    let (first, pairs) = (flat(&sent.first), flat(&sent.pairs.concat()));
    let openings = flat(&sent.openings);
    let expected = [&first[..], &pairs, &openings].concat();
    let mut observed = vec![0; expected.len()];
    let given = VerdictGiven {
        lists: &case.shape().by_words(),
        r: &flat(&case.r),
        lambda: words(case.lambda),
        challenges: &flat(&case.u),
        claims: &flat(&sent.claims),
        first: &first,
        pairs: &pairs,
        openings: &openings,
        observed: observed.len(),
    };
    let seconds = timed_often(|| {
        let answer = Ours.verdict(&given, &mut observed);
        assert_eq!(answer.number, 0);
    });
    assert_eq!(observed, expected);
    seconds
}

/// verdict L N COLUMNS ours SECONDS rust SECONDS ratio R
#[cfg(feature = "ours")]
pub fn print(case: &Case) {
    let shape = case.shape();
    let sent = crate::original::sent(case);
    let (ours, rust) = (ours(case, &sent), original(case, &sent));
    println!(
        "verdict {} {} {} ours {ours:.6} rust {rust:.6} ratio {:.3}",
        shape.l_skip,
        shape.n_stack,
        shape.columns().count(),
        ours / rust
    );
}
