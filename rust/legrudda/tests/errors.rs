//! Document 01's table: each number by its example, as a typed error.
use legrudda::{layout, verdict, Asked, Element, Error, Run, P};

fn word(word: u32) -> Element {
    Element::from([word, 0, 0, 0])
}

fn plan(l_skip: u32, n_stack: u32, list: &[u32]) -> Error {
    layout::plan(l_skip, n_stack, list).unwrap_err()
}

/// The verdict at l_skip 0 and n_stack 0 on one column of one row.
fn one_row(claim: u32, coefficient: u32, opening: u32, r: &[u32]) -> Result<(), Error> {
    let asked = Asked {
        l_skip: 0,
        n_stack: 0,
        counts: &[1],
        lists: &[1, 0, 0],
        r,
        lambda: word(5),
        challenges: &word(9).words,
        claims: &word(claim).words,
        coefficients: &word(coefficient).words,
        pairs: &[],
        openings: &word(opening).words,
    };
    verdict(&asked, &mut vec![0; asked.observed_len()])
}

/// The examples in the table's order; 12 has none, since no call gives it.
fn table() -> [Error; 13] {
    let r = [7, 0, 0, 0];
    let mut run = Run::new(0, 0, &[1], &[1, 0, 0], &r, word(5));
    let out_of_turn = run.round_pair(1).unwrap_err();
    let stack = |traces: &[u32]| layout::stacked_matrix(0, 2, traces, &[], &mut [0; 4]);
    [
        plan(11, 0, &[1, 0, 0]),
        plan(0, 0, &[4097, 0, 0]),
        stack(&[1, 3, 0]).unwrap_err(),
        plan(1, 1, &[1, 3, 0]),
        plan(0, 3, &[1, 2, 0, 1, 3, 0]),
        plan(0, 2, &[1, 0, 0, 1, 1, 0]),
        stack(&[0, 1, 0]).unwrap_err(),
        out_of_turn,
        one_row(2, 2, 2, &[7, 0, 0]).unwrap_err(),
        one_row(2, 2, 2, &[P, 0, 0, 0]).unwrap_err(),
        layout::get(0, 0, &[1, 0, 0], 0, 1).unwrap_err(),
        one_row(1, 2, 2, &r).unwrap_err(),
        one_row(2, 2, 3, &r).unwrap_err(),
    ]
}

#[test]
fn examples() {
    let expected = [
        Error::LimitExceeded,
        Error::TooManyColumns,
        Error::HeightNotOneBit,
        Error::LayoutHeightExceeded,
        Error::LayoutRowOverflow,
        Error::HeightsRise,
        Error::NoColumn,
        Error::OutOfTurn,
        Error::WrongLength,
        Error::NotCanonical,
        Error::NoSuchColumn,
        Error::S0Mismatch {
            s_0: word(1),
            s_0_sum_eval: word(2),
        },
        Error::FinalSumMismatch {
            claim: word(2),
            final_sum: word(3),
        },
    ];
    assert_eq!(table(), expected);
    assert_eq!(one_row(2, 2, 2, &[7, 0, 0, 0]), Ok(()));
}

/// Document 01's example of 12 is taken since document 02, C-13, and the value is the row itself.
#[test]
fn every_u_0_is_taken() {
    let mut run = Run::new(0, 0, &[1], &[1, 0, 0], &[7, 0, 0, 0], word(5));
    run.start().unwrap();
    run.first_polynomial(&[3]).unwrap();
    run.fold_ple_evals(&[3], word(1)).unwrap();
    assert_eq!(run.openings().unwrap(), [3, 0, 0, 0]);
    assert_eq!(Error::InSkipSubgroup.number(), 12);
}

#[test]
fn numbers_and_texts() {
    for (number, error) in (1..=11).chain(13..).zip(table()) {
        assert_eq!(error.number(), number);
        let text = (&error as &dyn std::error::Error).to_string();
        assert!(
            text.starts_with(&format!("refused as {number}: ")),
            "{text}"
        );
    }
    let [.., thirteen, fourteen] = table().map(|error| error.to_string());
    assert!(thirteen.contains("[1, 0, 0, 0]") && thirteen.contains("[2, 0, 0, 0]"));
    assert!(fourteen.contains("[2, 0, 0, 0]") && fourteen.contains("[3, 0, 0, 0]"));
}
