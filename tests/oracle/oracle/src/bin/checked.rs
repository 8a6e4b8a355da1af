//! Document 01's checked values, out of the original Rust, and first polynomials and openings that were worked by hand. Ends
//! with an error if one differs.
use std::{fmt::Debug, process::ExitCode};

use oracle::{
    field::*,
    original::{self, *},
    record::digits,
    shape::{matrix, Shape},
};

#[derive(Default)]
struct Table {
    checked: u32,
    different: u32,
}

impl Table {
    fn check<T: Debug + PartialEq>(&mut self, name: &str, rust: T, wanted: T) {
        self.checked += 1;
        if rust == wanted {
            println!("{name}: {rust:?}");
        } else {
            self.different += 1;
            println!("{name}: {rust:?}, but {wanted:?} was checked");
        }
    }
}

fn main() -> ExitCode {
    let mut table = Table::default();
    constants(&mut table);
    tables(&mut table);
    folds(&mut table);
    layouts(&mut table);
    verdicts(&mut table);
    first_polynomials(&mut table);
    println!(
        "{} checked values, {} different",
        table.checked, table.different
    );
    ExitCode::from(u8::from(table.different > 0))
}

/// An element of one word, which may be negative.
fn e(x: i64) -> EF {
    constant(x.rem_euclid(P as i64) as u32)
}

fn constants(t: &mut Table) {
    let generator = residue(31).exp_u64(15);
    t.check("31^15", generator.word(), 440_564_289);
    let order = (generator.exp_power_of_2(26), generator.exp_power_of_2(27));
    t.check(
        "its 2^26-th and 2^27-th powers",
        order,
        (F::NEG_ONE, F::ONE),
    );
    let of_1024 = F::two_adic_generator(10);
    t.check(
        "generator of order 1,024",
        of_1024,
        generator.exp_power_of_2(17),
    );
    t.check("half", F::ONE.halve().word(), P.div_ceil(2));
    t.check(
        "X * X^3",
        element([0, 1, 0, 0]) * element([0, 0, 0, 1]),
        e(11),
    );
    t.check("(p - 1)^2", residue(P - 1).square(), F::ONE);
}

fn tables(t: &mut Table) {
    let quadratic = interpolate_quadratic_at_012(&[e(0), e(1), e(4)], e(3));
    t.check("values 0, 1, 4 at 0, 1, 2 give at 3", quadratic, e(9));
    let wanted = vec![e(2), e(-4), e(-3), e(6)];
    t.check("table of (2, 3)", evals_eq_hypercube(&[e(2), e(3)]), wanted);
    t.check("eval_eq_mle of 2, 3", eval_eq_mle(&[e(2)], &[e(3)]), e(8));
    let eq_rot = eval_eq_rot_cube(&[e(2)], &[e(3)]);
    t.check("eval_eq_rot_cube of 2, 3", eq_rot, (e(8), e(-7)));
    t.check("eval_eq_uni of 3, 5", eval_eq_uni(1, e(3), e(5)), e(8));
    t.check("eval_in_uni at n -1, z 3", eval_in_uni(1, -1, e(3)), e(2));
    t.check("eval_in_uni at n 0, z 3", eval_in_uni(1, 0, e(3)), e(1));
}

fn folds(t: &mut Table) {
    let rows = ColMajorMatrix::new(vec![residue(5), residue(6)], 1);
    let folded = fold_ple_evals(1, rows.as_view().into(), false, e(3)).values;
    t.check("rows 5, 6 fold at u_0 = 3 to", folded, vec![e(4)]);
    let values = ColMajorMatrix::new(vec![e(4), e(10)], 1);
    t.check(
        "4, 10 fold at 2 to",
        fold_mle_evals(values, e(2)).values,
        vec![e(16)],
    );
}

fn layouts(t: &mut Table) {
    let list = [matrix(1, 2, 0), matrix(2, 0, 1)];
    let plan = original::plan(1, 1, &list).unwrap();
    t.check("example of `plan`", (plan.width, plan.height), (2, 4));
    let records: Vec<String> = plan.records.iter().map(|r| digits(*r)).collect();
    let wanted = [
        "00000000000000001000000000000000",
        "00010000010000000000000000000000",
        "00010010010000020000000000000000",
    ];
    let wanted = wanted.map(String::from).to_vec();
    t.check("its records, as document 02 packs them", records, wanted);

    let cells = [5, 6, 7, 8, 9, 3];
    let stacked = original::stacked(1, 1, &list, &cells);
    t.check("the stacked matrix", stacked, vec![5, 6, 7, 8, 9, 0, 3, 0]);

    let columns = |l_skip, n_stack, width, log_height| {
        let plan = original::plan(l_skip, n_stack, &[matrix(width, log_height, 0)]).unwrap();
        (plan.width, plan.records.len())
    };
    t.check("width 4,096", columns(0, 0, 4_096, 0), (4_096, 4_096));
    t.check("log 24", columns(4, 20, 1, 24), (1, 1));
    let height_1 = original::stacked(0, 0, &[matrix(1, 0, 0)], &[5]);
    t.check("height 1", height_1, vec![5]);

    let number = |l_skip, n_stack, list: &[_]| original::plan(l_skip, n_stack, list).unwrap_err();
    t.check("row 4", number(1, 1, &[matrix(1, 3, 0)]), 4);
    t.check(
        "row 5",
        number(0, 3, &[matrix(1, 2, 0), matrix(1, 3, 0)]),
        5,
    );
}

fn verdicts(t: &mut Table) {
    let shape = Shape::new(0, 0, vec![vec![matrix(1, 0, 0)]]);
    let verdict = |claim, coefficient, opening| {
        let sent = Sent::constants(&[claim], &[coefficient], &[opening]);
        let verdict = original::verdict(&shape, &sent, &[e(7)], &[e(5), e(9)]);
        (verdict.outcome, verdict.observed)
    };
    let row_13 = (Outcome::Refused(13, e(1), e(2)), vec![]);
    t.check("row 13: claim 1, coefficient 2", verdict(1, 2, 2), row_13);
    let row_14 = (Outcome::Refused(14, e(2), e(3)), flat(&[e(2), e(3)]));
    t.check(
        "row 14: the same, claim 2, opening 3",
        verdict(2, 2, 3),
        row_14,
    );
    let accepted = (Outcome::Accepted, flat(&[e(2), e(2)]));
    t.check(
        "claim 2, coefficient 2, opening 2",
        verdict(2, 2, 2),
        accepted,
    );
}

/// Document 02, C-15: in quarters, then the openings.
fn first_polynomials(t: &mut Table) {
    for (what, l_skip, n_stack, log_height, flag, rows, r, quarters, openings) in [
        (
            "rows 5, 6",
            1,
            0,
            1,
            0,
            &[5, 6][..],
            &[3][..],
            &[11, 32, -3][..],
            &[4][..],
        ),
        (
            "cell 5, then 6",
            1,
            0,
            0,
            0,
            &[5, 6],
            &[3],
            &[11, 10, -1],
            &[5],
        ),
        (
            "cell 5, then 0",
            1,
            0,
            0,
            0,
            &[5, 0],
            &[3],
            &[5, 10, 5],
            &[5],
        ),
        (
            "rows 4, 10, flagged",
            0,
            1,
            1,
            1,
            &[4, 10],
            &[7, 8],
            &[-552],
            &[52, -38],
        ),
        (
            "rows 1 to 4, flagged",
            1,
            1,
            2,
            1,
            &[1, 2, 3, 4],
            &[3, 2],
            &[126, -78, 12],
            &[4, 13],
        ),
        ("cell 2", 0, 0, 0, 0, &[2], &[7], &[8], &[2]),
    ] {
        let shape = Shape::new(l_skip, n_stack, vec![vec![matrix(1, log_height, flag)]]);
        let committed = Committed::new(&shape, rows);
        let r: Vec<EF> = r.iter().map(|x| e(*x)).collect();
        let first = Run::start(&committed, &r, e(5)).first_polynomial();
        let first = first.iter().map(|c| c.double().double()).collect();
        let wanted: Vec<EF> = quarters.iter().map(|x| e(*x)).collect();
        t.check(
            &format!("{what}: four times the first polynomial"),
            first,
            wanted,
        );
        let wanted: Vec<EF> = openings.iter().map(|x| e(*x)).collect();
        t.check(&format!("{what}: openings"), committed.claims(&r), wanted);
    }
}
