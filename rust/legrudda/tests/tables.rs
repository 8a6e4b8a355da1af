//! Kernels, tables and interpolation on the stored session, and those that it has no line for.
use elements::element;
use legrudda::{field, tables, Element, Error};
use session::{answer, replay};

mod elements;
mod session;

#[test]
fn stored_answers() {
    let replayed = replay("tables", |name, numbers| answer(call(name, numbers)));
    assert_eq!(replayed, 270);
}

fn call(name: &str, numbers: &[u32]) -> Result<Vec<u32>, Error> {
    let points = |both: &[u32]| {
        let (x, y) = both.split_at(both.len() / 2);
        (x.to_vec(), y.to_vec())
    };
    let value = match name {
        "eval_eq_mle" => {
            let (x, y) = points(numbers);
            tables::eval_eq_mle(&x, &y)
        }
        "eval_eq_rot_cube" => {
            let (x, y) = points(numbers);
            let (eq, rot) = tables::eval_eq_rot_cube(&x, &y);
            return Ok([eq.words, rot.words].concat());
        }
        "evals_eq_hypercube" => {
            let mut table = vec![0; 4 << (numbers.len() / 4)];
            tables::evals_eq_hypercube(1.into(), numbers, &mut table)?;
            return Ok(table);
        }
        "evals_eq_hypercube_from" => {
            let (start, point) = numbers.split_at(4);
            let mut table = vec![0; 4 << (point.len() / 4)];
            tables::evals_eq_hypercube(element(start), point, &mut table)?;
            return Ok(table);
        }
        "eval_eq_uni" => {
            tables::eval_eq_uni(numbers[0], element(&numbers[1..5]), element(&numbers[5..]))
        }
        "eval_eq_uni_at_one" => tables::eval_eq_uni_at_one(numbers[0], element(&numbers[1..])),
        "eval_in_uni" => {
            let n = numbers[1] as i32 - numbers[0] as i32;
            tables::eval_in_uni(numbers[0], n, element(&numbers[2..]))
        }
        "eval_eq_prism" => {
            let (x, y) = points(&numbers[1..]);
            tables::eval_eq_prism(numbers[0], &x, &y)
        }
        "eval_rot_kernel_prism" => {
            let (x, y) = points(&numbers[1..]);
            tables::eval_rot_kernel_prism(numbers[0], &x, &y)
        }
        "horner_eval" => {
            let (coeffs, x) = numbers.split_at(numbers.len() - 4);
            tables::horner_eval(coeffs, element(x))
        }
        "interpolate_quadratic_at_012" => {
            let evals = [0, 4, 8].map(|i| element(&numbers[i..i + 4]));
            tables::interpolate_quadratic_at_012(evals, element(&numbers[12..]))
        }
        _ => panic!("no such command"),
    };
    Ok(value.words.to_vec())
}

/// 4 and 10 fold at 2 to 16.
#[test]
fn line_through_two_values() {
    let evals = [4, 10].map(field::from_word);
    let value = tables::interpolate_linear_at_01(evals, field::from_word(2));
    assert_eq!(value, field::from_word(16));
}

/// Entry i is the eq kernel of u and the subgroup's power i.
#[test]
fn kernels_of_the_skip_subgroup() {
    let u = Element::from([3, 1, 4, 1]);
    for l_skip in 0..=10 {
        let mut kernels = vec![0; 4 << l_skip];
        tables::eq_uni_kernels(l_skip, u, &mut kernels).unwrap();
        for i in 0..1 << l_skip {
            let power = field::from_word(field::skip_power(l_skip, i));
            let kernel = field::load(&kernels, i as usize);
            assert_eq!(kernel, tables::eval_eq_uni(l_skip, u, power));
        }
    }
}

/// Rows 5 and 6 fold at u_0 = 3 to 4.
#[test]
fn rows_weighed_by_kernels() {
    let mut kernels = [0; 8];
    tables::eq_uni_kernels(1, field::from_word(3), &mut kernels).unwrap();
    let weighed = [(0, 5), (1, 6)].map(|(i, row)| field::scale(field::load(&kernels, i), row));
    assert_eq!(field::add(weighed[0], weighed[1]), field::from_word(4));
}

#[test]
fn refused_tables_stay_as_they_were() {
    let mut out = [7; 7];
    let u = Element::default();
    let p = Element::from([0, 0, 0, legrudda::P]);
    for start in [u, p] {
        assert_eq!(
            tables::evals_eq_hypercube(start, &[1, 0, 0, 0], &mut out),
            Err(Error::WrongLength)
        );
        assert_eq!(
            tables::evals_eq_hypercube(start, &[1, 0, 0], &mut out[..4]),
            Err(Error::WrongLength)
        );
    }
    assert_eq!(
        tables::evals_eq_hypercube(p, &[], &mut out[..4]),
        Err(Error::NotCanonical)
    );
    assert_eq!(
        tables::eq_uni_kernels(1, u, &mut out),
        Err(Error::WrongLength)
    );
    assert_eq!(
        tables::eq_uni_kernels(11, u, &mut out),
        Err(Error::LimitExceeded)
    );
    assert_eq!(out, [7; 7]);
}
