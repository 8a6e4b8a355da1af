//! The field functions on the stored session, and those that it has no line for by what they must equal there.
use elements::element;
use legrudda::{field, Element, Error, P};
use session::{answer, replay, stored};

mod elements;
mod session;

/// A function's value, once the operator and its assigning form have given it too.
fn thrice(
    numbers: &[u32],
    function: fn(Element, Element) -> Element,
    operator: fn(Element, Element) -> Element,
    assign: fn(&mut Element, Element),
) -> Element {
    let (a, b) = (element(&numbers[..4]), element(&numbers[4..]));
    let value = function(a, b);
    assert_eq!(operator(a, b), value);
    let mut assigned = a;
    assign(&mut assigned, b);
    assert_eq!(assigned, value);
    value
}

#[test]
fn stored_answers() {
    let replayed = replay("field", |name, numbers| {
        let value = match name {
            "add" => thrice(numbers, field::add, |a, b| a + b, |a, b| *a += b),
            "sub" => thrice(numbers, field::sub, |a, b| a - b, |a, b| *a -= b),
            "mul" => thrice(numbers, field::mul, |a, b| a * b, |a, b| *a *= b),
            "square" => field::square(element(numbers)),
            "halve" => field::halve(element(numbers)),
            "exp_power_of_2" => field::exp_power_of_2(element(&numbers[1..]), numbers[0]),
            _ => panic!("no such command"),
        };
        answer(Ok::<_, Error>(value.words))
    });
    assert_eq!(replayed, 211);
}

#[test]
fn functions_without_a_line() {
    let zero = Element::ZERO;
    let input = stored("field.in");
    for line in input.lines().filter(|line| line.starts_with("square ")) {
        let words: Vec<u32> = line
            .split(' ')
            .skip(1)
            .map(|w| w.parse().unwrap())
            .collect();
        let a = element(&words);
        assert_eq!(field::neg(a), field::sub(zero, a));
        assert_eq!(-a, field::neg(a));
        assert_eq!(field::double(a), field::add(a, a));
        assert_eq!(field::halve(field::double(a)), field::add(a, zero));
        assert_eq!(
            field::scale(a, words[0]),
            field::mul(a, field::from_word(words[0]))
        );
        assert_eq!(field::mul(a, Element::ONE), field::add(a, zero));
    }
    assert_eq!(field::from_word(P + 3).words, [3, 0, 0, 0]);
}

#[test]
fn elements_by_words() {
    for word in [0, 1, 2, P - 1, P, P + 3, u32::MAX] {
        assert_eq!(Element::from(word), field::from_word(word));
        assert_eq!(Element::from([word; 4]).words, [word; 4]);
    }
    assert_eq!(Element::ZERO, field::from_word(0));
    assert_eq!(Element::default(), Element::ZERO);
    assert_eq!(Element::ONE, field::from_word(1));
}

#[test]
fn powers_of_the_skip_generator() {
    assert_eq!(field::skip_power(0, 5), 1);
    for l_skip in 1..=10 {
        let order = 1 << l_skip;
        assert_eq!(field::skip_power(l_skip, order / 2), P - 1);
        assert_eq!(field::skip_power(l_skip, order), 1);
        assert_eq!(
            field::skip_power(l_skip, 1),
            field::skip_power(10, 1 << (10 - l_skip))
        );
    }
    // 440,564,289 has order 2^27.
    let raised = field::exp_power_of_2(field::from_word(440_564_289), 17);
    assert_eq!(raised, field::from_word(field::skip_power(10, 1)));
}

#[test]
fn elements_in_slices() {
    let mut slice = [1, 2, 3, 4, 5, 6, 7, 8, 9];
    assert_eq!(field::load(&slice, 1).words, [5, 6, 7, 8]);
    assert_eq!(field::load(&slice, 2).words, [9, 0, 0, 0]);
    assert_eq!(field::load(&slice, usize::MAX).words, [0; 4]);
    assert_eq!(field::load(&[], 0).words, [0; 4]);
    field::store(&mut slice, 1, [P, P + 1, 2, 3].into());
    assert_eq!(slice, [1, 2, 3, 4, 0, 1, 2, 3, 9]);
    field::store(&mut slice, 2, [20, 21, 22, 23].into());
    assert_eq!(slice, [1, 2, 3, 4, 0, 1, 2, 3, 20]);
    field::store(&mut slice, usize::MAX, [7; 4].into());
    assert_eq!(slice, [1, 2, 3, 4, 0, 1, 2, 3, 20]);
}
