//! The field functions on random and edge words; words at or above p are read modulo p.
use super::session::{with_words, Origin, Session};
use crate::{field::*, rng::Rng};

pub fn session() -> Session {
    let mut s = Session::new("field");
    let mut rng = Rng::new(0xF1E1D);
    checked_values(&mut s);
    for _ in 0..40 {
        let (a, b) = (rng.edge_element(), rng.edge_element());
        let (x, y) = (element(a), element(b));
        let both = [a, b].concat();
        s.done(&with_words("add", &both), &words(x + y));
        s.done(&with_words("sub", &both), &words(x - y));
        s.done(&with_words("mul", &both), &words(x * y));
        s.done(&with_words("square", &a), &words(x.square()));
        s.done(&with_words("halve", &a), &words(x.halve()));
    }
    for k in [0, 1, 2, 5, 10, 26, 27, 31] {
        let a = rng.edge_element();
        let power = element(a).exp_power_of_2(k as usize);
        let command = with_words("exp_power_of_2", &[&[k][..], &a].concat());
        s.done(&command, &words(power));
    }
    s
}

fn checked_values(s: &mut Session) {
    s.ask(Origin::Document, "mul 0 1 0 0 0 0 0 1", "ok 11 0 0 0");
    let minus_one = P - 1;
    let square = format!("square {minus_one} 0 0 0");
    s.ask(Origin::Document, &square, "ok 1 0 0 0");
    let half = P.div_ceil(2);
    s.ask(
        Origin::Document,
        "halve 1 0 0 0",
        &format!("ok {half} 0 0 0"),
    );
}
